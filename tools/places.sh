#!/usr/bin/env bash
# Lists, at the top of a checkout, the lines of crates/*/src at which an older form may stand, by the points of
# docs/DESIGN-PASS.md. Which of the lines are such places is read; the page says so for each.
cd "$(dirname "${BASH_SOURCE[0]}")/.." || exit 1
show() { # a title, and then a command that prints lines
    local title=$1 found
    shift
    found=$("$@" | grep -v '/tests\.rt:' | grep -vE '^[^:]*:[0-9]+: *//' || true)
    printf '== %s: %s\n' "$title" "$(printf '%s' "$found" | grep -c '')"
    [ -z "$found" ] || printf '%s\n' "$found"
}
src() { grep -rnE "$1" crates/*/src --include='*.rt'; }

show 'Option, Result: enums' src '^(pub(\(crate\))? )?enum '
show 'Option, Result: changes that answer a flag' src 'fn \w+\(&mut self.*-> bool'
show 'Option, Result: calls that answer a number of no meaning' src '^pub fn \w+\(\) -> u8$'
show 'Option, Result: fields that hold a number for a kind or a refusal' src '^    (pub )?(number|code|kind|turn): u(8|16|32),$'
show 'Option, Result: refusals passed on without ?' src 'Err\(\w+\) => (return Err|\{)|None => Err\('
show 'Option, Result: results thrown away' src 'let _ = '
show 'Option, Result: nothing answered where a test fails' src '^ +None$|\{ None \}|else \{ None'
show 'Twins: functions and types with a twin by name' src '(fn|struct|type) (\w+_(x|y|plain|flash)|Plain|Flash|from_number|number|zero|shift|place|(shifted|moved)_\w+|(offset|start)_stays|glyph_(along|across))\b'
show 'Loops: loops that are no for' src '\b(while|loop)\b.*\{$'
show 'Loops: counts that are kept by hand' src '(\+|-)= 1;'
show 'Conversions: conversions and printing by hand' src 'fn (number|from_number|byte|letter|name|message|reason|zero|is|step_of|decode|encode|hex)\b'
show 'Conversions: types with no equality of their own' src 'derive\(Clone, Copy\)'
show 'Facts: bounds on numbers in contracts' src '(requires|ensures) .*2 \^ (14|28|40|41|45)'
show 'Facts: what a put leaves, in contracts' src 'StaysIfRefused'
show 'Facts: a stack in contracts' src 'ensures .*reverse stack'
show 'Facts: a loan in contracts' src 'ensures loan'
show 'Facts: pairs of coordinates as parameters' src 'fn .*(a|x): i(32|64), (b|y): i(32|64)'
show 'Buffers: counts and places beside memory' src '^    (len|count|at): usize,'
show 'Buffers: memory with a count, as parameters' src 'fn .*memory: &.*count: usize|fn .*\((text|words): &(mut )?\[\w+\], (at|start): usize'
show 'Buffers: arrays beside one another' src 'zip\('
show 'Switches: numbers or enums that pick a step, tables of functions' src 'enum Thing|thing: Thing|\bfn\(|dyn '
printf '== Proofs: files of answers and invariants: %s; lines in proofs/: %s\n' \
    "$(find crates -path '*/proofs/*' -not -path '*/out/*' \( -name Answers.antt -o -name Invariants.antt \) | wc -l)" \
    "$(find crates -path '*/proofs/*' -not -path '*/out/*' -name '*.antt' -print0 | xargs -0 cat | wc -l)"
