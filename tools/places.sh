#!/bin/sh
# Lists lines of src/ that may be places for a newer form of the language, point by point, and counts them.
# Usage: tools/places.sh [COMMIT]    (no commit: the files as they stand)
# docs/DESIGN-PASS.md says which of the lines are places. A pattern that finds nothing prints its count, 0.
cd "$(dirname "$0")/.." || exit 1
at=$1

look() { # NAME PATTERN
    found=$(git grep -nE "$2" $at -- 'crates/*/src/*.rt' | grep -vE 'assert|^[^:]*:?[^:]*:[0-9]+:\s*//')
    printf '%s: %s\n' "$1" "$(printf '%s' "$found" | grep -c .)"
    [ -z "$found" ] || printf '%s\n' "$found" | sed 's/^/    /'
}

twice() { # NAME PATTERN: what is declared under one name in two or more places
    found=$(git grep -hoE "$2" $at -- 'crates/*/src/*.rt' | awk '{print $NF}' | sort | uniq -d | tr -d ':' | tr '\n' ' ')
    printf '%s: %s\n    %s\n' "$1" "$(echo $found | wc -w)" "$found"
}

echo '1 own enums like Option and Result, flags, numbers for kinds and refusals'
look '1.1 a number for a kind or a refusal' '\(u8\),|kind: u8|number: (Option<)?u8|fn judge.*Option<u8>'
look '1.2 a case of an enum that is there for no value' '^    (Nothing|Nowhere|Unknown|Empty),'
look '1.3 an Option or a Result taken apart by hand' '(None|Err\(_\)|Some\(_\)|Err\(fault\)) => (Err\(|None,|false,|true,|match)|if [a-z.]+is_(ok|some|err)\(\)|let (Some|Ok)\(.*\) = .* else|cause: ShelfCause::[A-Za-z]+,$'
look '1.4 a flag in a struct' '^\s+(pub )?[a-z_]+: bool,'

echo '2 twins'
twice '2.1 functions of one name outside traits' '^(pub(\(crate\))? )?fn [a-z_]+'
twice '2.2 constants of one name' '^\s*(pub )?const [A-Z_]+:'
look '2.3 numbers of eight digits or more' '[0-9]{8,}'
look '2.4 tests of a field against its range' 'fn checked'
look '2.5 a text that is made, filled and answered' 'let mut (out|shown) = Vec::new'
look '2.6 no word where one is wanted' 'return Err\([A-Za-z]+::MissingWord\)'

echo '3 loops that count by hand'
look '3.1 while, loop, ranges, enumerate' '^\s*(while|loop)\b|for .* in .*(\.\.|enumerate\(\))'
look '3.2 a counter' '\+= 1;|-= 1;'
look '3.3 a for that only looks for a byte' '^    for byte in item'

echo '4 equality, order, copying, conversion and printing by hand'
look '4.1 conversions' 'fn (refusal|detail|at_place|read_cause|read_opening\(high|write_opening|read_seconds)\b|fn read_opening\(high'
look '4.2 numbers of enums' '(reason|Reason::[A-Za-z]+|cause) as u8'
look '4.3 names of things' 'fn (cause_name|fault_text)'
look '4.4 printing of values' 'fn (push_detail|push_refusal|push_item|push_decimal|push_number|hex_digit|hex_value)\b'
look '4.5 words compared one by one' 'if is_word|^    is_word'
look '4.6 equality' 'fn is_word'

echo '5 facts and parameters that go together'
look '5.1 the parts of a value in a clause' 'held (m|self)\.|self\.(now|old|new)\.(rows|len)'
look '5.2 what is appended to a text' 'out\.old\.items \+\+'
look '5.3 a heap beside a vector that has one' 'heap: Global, out: &mut Vec|^    heap: Global,$'

echo '6 buffers with a length beside them, sorted lists'
look '6.1 a length beside a slice or a vector' '(len|capacity): usize'
look '6.2 a search by halves, or turning by hand' 'middle|rotate_|\.truncate\('

echo '7 switches on which step to run'
look '7.1 a choice of function by a value' 'match (verb|kind|order)\b|if echo'
