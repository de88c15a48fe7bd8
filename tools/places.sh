#!/bin/bash
# Counts the places of the design pass (docs/DESIGN-PASS.md) in the sources: one line a kind of place, and with -v the places.
cd "$(dirname "$0")/.." || exit 1
sources=$(ls crates/*/src/*.rt)
verbose=$1

# count NAME PATTERN: the lines of the sources that fit
count() {
    printf '%-52s %4d\n' "$1" "$(grep -hE -e "$2" $sources | wc -l)"
    [ "$verbose" = -v ] && grep -nE -e "$2" $sources | sed 's/^/    /'
}

# twice NAME PATTERN: names that are defined more than once, and how often
twice() {
    local names
    names=$(grep -hoE -e "$2" $sources | sort | uniq -c | awk '$1 > 1')
    printf '%-52s %4d\n' "$1" "$(echo "$names" | awk 'NF { n += $1 } END { print n + 0 }')"
    [ "$verbose" = -v ] && echo "$names" | sed 's/^/    /'
}

# enums of two variants, of which one has a value
shaped() {
    awk '/^(pub )?enum /{name=$0; n=0; v=0; in_it=1; next}
         in_it && /^}/{ if (n == 2 && v == 1) print FILENAME": "name; in_it=0 }
         in_it && /^    [A-Z]/{ n++; if (/\(/) v++ }' $sources
}

printf '%-52s %4d\n' "1a enums of the shape of Option or Result" "$(shaped | wc -l)"
[ "$verbose" = -v ] && shaped | sed 's/^/    /'
count "1b arms that only hand an Option or a Result on" \
    'Err\(.*\) => (return )?Err\(|None => None|Ok\(\(\)\) => Ok\(\(\)\)|Some\(([a-z]+)\) => Some\(|Ok\(([a-z]+)\) => Ok\('
count "1c let .. else whose else is only an Err or a None" 'else \{ *$'
count "1d flags with a value beside them" '-> Result<bool|-> \(bool|late: bool|let _spells'
count "1e numbers for kinds and refusals" '=> [0-9]+,$|== REFUSAL'
count "1f 0 for no answer" '^ *0$'
twice "2a functions whose name is defined more than once" '\bfn [a-z_0-9]+'
twice "2b constants whose name is defined more than once" '\bconst [A-Z_]+:'
twice "2c types whose name is defined more than once" '\b(struct|enum) [A-Za-z]+'
count "3a loops over a range of numbers" 'for [a-z_]+ in 0\.\.'
count "3b loops that count down or up by hand" 'while [a-z_]+ > 0'
count "3c loops over positions" 'for \([a-z]+, .*enumerate'
count "3d loops that change what they count in a slice" 'for [a-z]+ in [a-z]+\.iter_mut'
count "3e while loops over what is left" 'while let|while rest|while !rest'
count "4a equality and order by hand" 'a\.slot < b\.slot|fn (smaller|same_bytes|names|still_fit)\b|lines < MOST|slots > 0 \{'
count "4b conversions by hand" 'fn (of|cell|number|body_of|copy_body|write_number)\('
count "5a clauses that ask that a box is good" 'requires.*Good \(state'
count "5b clauses that ask that memory is sound" 'requires sound'
count "5c clauses that ask that a status is shown" 'requires.*\(st : (respond\.)?Status\) ×'
count "5d lists of the four lent slices" '^ *spare: &.*mut \[u16\],|spare: Vec<u16>|spare = vec!'
count "5e buffer and place in it, side by side" 'at: usize'
count "5f scratch, buffer and output, side by side" '^ *(buffer|real): &mut \[u8; 2241\],'
count "6a fixed arrays with a length or a place beside" '&mut \[u8; (2241|ANSWER_BYTES)\]'
count "7a switches on which step to run" 'match \(?(ready_for|turn_of|form|due)|match \(due|Turn::'
printf '%-52s %4d\n' "8a answers" "$(find crates -name Answers.antt -not -path '*/out/*' | xargs grep -hE '^pub ' | wc -l)"
printf '%-52s %4d\n' "8b lines of proofs" "$(find crates -path '*/proofs/*' -not -path '*/out/*' -name '*.antt' | xargs cat | wc -l)"
printf '%-52s %4d\n' "8c lemmas and definitions in proofs, less answers" "$(find crates -path '*/proofs/*' -not -path '*/out/*' -name '*.antt' ! -name Answers.antt ! -name Invariants.antt | xargs grep -hE '^(abbrev |unfoldable )?pub ' | wc -l)"
