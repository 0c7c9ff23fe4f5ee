#!/bin/bash
# Prints the places of each point of docs/DESIGN-PASS.md that a search finds in the sources.
# Usage: tools/places.sh [FOLDER]            the places
#        tools/places.sh --count [FOLDER]    how many lines each search finds
count=
if [ "${1:-}" = --count ]; then
    count=yes
    shift
fi
cd "${1:-.}" || exit 1
find_in() { # TITLE REGEX
    if [ "$count" ]; then
        echo "$1: $(search "$2" | wc -l)"
        return
    fi
    echo "== $1"
    search "$2"
}
search() { # REGEX
    grep -rnE "$1" crates/*/src --include='*.rt' | grep -vE ':[0-9]+:\s*//|/tests\.rt:|:ghost use|: *impl\b'
}
find_in '1a own enums' '^(pub(\(crate\))? )?enum '
find_in '1b flags in structs' '^ +(pub )?[a-z]+: bool,'
find_in '1c results whose error is a number' 'Result<[^,]*, u(8|16|32|64|size)>'
find_in '1d numbers for kinds' 'kind: u8|fn kind\(self\) -> u8|fn (byte|answer_byte)\((self|to: [A-Za-z<>]+)\) -> u8'
find_in '1e numbers for refusals' '\b(res|result): u8'
twins=$(grep -rhE '^ *(pub(\(crate\))? )?fn [a-z_]+' crates/*/src --include='*.rt' | sed -E 's/.*fn ([a-z_]+).*/\1/' | sort | uniq -c | awk '$1 > 1')
if [ "$count" ]; then
    echo "2 names that more than one function has: $(echo "$twins" | wc -l)"
else
    printf '== 2 names that more than one function has, with how many\n%s\n' "$twins"
fi
find_in '3a loops' '\b(while|loop|for)\b .*\{$'
find_in '3b counted indices' '\[[a-z][a-z0-9_]* as usize\]|\[i\]'
find_in '4a conversions and copies by hand' 'fn (of|byte|copy|number|detail|digit|character)\('
find_in '4b texts by hand' 'static str$|Result<String, AllocError>$'
find_in '5a demands on callers' 'requires'
find_in '5b parameters together' 'dark: u64, light: u64|taken: u64, given: u64'
find_in '6a arrays in structs' '^ +(pub(\(crate\))? )?[a-z]+: (\[|ArrayVec)'
find_in '6b lengths beside' '^ +(pub(\(crate\))? )?(count|len|length): u'
find_in '7 switches and callables' 'wanted: bool|side: Side|Fn\(|\bdyn\b|\bfn\('
echo '== 8 lines of proofs by crate: answers, invariants, all'
for crate in crates/*/; do
    [ -d "$crate/proofs" ] || continue
    lines() { find "$crate/proofs" -name "$1" -exec cat {} + | wc -l; }
    echo "$crate $(lines Answers.antt) $(lines Invariants.antt) $(lines '*.antt')"
done
