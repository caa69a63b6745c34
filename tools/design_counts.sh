#!/bin/sh
# Counts the lines of src/ that docs/DESIGN-PASS.md reads for each of its points. Run it at the top of a checkout; -v lists them.
# A line that is counted is a place to look at; the page says which of them are places to change.
show=-c
[ "$1" = -v ] && show=-n
sources=$(git ls-files 'crates/*/src/*.rt')

point() {
    echo "point $1: $2"
    if [ $show = -c ]; then
        cat $sources | grep -cE "$3"
    else
        grep -nE "$3" $sources
    fi
}

point 1 'enums, numbers for kinds, a flag beside a value' 'enum |, bool\)|const [A-Z_]+: u8|-> u8|kind: u8|\(u8, usize, usize\)|-> \(u32, u32\)'
point 3 'loops' '^ *(while|for) '
point 4 'casts, comparisons and conversions by hand' ' as u(8|16|32|64|size)|(low|number|ticks) (==|<) .*(&&|\|\|)|impl fmt::Debug|fn (same|plain|plain_ticks|numbered|nothing|ticks)\b'
point 6 'arrays, lengths and counts beside a buffer' '\[[A-Za-z0-9_]+; [A-Za-z0-9_]+\]|(count|len): usize|from < to'
point 7 'function pointers, closures as parameters, trait objects' 'impl Fn|dyn |: fn\(|Fn(Once|Mut)?\('

echo 'point 2: pairs of places of four or more lines alike (the command duplicates, on a copy named .rs)'
copy=$(mktemp -d)
for file in $sources; do
    mkdir -p "$copy/$(dirname "$file")"
    cp "$file" "$copy/${file%.rt}.rs"
done
duplicates --repo "$copy" --min-lines 4 --most 200 --seconds 60 | { [ $show = -c ] && head -1 || cat; }
rm -r "$copy"

echo 'point 5: parts of clauses that stand in three or more'
cat $sources | sed -nE 's/^ *(requires|ensures)\*?( [a-z_]+)? \{ (.*) \}$/\3/p' | sed -E 's/\.(old|new|now|entry|exit)//g; s/ × /\n/g' | sed -E 's/^[( ]+//; s/[) ]+$//' | sort | uniq -c | sort -rn | awk '$1 > 2' | { [ $show = -c ] && wc -l || cat; }

echo 'point 8: answer files, answers, lines of lemmas'
git ls-files 'crates/*/proofs/*Answers.antt' | wc -l
git ls-files 'crates/*/proofs/*Answers.antt' | xargs cat | grep -c '^pub '
git ls-files 'crates/*/proofs/*.antt' | grep -v 'Answers\|Invariants' | xargs cat | wc -l
