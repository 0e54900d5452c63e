#!/usr/bin/env bash
# Compares the lists of docs/reading.md and the figures of README.md with the definitions that each clause rests on, the sizes there
# with what is counted, what is quoted there with the sources, and what is printed of a clause with its figure. Then plants a
# difference in a copy, each time another, which has to be found; the copy without one has to pass.
set -euo pipefail
top=$(cd "$(dirname "$0")/.." && pwd)
python3 -B "$top/tests/reading/closure.py"
# What is printed to be read has as many lines as README.md says.
said=$(sed -n 's/^| a yes of the check.* | \([0-9]*\) | [0-9]* |$/\1/p' "$top/README.md")
printed=$(python3 -B "$top/tests/reading/closure.py" --text check | grep -cvE '^ *(--|$)|^##')
if [ "$printed" != "$said" ]; then
    echo "reading.sh: --text prints $printed lines for the check, and README.md says $said" >&2
    exit 1
fi

copy=$(mktemp -d)
trap 'rm -rf "$copy"' EXIT
copied() {
    (cd "$top" && tar c --exclude=out crates.txt README.md docs/reading.md tests/reading tests/pages crates) | tar x -C "$copy"
}
copied
python3 -B "$copy/tests/reading/closure.py" > /dev/null
differs() {  # FILE SED-SCRIPT
    copied
    sed -i "$2" "$copy/$1"
    if cmp -s "$top/$1" "$copy/$1"; then echo "reading.sh: '$2' changes nothing in $1" >&2; exit 1; fi
    if python3 -B "$copy/tests/reading/closure.py" > /dev/null 2>&1; then
        echo "reading.sh: '$2' in $1 was not found" >&2
        exit 1
    fi
}
# A definition that rests on one more, a list with a row less, a figure, a size, and a clause that is quoted as it does not stand.
differs crates/certificate/specs/IsLeast.antt 's/^  pub least : /  pub whole : cost [] [] ≡ cost [] []\n&/'
differs docs/reading.md '0,/^| \[`certificate` `Weight`\]/{/^| \[`certificate` `Weight`\]/d}'
differs README.md 's/^\(| the headline, of one .* | \)[0-9]*\( | [0-9]* |\)$/\17\2/'
differs README.md 's/some [0-9,]* mutants/some 300 mutants/'
differs docs/reading.md 's/^\(| the headline, over all runs .* | \)[0-9]*\( | [0-9,]* | [0-9]* | *|\)$/\17\2/'
differs docs/reading.md 's/^    ensures least .*/    ensures least { OnOk result (IsPlan problem.now plan.now) }/'
# A definition in a module of a module that rests on one less, and a condition that goes by another name.
differs crates/cli/specs/Program.antt 's/ × RefusesRoot root why//'
differs crates/runtime/src/booting.rt 's/^    requires site /    requires place /'
# A field of a record that goes by another name, and one that rests on another definition.
differs crates/node/specs/RebalancesBy.antt 's/^  pub headline : /  pub headlines : /'
differs crates/node/specs/RebalancesBy.antt 's/^  pub told : Tells /  pub told : Headline /'
