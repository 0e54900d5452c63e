#!/usr/bin/env bash
# Compares the rows of docs/claims.md with the comments in the crates, which they are made from, and looks that each definition has a
# comment. Then plants a difference in a copy, each time another, which has to be found.
set -euo pipefail
top=$(cd "$(dirname "$0")/.." && pwd)
python3 -B "$top/tests/pages/rows.py"

copy=$(mktemp -d)
trap 'rm -rf "$copy"' EXIT
differs() {  # FILE SED-SCRIPT
    (cd "$top" && tar c crates.txt docs/claims.md tests/pages crates/*/src crates/*/specs) | tar x -C "$copy"
    sed -i "$2" "$copy/$1"
    if cmp -s "$top/$1" "$copy/$1"; then echo "definitions.sh: '$2' changes nothing in $1" >&2; exit 1; fi
    if python3 -B "$copy/tests/pages/rows.py" > /dev/null 2>&1; then
        echo "definitions.sh: '$2' in $1 was not found" >&2
        exit 1
    fi
}
# A definition, one in a module and the head of a page that lost their comments; one that has none yet and is gone; one that is named
# as if it had none.
differs crates/cpu_set/specs/Ids.antt '/^-- no number is in both sets$/d'
differs crates/cli/specs/Program.antt '/^  -- the root is refused$/d'
differs crates/cpuset_tree/specs/TreeState.antt '0,/^use /{/^--/d}'
differs crates/cpu_list/specs/ListText.antt 's/^abbrev pub piece_names /abbrev pub part_names /'
differs tests/pages/without-comments 's/^cpu_set Ids: /&IsDisjoint /'
# A comment above a clause, a claim at the head of a file, the doc of a law, a claim and a law without a row, and a row by hand.
differs crates/transport/src/solver.rt 's/the lower CPU first\.$/the higher CPU first./'
differs crates/certificate/src/lib.rt 's/^\/\/! - All sums fit /\/\/! - Most sums fit /'
differs crates/node/src/planning.rt 's/- `headline`: What the host has then/- `headline`: What the host had then/'
differs crates/node/specs/RebalancesBy.antt 's/^  pub counted : /  pub also_counted : /'
differs crates/twins/src/laws.rt 's/^\/\/\/ A class has one weight/\/\/\/ A class has two weights/'
differs docs/claims.md '/^- `check_shortage`: /d'
differs docs/claims.md '/^- `laws::pasts`: /d'
differs docs/claims.md 's/^- `laws::the_limits`: Numbers are below 4,096\./- `laws::the_limits`: Numbers are below 4,095./'
