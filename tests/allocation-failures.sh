#!/usr/bin/env bash
# Runs the built program with each of its allocations refused in turn. What it does then has to be the line of E1 with its
# status, or the whole answer; at least one refusal has to be seen as E1; and with nothing refused it is the whole answer.
# The status is 1 while the words are collected, 2 while they are parsed, and 1 from then on.
# Under a script one command may answer E1, and all others what they answer where that one is left out; and what a create left that
# was answered by E1 is read from the kernel.
# Of the solver, over a plan and a shortage, a prefix of the answer and an error of status 1 stand for the line of E1.
set -u
top=$(cd "$(dirname "$0")/.." && pwd)
work=$(mktemp -d)
trap 'rm -rf "$work"' EXIT

. "$top/tests/build-preloads.sh"
. "$top/tests/build-program.sh"

# refusing WORD..: runs a program with the allocation refused that `number` says
refusing() { timeout 60 env REFUSE="$number" LD_PRELOAD="$work/refuse.so" "$@"; }

wrong() {
    echo "allocation failures: $1: status $2, answer '$(cat "$work/output")', error '$(cat "$work/error")'"
    exit 1
}

# each_failure NAME STATUS STATUSES INPUT WORD..: the status of the whole answer to these words and this standard input, and
# the statuses of E1 in the order of the refused allocations
each_failure() {
    local name=$1 status=$2 expected=$3 input=$4 number=0 statuses="" got
    shift 4
    timeout 60 "$program" "$@" <"$input" >"$work/whole" 2>"$work/whole-error"
    got=$?
    [ $got -eq "$status" ] || { cp "$work/whole" "$work/output"; cp "$work/whole-error" "$work/error"; wrong "$name" $got; }
    while :; do
        number=$((number + 1))
        refusing "$program" "$@" <"$input" 3>"$work/refused" >"$work/output" 2>"$work/error"
        got=$?
        if cmp -s "$work/output" "$work/whole" && cmp -s "$work/error" "$work/whole-error" && [ $got -eq "$status" ]; then
            [ -s "$work/refused" ] || break
        elif [ -s "$work/refused" ] && [ "$(cat "$work/output")" = "refused E1 Memory" ] && [ ! -s "$work/error" ]; then
            statuses=$statuses$got
        else
            wrong "$name, allocation $number" $got
        fi
    done
    [[ $statuses =~ ^$expected$ ]] || { echo "allocation failures: $name: the statuses of E1 are '$statuses', not $expected"; exit 1; }
    echo "allocation failures: $name: $((number - 1)) allocations, each refused in turn, ${#statuses} of them seen"
}

example=$top/crates/numarun/stdin
sed 's/^price 1 1$/price 0 1/' "$example" >"$work/dear"
sed '$d' "$example" >"$work/short"
printf 'SLIT\x30\0\0\0\x01\x53' >"$work/table"
head -c 26 /dev/zero >>"$work/table"
printf '\x02\0\0\0\0\0\0\0\x0a\x15\x15\x0a' >>"$work/table"
each_failure "no words" 0 "1+" "$example"
each_failure "check" 0 "1+2+1+" "$example" check
each_failure "check FILE" 0 "1+2+1+" /dev/null check "$example"
each_failure "a refused certificate" 1 "1+2+1+" "$work/dear" check
each_failure "a text that ends early" 1 "1+2+1+" "$work/short" check
each_failure "no such file" 1 "1+2+" /dev/null check "$work/none"
{ echo "numarun-problem 1"; grep '^row ' "$example"; echo "end"; } >"$work/problem"
printf 'numarun-problem 1\nrow a 2 10:1-2\nrow b 1 10:1-2\nend\n' >"$work/lack"
sed 's/^row b/row a/' "$work/problem" >"$work/twice"
each_failure "solve" 0 "1+2+1+" "$work/problem" solve
each_failure "solve FILE" 0 "1+2+1+" /dev/null solve "$work/lack"
awk 'BEGIN { print "numarun-problem 1"; for (k = 1; k < 4; k++) { printf "row r%d 4", k; for (c = 0; c < 4096; c++) printf " %d:%d", k * (c + 1), c; print "" }; print "end" }' >"$work/many"
each_failure "solve by the second way" 0 "1+2+1+" "$work/many" solve
each_failure "an id of two rows" 1 "1+2+1+" "$work/twice" solve
each_failure "list" 0 "1+2+" /dev/null list "3,1-2"
each_failure "a text that is no list" 1 "1+2+" /dev/null list 5-3
each_failure "slit" 0 "1+2+1+" /dev/null slit "$work/table"
each_failure "the help" 0 "1+2+" /dev/null --help
each_failure "the help of a command" 0 "1+2+" /dev/null help check
each_failure "the version" 0 "1+2+" /dev/null --version
each_failure "an unknown command" 2 "1+2+" /dev/null foo
each_failure "a missing argument" 2 "1+2+" /dev/null list
each_failure "an unknown option" 2 "1+2+" /dev/null check -f

# A machine file that is no JSON is read once more, for the note: where memory is short then, the note names no place.
printf '{"nodes":["0-3"],}' >"$work/flawed"
number=0 first=0 second=0
while :; do
    number=$((number + 1))
    refusing "$program" run "$work/flawed" </dev/null 3>"$work/refused" >"$work/output" 2>"$work/error"
    got=$?
    case $(cat "$work/output" "$work/error") in
        "refused E1 Memory") first=$((first + 1)) ;;
        $'refused E25 NotJson\n'"error: $work/flawed: is no JSON object of at most 1048576 bytes") second=$((second + 1)) ;;
        $'refused E25 NotJson\n'"error: $work/flawed: is no JSON, line 1 column 18") [ -s "$work/refused" ] || break ;;
        *) wrong "a machine file that is no JSON, allocation $number" $got ;;
    esac
done
[ $first -gt 0 ] && [ $second -gt 0 ] || { echo "allocation failures: a machine file that is no JSON: $first and $second"; exit 1; }
echo "allocation failures: a machine file that is no JSON: $((number - 1)) allocations, each refused in turn, $first and $second of them seen"

python3 -B "$top/tests/scripts/allocation_failures.py" "$program" "$work/refuse.so" "$top/tests/scripts/worked/every-command" || exit 1

# tools_failure NAME FAULTS INPUT WORD..: what a tool answers to these words and this standard input; where an allocation is refused,
# a front of that, and a fault of these
tools_failure() {
    local name=$1 faults=$2 input=$3 number=0 seen=0 got
    shift 3
    timeout 60 "$tools" "$@" <"$input" >"$work/whole" 2>"$work/error" || { cp "$work/whole" "$work/output"; wrong "$name" $?; }
    while :; do
        number=$((number + 1))
        refusing "$tools" "$@" <"$input" 3>"$work/refused" >"$work/output" 2>"$work/error"
        got=$?
        if cmp -s "$work/output" "$work/whole" && [ ! -s "$work/error" ] && [ $got -eq 0 ]; then
            [ -s "$work/refused" ] || break
        elif [ $got -eq 1 ] && cmp -s -n "$(stat -c %s "$work/output")" "$work/output" "$work/whole" \
            && grep -qxE "Error: ($faults)" "$work/error"; then
            seen=$((seen + 1))
        else
            wrong "$name, allocation $number" $got
        fi
    done
    [ $seen -gt 0 ] || { echo "allocation failures: $name: no refusal was seen"; exit 1; }
    echo "allocation failures: $name: $((number - 1)) allocations, each refused in turn, $seen of them seen"
}

. "$top/benches/build-tools.sh"
{ cat "$example"; printf 'numarun-certificate 1\nrow a 2 10:1-2\nrow b 1 10:1-2\nshort a\nshort b\nend\n'; } >"$work/problems"
memory="memory allocation failed|out of memory"
tools_failure "the solver" "$memory" "$work/problems" solve
python3 -B "$top/tests/runs/over_memory.py" "$tools" "$work/refuse.so" || exit 1
tools_failure "lists, printed" "$memory|no such benchmark, or a call that was refused" /dev/null lists 1
