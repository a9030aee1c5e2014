#!/usr/bin/env bash
# The built program `shortlist` at the edges of its input and output: closed ones, a pipe that nobody reads, long input, input in pieces.
# docs/DECISIONS.md says what is expected. Run after `rt ci`, or `rt run` in crates/shortlist; silent where all is well.
set -euo pipefail
cd "$(dirname "$0")/.."
program=crates/shortlist/out/shortlist
[ -x "$program" ] || { echo "shortlist.sh: no $program: run rt ci, or rt run in crates/shortlist, first" >&2; exit 1; }
question=crates/shortlist/stdin
report=$(cat crates/shortlist/stdout)
lost='shortlist: the report was not written'
work=$(mktemp -d)
trap 'rm -r "$work"' EXIT
failed=0

# Runs the program, for at most 20 seconds and under the given command if there is one, on what the caller redirects; keeps its status and its standard error.
run() {
    status=0
    timeout 20 "$@" "$program" 2>"$work/err" || status=$?
}

# expect NAME STATUS OUTPUT ERROR: holds the last run to its status and to the content of out and err.
expect() {
    local found
    found="$status|$(cat "$work/out")|$(cat "$work/err")"
    if [ "$found" != "$2|$3|$4" ]; then
        printf 'shortlist, %s: found %s, expected %s\n' "$1" "$found" "$2|$3|$4"
        failed=1
    fi
    : >"$work/out"
}

# The question, one byte at a time.
pieces() {
    local size i
    size=$(wc -c <"$question")
    for ((i = 0; i < size; i++)); do
        dd if="$question" bs=1 skip="$i" count=1 status=none
        sleep 0.005
    done
}

run <"$question" >"$work/out"
expect 'a question' 0 "$report" ''

pieces | { run >"$work/out"; echo "$status" >"$work/status"; }
status=$(cat "$work/status")
expect 'input in pieces' 0 "$report" ''

run <&- >"$work/out"
expect 'input closed' 0 'refused 1' ''
run </ >"$work/out"
expect 'input that cannot be read' 0 'refused 1' ''
run </dev/null >"$work/out"
expect 'no input' 0 'refused 1' ''

head -c 65536 /dev/zero >"$work/in"
run <"$work/in" >"$work/out"
expect '65,536 bytes' 0 'refused 2' ''
run < <(cat "$work/in" "$work/in") >"$work/out"
expect 'more than 65,536 bytes from a pipe' 0 'refused 0' ''
run </dev/zero >"$work/out"
expect 'endless input' 0 'refused 0' ''

run <"$question" >&-
expect 'output closed' 0 '' "$lost"
run <"$question" >/dev/full
expect 'output full' 0 '' "$lost"
run <&- >&-
expect 'both closed' 0 '' "$lost"

# Whether the signal SIGPIPE is at its default or ignored when the program begins: the program ignores it itself from the start.
exec 3> >(:)
wait $!
run env --default-signal=PIPE <"$question" >&3
expect 'a pipe that nobody reads' 0 '' "$lost"
run env --ignore-signal=PIPE <"$question" >&3
expect 'the same with the signal ignored' 0 '' "$lost"
exec 3>&-

status=0
"$program" <"$question" 2>"$work/err" | head -c 1 >"$work/out" || status=$?
expect 'a reader of one byte' 0 "${report:0:1}" ''

exit "$failed"
