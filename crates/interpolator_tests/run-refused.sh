#!/usr/bin/env bash
# Runs the group `memory` of the built program with each growth refused in turn: no check may fail,
# unless memory was refused to the program itself, which then has status 3.
#
# usage: run-refused.sh [PROGRAM]
set -u
here=$(cd "$(dirname "$0")" && pwd)
name='refused memory'
program=${1:-$here/out/interpolator_tests}
. "$here/../../.ci/cases.sh"
room=$(mktemp -d) || exit 1
trap 'rm -rf -- "$room"' EXIT

if [[ ! -x $program ]]; then
    echo "refused memory: FAILED: $program is missing: rt ci and rt run build it"
    exit 1
fi
build_refusals "$room/refuse.so" || exit 1

number=0
own=0
while [[ $number -lt 10000 ]]; do
    number=$((number + 1))
    : >"$room/asked"
    status=0
    timeout 60 env "REFUSE=$number" "LD_PRELOAD=$room/refuse.so" "$program" memory \
        >"$room/out" 9>"$room/asked" || status=$?
    # the program asked for fewer growths than that
    [[ -s $room/asked ]] || break
    if [[ $status -eq 0 ]] && grep -q '^memory: .*, 0 fail$' "$room/out"; then
        passed=$((passed + 1))
    elif [[ $status -eq 3 ]] && ! grep -q ', [1-9][0-9]* fail$' "$room/out"; then
        own=$((own + 1))
    else
        failed=$((failed + 1))
        echo "refused memory: FAILED: growth $number refused, status $status:"
        head -c 1000 "$room/out"
    fi
done
echo "refused memory: $passed passed, $own of the program itself, $failed failed"
[[ $failed -eq 0 && $passed -ge 20 && $status -eq 0 && $number -lt 10000 ]]
