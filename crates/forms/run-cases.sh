#!/usr/bin/env bash
# Runs the built program with each growth of memory and each write refused in turn: it prints the
# whole page, or reports that memory ran out and prints none of it. That a `TextBuffer` wanted the
# memory is `Fmt`.
#
# usage: run-cases.sh [PROGRAM..]
set -u

here=$(cd "$(dirname "$0")" && pwd)
name=forms
wanted=1
. "$here/../../.ci/cases.sh"

# wants_memory: whether a run reported that memory ran out, and wrote no output.
wants_memory() {
    [[ -z $out && $ended -eq 1 ]] || return 1
    [[ $err == $'out of memory\n' || $err == 'error while formatting at '*': an error occurred '* ]]
}

all_cases() {
    local page
    page=$(held "$here/stdout")
    refusals_of 0 "${page%x}" ''
}

run_cases "$@"
