# What the scripts run-cases.sh share, which source this with `here`, their folder, `name`, that of
# the program, and `wanted`, how many cases `all_cases` has. They define that, and end by
# `run_cases "$@"`. A run passes if no case fails and as many passed as are wanted, so that a case
# that was not run is seen. The script run-refused.sh sources this with `here` and `name` alone.

passed=0
failed=0

# Counts a case as failed, and says why.
fail() {
    failed=$((failed + 1))
    printf '%s: FAILED %s: %s\n' "$name" "$program" "$1"
}

# A word that is no command, such as a misspelled helper, fails and ends the run. Bash calls this in
# a shell of its own.
command_not_found_handle() {
    printf '%s: FAILED: no such command: %s\n' "$name" "$1"
    kill -s TERM "$$"
    return 127
}

# times COUNT TEXT: so many copies of a text.
times() {
    local LC_ALL=C copies
    printf -v copies '%*s' "$1" ''
    printf '%s' "${copies// /$2}"
}

# What a file holds, and an `x`, so that `$(..)` keeps the newlines at its end.
held() {
    cat -- "$1"
    printf x
}

# is_text STREAM TEXT FILE CASE: whether the file, which holds the stream of the case, holds this
# text; if not, fails the case, and shows both.
is_text() {
    local found
    found=$(held "$3")
    if [[ $found == "${2}x" ]]; then
        return 0
    fi
    fail "$4: another text on $1"
    printf '  wanted: %q\n  found:  %q\n' "$2" "${found%x}"
    return 1
}

# case_of OUT ERR STATUS WANTED_OUT WANTED_ERR WORD..: runs the program on the words, its output
# going to OUT and its errors to ERR, each `file`, `closed` or `full`.
case_of() {
    local out=$1 err=$2 status=$3 wanted_out=$4 wanted_err=$5 ended=0
    shift 5
    local told="${*@Q} with $out-$err"
    : >"$room/out"
    : >"$room/err"
    case "$out-$err" in
        file-file) timeout 60 "$program" "$@" >"$room/out" 2>"$room/err" || ended=$? ;;
        closed-file) timeout 60 "$program" "$@" >&- 2>"$room/err" || ended=$? ;;
        full-file) timeout 60 "$program" "$@" >/dev/full 2>"$room/err" || ended=$? ;;
        file-closed) timeout 60 "$program" "$@" >"$room/out" 2>&- || ended=$? ;;
        file-full) timeout 60 "$program" "$@" >"$room/out" 2>/dev/full || ended=$? ;;
        *)
            fail "$told: no such pair of streams"
            return
            ;;
    esac
    if [[ $ended -ne $status ]]; then
        fail "$told: status $ended, not $status"
        printf '  output: %q\n  errors: %q\n' "$(cat -- "$room/out")" "$(cat -- "$room/err")"
    elif is_text 'the output' "$wanted_out" "$room/out" "$told" \
        && is_text 'the errors' "$wanted_err" "$room/err" "$told"; then
        passed=$((passed + 1))
    fi
}

# build_refusals FILE: builds what refuses one growth of memory, or one write, of a program
# (refuse.c).
build_refusals() {
    local clang
    clang=$(dirname "$(rt doc)")/toolchain/bin/clang
    "$clang" -shared -fPIC -O1 -nostdlib "-fuse-ld=${clang%clang}ld.lld" \
        -o "$1" "$(dirname "${BASH_SOURCE[0]}")/refuse.c"
}

# refused_run VARIABLE NUMBER WORD..: runs the program on the words, with the growth (REFUSE) or the
# write (REFUSE_WRITE) of this number refused: its status is `ended`, its output `out` and its
# errors `err`. False if it asked for fewer.
refused_run() {
    ended=0
    : >"$room/asked"
    timeout 60 env "$1=$2" "LD_PRELOAD=$room/refuse.so" "$program" "${@:3}" \
        >"$room/out" 2>"$room/err" 9>"$room/asked" || ended=$?
    out=$(held "$room/out")
    out=${out%x}
    err=$(held "$room/err")
    err=${err%x}
    [[ -s $room/asked ]]
}

# is_answer: whether a run ended as is wanted.
is_answer() {
    [[ $ended -eq $status && $out == "$wanted_out" && $err == "$wanted_err" ]]
}

# wants_memory: whether a run reported that memory ran out, or that a file could not be read for
# lack of it, and wrote no output.
wants_memory() {
    [[ -z $out ]] || return 1
    [[ $ended -eq 1 && $err == $'out of memory\n' ]] \
        || [[ $ended -eq 3 && $err == *$': out of memory\n'* ]]
}

# is_cut: whether a run has the status of a refused write, wrote a beginning of its answer, and may
# have said that it could not.
is_cut() {
    [[ $ended -eq 3 && $wanted_out == "$out"* ]] \
        && [[ $wanted_err == "$err"* || $err == 'cannot write: '* ]]
}

# is_fair VARIABLE: whether a run in which this was refused ended as it may.
is_fair() {
    if [[ $1 == REFUSE ]]; then
        is_answer || wants_memory
    else
        is_cut
    fi
}

# fail_run CASE: counts the case as failed, and shows how a run of it ended.
fail_run() {
    fail "$1: status $ended"
    printf '  output: %q\n  errors: %q\n' "$out" "$err"
}

# refusals_of STATUS WANTED_OUT WANTED_ERR WORD..: runs the program on the words as often as it
# takes memory and writes, with one growth or write refused each time. This is one case.
refusals_of() {
    local status=$1 wanted_out=$2 wanted_err=$3 variable number ended out err
    shift 3
    local told="${*@Q}"
    if [[ ! -e $room/refuse.so ]] && ! build_refusals "$room/refuse.so"; then
        fail "$told: refuse.c cannot be built"
        return
    fi
    for variable in REFUSE REFUSE_WRITE; do
        number=1
        while refused_run "$variable" "$number" "$@"; do
            if ! is_fair "$variable"; then
                fail_run "$told with $variable=$number"
                return
            fi
            number=$((number + 1))
        done
        # the last run asked for fewer; only a program that writes nothing asks for no write at all
        if ! is_answer || [[ $number -eq 1 && $variable$wanted_out$wanted_err != REFUSE_WRITE ]]; then
            fail_run "$told with $variable=$number, and so with nothing refused"
            return
        fi
    done
    passed=$((passed + 1))
}

# using_case FILE: the line of crates/README.md for the program, in the folder that it names, writes what the
# file holds.
using_case() {
    local line text
    line=$(grep -o "\`$name\` (there \`rt run -- [^\`]*" "$here/../README.md")
    text=$(held "$1")
    cd "$here" || exit 1
    eval "case_of file file 0 \"\${text%x}\" '' ${line##*rt run -- }"
    cd "$room" || exit 1
}

# cases_of PROGRAM: all cases with the program, in a folder of its own, and whether they were as
# many as are wanted.
cases_of() {
    local before=$((passed + failed)) count
    program=$(realpath -- "$1")
    if [[ ! -x $program ]]; then
        fail 'no such program: rt ci and rt run build it'
        return
    fi
    cd "$room" || exit 1
    all_cases
    count=$((passed + failed - before))
    if [[ $count -ne $wanted ]]; then
        fail "$count cases, not $wanted"
    fi
}

# run_cases [PROGRAM..]: all cases, with each program. Without words these are the ones that `rt ci`
# leaves in out/: that of LLVM, and that of Rattle's own compiler where there is one. `rt run`
# leaves the first of them, too.
run_cases() {
    local programs=() given
    for given in "$@"; do
        programs+=("$(realpath -- "$given")")
    done
    if [[ $# -eq 0 ]]; then
        programs=("$here/out/$name")
        if [[ -e "$here/out/$name.by-rattle" ]]; then
            programs+=("$here/out/$name.by-rattle")
        fi
    fi
    room=$(mktemp -d) || exit 1
    [[ -d $room ]] || exit 1
    trap 'rm -rf -- "$room"' EXIT
    trap 'exit 1' TERM
    for given in "${programs[@]}"; do
        cases_of "$given"
    done
    echo "$name: $passed passed, $failed failed"
    [[ $failed -eq 0 && $passed -gt 0 ]]
}
