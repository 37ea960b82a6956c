#!/bin/sh
# Solves a formula: copro simplifies it, a solver solves what is left, and copro completes the solver's model.
#
#     solve.sh [OPTION].. FORMULA [SOLVER]
#     solve.sh [OPTION].. FORMULA -- SOLVER [WORD]..
#
#     --workers N     the threads of copro, 4 by default
#     --proof FILE    FILE gets a DRAT proof in text; none, the default, gives none
#     --time SECONDS  a limit for the whole run; 0, the default, sets none
#     --loose         a formula with fewer clauses than its header says is solved as it is
#     --help          prints this
#
# FORMULA is a file in DIMACS CNF, or std for standard input. SOLVER prints `s` and `v` lines, or is minisat, which writes a file of its
# own; where none is named it is the first of cadical and minisat on the PATH. After `--` stands the solver's whole command line, to
# which the name of the formula that is left is appended; a word {} is its place instead.
#
# The proof of an unsatisfiable formula is whole where copro alone refutes it or the solver is cadical or kissat, whose proof of what
# is left is appended.
#
# The answer is printed as `s` and `v` lines. A failure prints no answer, and says on standard error what failed. The status is
#
#     10    SATISFIABLE
#     20    UNSATISFIABLE
#     0     UNKNOWN: the solver itself said so
#     64    wrong words
#     64-78 copro's own, where it refuses the formula, can't be built or can't write
#     80    the formula has fewer clauses than its header says
#     81    the solver isn't found or can't be run
#     82    the solver was ended by a signal
#     83    the solver ended without an `s` line
#     84    the solver's answer can't be understood: an unknown `s` line or several, a status that contradicts it, no `v` line
#     85    copro refuses the solver's model
#     124   the time limit is over
#     129, 130, 143  the run was ended by HUP, INT or TERM
#
# A limit or a signal ends the program that runs, and in each case the temporary folder is removed. Needs the command timeout of GNU.

set -u
LC_ALL=C
export LC_ALL
script=$(readlink -f "$0")
program=${COPRO:-$(dirname "$script")/../copro}
workers=4
proof=
limit=0
within=0
loose=
child=

# Ends with a status after a line on standard error.
fail() {
    echo "solve.sh: $2" >&2
    exit "$1"
}

wrong() {
    fail 64 "$1; --help prints the usage"
}

takes_value() {
    [ $# -ge 2 ] || wrong "$1 takes a value"
}

# Waits for the program that was started last, and ends with its status.
await() {
    child=$!
    wait "$child"
    status=$?
    child=
    return "$status"
}

# Runs a program beside the shell, which so can end it at a signal. timeout has no limit here: it makes a group of the program and all
# that it starts, hands a signal on to the group, and kills what is there two seconds later.
run() {
    timeout --kill-after=2 0 "$@" &
    await
}

# Ends the program that runs, and then with a status; the traps call it.
# shellcheck disable=SC2317
stop() {
    trap '' HUP INT TERM ALRM
    if [ -n "$child" ]; then
        kill "$child" 2>/dev/null
        wait "$child" 2>/dev/null
    fi
    fail "$1" "$2"
}

make_folder() {
    trap 'stop 129 "ended by HUP"' HUP
    trap 'stop 130 "ended by INT"' INT
    trap 'stop 143 "ended by TERM"' TERM
    trap 'stop 124 "the time limit of $within seconds is over"' ALRM
    trap '[ -z "${folder-}" ] || rm -rf "$folder"' EXIT
    folder=$(mktemp -d) || fail 71 "no temporary folder can be made"
    left=$folder/left.cnf
    said=$folder/said
    solved=$folder/solved.drat
}

# What can be read just once is copied, since the header is looked at besides. A program beside the shell has no standard input of its own.
keep_formula() {
    case $formula in
        std | /dev/stdin) { cat <&3 >"$folder/formula.cnf" & } 3<&0 ;;
        *)
            [ -p "$formula" ] || [ -c "$formula" ] || return 0
            cat "$formula" >"$folder/formula.cnf" &
            ;;
    esac
    await || fail 66 "cannot read $formula"
    formula=$folder/formula.cnf
}

simplify() {
    run "$program" simplify --workers="$workers" --cnf="$formula" --reduced="$left" --stack="$folder/stack" --summary="$folder/counts" \
        --proof="${proof:-none}"
    case $? in
        0 | 10 | 20) ;;
        6[4-9] | 7[0-8]) exit "$status" ;;
        *) fail "$status" "copro ended with the status $status" ;;
    esac
}

# copro doesn't compare the number of clauses in the header, which is all that tells a formula that was cut off between two clauses.
check_header() {
    clauses=$(sed -n 's/^clauses //p' "$folder/counts")
    stated=$(tr '\r' ' ' <"$formula" | awk '$1 == "p" { print $4; exit }')
    awk -v clauses="$clauses" -v stated="$stated" 'BEGIN { exit clauses + 0 < stated + 0 }' ||
        fail 80 "the formula has $clauses clauses, and its header says $stated; --loose solves it as it is"
}

# Runs the solver on what is left. Its answer is in the file said then, and its status in status.
solve() {
    name=$(basename -- "$1")
    placed=
    for word; do
        shift
        [ "$word" != "{}" ] || { word=$left && placed=yes; }
        set -- "$@" "$word"
    done
    [ -n "$placed" ] || set -- "$@" "$left"
    case $name in
        minisat*) set -- "$@" "$folder/result" ;;
        cadical* | kissat*) [ -z "$proof" ] || set -- "$@" --no-binary "$solved" ;;
    esac
    run "$@" >"$said"
    case $name in minisat*) read_result ;; esac
}

# The file that minisat writes, as `s` and `v` lines.
read_result() {
    [ -f "$folder/result" ] || return 0
    sed -n -e 's/^SAT$/s SATISFIABLE/p' -e 's/^UNSAT$/s UNSATISFIABLE/p' -e 's/^INDET$/s UNKNOWN/p' -e 's/^[-0-9]/v &/p' \
        "$folder/result" >"$said"
}

# The lines of the answer that begin with the word $1.
lines() {
    grep -a -E "^[[:blank:]]*$1([[:space:]]|\$)" "$said"
}

# The answer is what the solver says, since not each has a status for it; but one that it has may not contradict it.
take_answer() {
    answer=$(lines s | tr '\r' ' ' | awk '{ $1 = $1; print }')
    if [ "$status" -gt 128 ] && [ "$status" -le 192 ]; then
        fail 82 "the solver $1 was ended by the signal $(kill -l "$status")"
    fi
    case $status,$answer in
        126, | 127,) fail 81 "the solver $1 can't be run" ;;
        *,) fail 83 "the solver $1 ended without an s line, with the status $status" ;;
        0,"s SATISFIABLE" | 10,"s SATISFIABLE") complete_model "$1" ;;
        0,"s UNSATISFIABLE" | 20,"s UNSATISFIABLE") join_proofs "$1" && answer_with UNSATISFIABLE 20 ;;
        10,"s UNKNOWN" | 20,"s UNKNOWN") ;;
        *,"s UNKNOWN") answer_with UNKNOWN 0 ;;
    esac
    fail 84 "the answer of the solver $1 can't be understood: $answer, with the status $status"
}

answer_with() {
    echo "s $1" || fail 74 "cannot write the answer"
    exit "$2"
}

# The 0 that ends a model is added, since not each solver prints it: extend looks at nothing after the first.
complete_model() {
    lines v >"$folder/model" || fail 84 "the solver $1 says SATISFIABLE without a v line"
    echo "v 0" >>"$folder/model"
    extend
    case $status in
        65 | 69) fail 85 "copro refuses the model of the solver $1" ;;
        *) exit "$status" ;;
    esac
}

extend() {
    run "$program" extend --stack="$folder/stack" --model="$folder/model"
}

# The solver's proof goes after copro's.
join_proofs() {
    if [ -z "$proof" ]; then
        return 0
    elif [ -f "$solved" ]; then
        cat "$solved" >>"$proof" || fail 74 "cannot write $proof"
    else
        echo "solve.sh: $1 writes no proof, so $proof is one of the simplification alone" >&2
    fi
}

while :; do
    case ${1-} in
        --workers) takes_value "$@" && workers=$2 && shift 2 ;;
        --proof) takes_value "$@" && proof=$2 && shift 2 ;;
        --within) takes_value "$@" && within=$2 && shift 2 ;; # by the script itself
        --time) takes_value "$@" && limit=$2 && shift 2 ;;
        --loose) loose=$1 && shift ;;
        --help) sed -n -e '/^$/q' -e '1d' -e 's/^# \{0,1\}//p' "$script" && exit 0 ;;
        -*) wrong "no such option: $1" ;;
        *) break ;;
    esac
done
[ $# -ge 1 ] || wrong "no formula is named"
formula=$1
shift
case $limit in '' | *[!0-9.]* | *.*.* | .) wrong "--time takes a number of seconds" ;; esac
case $proof in none) proof= ;; std) wrong "--proof takes the name of a file" ;; esac

# What is left of the words is the solver's command line, with an option that keeps it quiet where just its name is given.
quiet=yes
if [ "${1-}" = -- ]; then
    shift
    [ $# -eq 0 ] || quiet=
elif [ $# -ge 2 ]; then
    wrong "a solver with words of its own goes after --"
fi
if [ $# -ge 1 ]; then
    command -v -- "$1" >/dev/null || fail 81 "the solver $1 isn't found"
else
    solver=$(command -v cadical || command -v minisat) && set -- "$solver"
fi
case $quiet,$(basename -- "${1-}") in
    yes,minisat*) set -- "$1" -verb=0 ;;
    yes,cadical* | yes,kissat*) set -- "$1" -q ;;
esac

# With a limit the script runs itself once more, through timeout.
if [ "$limit" != 0 ]; then
    exec timeout --foreground --signal=ALRM "$limit" sh "$script" --within "$limit" --workers "$workers" --proof "${proof:-none}" \
        ${loose:+"$loose"} "$formula" -- "$@"
fi

make_folder
keep_formula
simplify
simplified=$status
[ -n "$loose" ] || check_header
case $simplified in
    10) echo "v 0" >"$folder/model" && extend; exit "$status" ;;
    20) answer_with UNSATISFIABLE 20 ;;
esac
[ $# -ge 1 ] || fail 81 "no solver is named, and neither cadical nor minisat is on the PATH"
solve "$@"
take_answer "$1"
