# Sourced by logs and books: proved programs beside second ones, byte for byte. Before that `here` is this folder and `usage` the
# command with what it takes. The last line is `N passed, M failed`.
root=$(dirname "$here")
. "$root/tools/kit.sh"
passed=0
failed=0
# the word `dual` where the panels are in two halves: generators, proved and second programs are all told
dual=
# and `keep going` where refused pairs are skipped: the replay programs alone
keep=

# counted: the last line
counted() {
    echo "$passed passed, $failed failed"
    [ "$failed" = 0 ]
}

# fail WHY: nothing could be compared
fail() {
    echo "$name: $1" >&2
    echo "0 passed, 1 failed"
    exit 1
}

compiler=${CC:-cc}
command -v "${compiler%% *}" >/dev/null 2>&1 || fail "no C compiler '$compiler'"
work=$(mktemp -d) || exit 1
trap 'rm -rf "$work"' EXIT

# compile NAME SOURCE..: a program of this folder
compile() {
    program=$1
    shift
    # The compiler's name is a list of words.
    # shellcheck disable=SC2086
    (cd "$here" && $compiler -std=c99 -O2 -o "$work/$program" "$@") || fail "$program does not compile"
}

# built PROGRAM: a proved one, which is not built here
built() {
    [ -x "$root/target/bin/$1" ] || fail "target/bin/$1 is missing: the command that runs it builds it, and so does ./test"
}

# widened PROGRAM: $work/in as the proved program has it: a screen's number is one byte in the second ones, and two there; with `lift` set
# identities are 256 higher
lift=
widened() {
    case $1 in
    write | write_asking | draw | rehearse)
        if [ -n "$lift" ]; then
            "$work/lift" <"$work/in"
        elif [ "$(wc -c <"$work/in")" -lt 4 ]; then
            cat "$work/in"
        else
            head -c 4 "$work/in" && printf '\000' && tail -c +5 "$work/in"
        fi
        ;;
    *) cat "$work/in" ;;
    esac
}

# run_proved PROGRAM: on $work/in, with the marker. The programs that have a ROM of their own know it only behind `rom`.
run_proved() {
    widened "$1" >"$work/wide"
    case $dual:$1 in
    dual:draw | dual:rehearse | dual:layers | dual:xbm | dual:compare | dual:inspect)
        cat "$root/tests/bench.rom" "$work/wide" >"$work/lent"
        run "$1" rom dual <"$work/lent"
        ;;
    *) run "$1" ${dual:+dual} ${keep:+keep going} <"$work/wide" ;;
    esac
}

# run_second PROGRAM: the same
run_second() {
    "$work/$1" ${dual:+dual} ${keep:+keep going} <"$work/in"
}

# generate_in KIND SEED FILE: the random input of a seed
generate_in() {
    "$work/generate" ${dual:+dual} "$1" "$2" >"$3" || fail "generate ${dual:+dual }$1 $2"
}

# same WHAT PROVED SECOND: both say the same of $work/in, on standard output and on standard error, and the proved one reports the number
# that is in it
same() {
    run_proved "$2" >"$work/proved.out" 2>"$work/proved.err" 3>"$work/proved.report"
    run_second "$3" >"$work/second.out" 2>"$work/second.err"
    cat "$work/second.out" "$work/second.err" | sed -n 's/^.*refusal \([0-9]*\) place .*$/\1/p' >"$work/second.report"
    [ -s "$work/second.report" ] || echo 0 >"$work/second.report"
    if cmp -s "$work/proved.out" "$work/second.out" && cmp -s "$work/proved.err" "$work/second.err" &&
        cmp -s "$work/proved.report" "$work/second.report"; then
        passed=$((passed + 1))
    else
        failed=$((failed + 1))
        echo "$name: $1 differs between $2 (<) and the second program's $3 (>)"
        diff "$work/proved.report" "$work/second.report"
        diff "$work/proved.err" "$work/second.err" | head -n 5
        diff "$work/proved.out" "$work/second.out" | head -n 5
    fi
}

# same_cases PROVED SECOND: the fixed cases of a second program
same_cases() {
    for file in "$here"/cases/*.case; do
        of=$(sed -n -e '/^out:$/q' -e 's/^program: //p' "$file")
        [ "${of:-log}" = "$2" ] || continue
        "$work/unhex" <"$file" >"$work/in" || fail "$file is no case"
        same "$(basename "$file")" "$1" "$2"
    done
}

# same_random PROVED SECOND KIND COUNT: the random inputs of seeds 1 to COUNT
same_random() {
    seed=1
    while [ "$seed" -le "$4" ]; do
        generate_in "$3" "$seed" "$work/in"
        same "${dual:+dual }$3 $seed" "$1" "$2"
        seed=$((seed + 1))
    done
}

# one_count [COUNT]: how many random inputs, 200 where it is not said
one_count() {
    [ $# -le 1 ] || misused
    count=${1:-200}
    case $count in *[!0-9]*) misused ;; esac
}

find_kit
compile unhex unhex.c
compile generate generate_main.c generate_book.c generate.c
