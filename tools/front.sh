# Sourced by every command: options, input, output and status, the same for all. Before that `root` is the repository's folder and `usage`
# the command with what it takes. The command then sets what follows here, defines `help`, perhaps `check`, and calls
# `front "$@"`.
#   flags     its own options without a value, as `pbm off`; `--pbm` sets opt_pbm to yes. `--dual` is the marker of a panel in two halves,
#             of which the program is told by a word
#   letters   one-letter names of flags, as `k=keep`; `-k` then is `--keep`
#   values    those with one, as `at rom`; `--at 5` and `--at=5` set opt_at to 5
#   sample    what it shows where nothing else was given
#   most      how many bytes of its input count, where that is limited
#   program   the proved program that it runs
# Its input then is the file $work/in, and `from` says in words where it is from. Status: 0 accepted, 1 refused, 2 trouble or misuse.
flags=
letters=
values=
most=
opt_output=
opt_sample=

# Closed descriptors would be given to the next file that is opened.
closed=
(exec 9>&2) || exec 2>/dev/null
(exec 9<&0) 2>/dev/null || { exec </dev/null && closed="$closed input"; }
(exec 9>&1) 2>/dev/null || { exec >/dev/null && closed="$closed output"; }

# What tools say is read here, and bytes are bytes.
charset=${LC_ALL:-${LC_CTYPE:-${LANG-}}}
LC_ALL=C
export LC_ALL

. "$root/tools/kit.sh"
. "$root/tools/words.sh"

# misused WHY
misused() {
    say "$1"
    echo "usage: $usage (--help says more)" >&2
    exit 2
}

# listed WORD LIST: it is one of them
listed() {
    case " $2 " in *" $1 "*) return 0 ;; esac
    return 1
}

# check: what a command looks at before anything is built
check() {
    :
}

# front WORD..: options and operands are taken, the input is made ready, the program built
front() {
    read_words "$@"
    work=$(mktemp -d 2>/dev/null) || fail "no temporary folder can be made in '${TMPDIR:-/tmp}'"
    trap 'rm -rf "$work"' EXIT
    # a limit on a file's size is an error to be told, as a full disk is
    trap '' XFSZ
    trap 'stop 129' HUP
    trap 'stop 130' INT
    trap 'stop 143' TERM
    if [ -n "${opt_help-}" ]; then
        help >"$work/out"
        give "$work/out"
        exit 0
    fi
    if [ -n "${opt_version-}" ]; then
        version >"$work/out"
        give "$work/out"
        exit 0
    fi
    check_output
    check
    take_input
    build "$program"
    find_runner "$program"
}

# read_words WORD..: sets opt_NAME for each option, and `file` to the operand, or to nothing
read_words() {
    file=
    named=
    opt_help=
    opt_version=
    for option in $flags $values; do eval "opt_$option="; done
    while [ $# -gt 0 ]; do
        word=$1
        shift
        case $word in
        --)
            while [ $# -gt 0 ]; do
                operand "$1"
                shift
            done
            ;;
        -o)
            [ $# -gt 0 ] || misused "-o is to be followed by a file"
            opt_output=$1
            shift
            [ -n "$opt_output" ] || misused "-o is to be followed by a file"
            ;;
        -o?*) opt_output=${word#-o} ;;
        -h) opt_help=yes ;;
        --?*)
            option=${word#--}
            value=
            case $option in *=*) value=${option#*=} && option=${option%%=*} ;; esac
            if listed "$option" "$values output"; then
                case $word in
                *=*) ;;
                *)
                    [ $# -gt 0 ] || misused "--$option is to be followed by a value"
                    value=$1
                    shift
                    ;;
                esac
                [ -n "$value" ] || misused "--$option is to be followed by a value"
                eval "opt_$option=\$value"
            elif listed "$option" "$flags help version sample"; then
                case $word in *=*) misused "--$option takes no value" ;; esac
                eval "opt_$option=yes"
            else
                misused "there is no option '$word'"
            fi
            ;;
        -?)
            option=
            for letter in $letters; do
                [ "${letter%%=*}" != "${word#-}" ] || option=${letter#*=}
            done
            [ -n "$option" ] || misused "there is no option '$word'"
            eval "opt_$option=yes"
            ;;
        -?*) misused "there is no option '$word'" ;;
        *) operand "$word" ;;
        esac
    done
    [ "$opt_output" != - ] || opt_output=
    [ -z "$opt_sample" ] || [ -z "$named" ] || misused "--sample and a file are one too many"
}

# operand WORD: the one file
operand() {
    [ -z "$named" ] || misused "one file is taken, and '$1' is one too many"
    [ -n "$1" ] || misused "a file's name is empty"
    file=$1
    named=yes
}

# version: the command, and the kit that its program was proved with
version() {
    if [ "$(state "$program")" != current ]; then
        echo "$name of Bintarumpe; its program is $(state "$program") here"
    else
        build "$program"
        kit=
        ! noted "$program" || kit=$(sed -n 1p "$root/target/kit/$program")
        echo "$name of Bintarumpe, proved with ${kit:-a kit that was not noted}"
    fi
}

# take_input: $work/in becomes the file, else what standard input has, else (on a terminal, or asked for) the sample
take_input() {
    if [ -z "$named" ] && [ -z "$opt_sample" ] && [ -t 0 ]; then
        opt_sample=yes
        say "no file was named, and nothing is piped in: this is the sample, $sample"
    fi
    if [ -n "$opt_sample" ]; then
        from=$sample
        take <"$root/$sample" || fail "the sample can't be read"
    elif [ -z "$named" ] || [ "$file" = - ]; then
        from="standard input"
        ! listed input "$closed" || fail "standard input is closed"
        take
    else
        from="'$file'"
        [ -e "$file" ] || fail "there is no file '$file'"
        [ ! -d "$file" ] || fail "'$file' is a folder"
        [ -r "$file" ] || fail "the file '$file' can't be read"
        take <"$file" || fail "the file '$file' can't be read"
    fi
}

# take: standard input into $work/in, as far as it counts
take() {
    if [ -n "$most" ]; then head -c "$most"; else cat; fi >"$work/in" 2>"$work/said" && return
    case $(cat "$work/said") in
    *writ*) fail "the temporary folder '$work' can't be written: $(reason)" ;;
    *) fail "$from can't be read: $(reason)" ;;
    esac
}

# reason: what a tool said in $work/said, without its name
reason() {
    sed -n -e '1s/.*: //p' "$work/said"
}

# size FILE: its bytes
size() {
    echo $(($(wc -c <"$1")))
}

# bytes FILE FROM COUNT: as decimal numbers
bytes() {
    tail -c +$(($2 + 1)) "$1" | head -c "$3" | od -An -v -tu1 | tr -s ' \n' '  '
}

# run_program WORD..: the program, on standard input, gives $work/gave; what it reports is `number`. No report means that it could not
# read or write to its end.
run_program() {
    run "$program" "$@" >"$work/gave" 2>"$work/said" 3>"$work/report"
    ended=$?
    number=$(cat "$work/report" 2>/dev/null)
    case $number in
    '' | *[!0-9]*)
        case $ended in
        12[67]) fail "the $program program can't be started here: $(reason)" ;;
        *) fail "the $program program ended before it was done (status $ended); is there room in '$work'?" ;;
        esac
        ;;
    esac
}

# accept: status 0 or 1, by the number
accept() {
    [ "$number" = 0 ]
    exit
}

# check_output: a place to write to, before any work is done
check_output() {
    if [ -z "$opt_output" ]; then
        ! listed output "$closed" || fail "standard output is closed"
    elif [ -d "$opt_output" ]; then
        fail "'$opt_output' is a folder"
    elif [ -e "$opt_output" ]; then
        [ -w "$opt_output" ] || fail "the file '$opt_output' can't be written"
    else
        [ -d "$(dirname -- "$opt_output")" ] || fail "there is no folder '$(dirname -- "$opt_output")'"
    fi
}

# no_terminal: raw bytes are not for one
no_terminal() {
    [ -n "$opt_output" ] || [ ! -t 1 ] || fail "these are raw bytes, which no terminal shows: name a file by -o FILE, or pipe them on"
}

# give FILE: onto standard output, or into the file asked for, which is there when it is whole
give() {
    if [ -z "$opt_output" ]; then
        ! listed output "$closed" || fail "standard output is closed"
        cat "$1" 2>"$work/said"
        ended=$?
        # a reader that has gone ends this silently, as it ends grep
        [ "$ended" != 141 ] || exit 141
        [ "$ended" = 0 ] || fail "standard output can't be written: $(reason)"
    elif [ -e "$opt_output" ] && [ ! -f "$opt_output" ]; then
        # a device or a pipe
        cat "$1" 2>"$work/said" >"$opt_output" || fail "'$opt_output' can't be written: $(reason)"
    else
        whole=$(readlink -f -- "$opt_output" 2>/dev/null) || fail "'$opt_output' can't be written"
        part=$whole.$$
        # a file that is there keeps its mode
        { { [ ! -e "$whole" ] || cp -p -- "$whole" "$part"; } && cat "$1" >"$part" && mv -f -- "$part" "$whole"; } 2>"$work/said" || {
            rm -f -- "$part"
            fail "'$opt_output' can't be written: $(reason)"
        }
    fi
}
