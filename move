#!/bin/sh
# move: a book moved from form one to form two, or back.
set -u
root=$(dirname -- "$(readlink -f -- "$0")")
usage='move [up|down] [OPTION..] [FILE]'
. "$root/tools/front.sh"
. "$root/tools/book.sh"
program=mover
flags=dual

help() {
    cat <<'TEXT'
move [up|down] [OPTION..] [FILE]: moves a book up to form two, where each screen has an identity of its own, or down to form one, where
screens are counted. Without a word it is moved to the form that it has not.

TEXT
    book_help
    cat <<'TEXT'
Standard output gets the same file with the moved book. Up gives the identities 0 to n-1, reads every screen on the panel, and takes none
that uses AND, which form two does not know; down takes these identities and no others. Up and down again gives the same bytes. Where the
book is refused there is nothing, and standard error has the reason.

  --dual             the panel is scanned in two halves: L 2 to 32, even
  -o, --output FILE  into FILE, which appears when it is whole; not where the book is refused
  --sample           the sample, samples/letters.book; so too on a terminal where no file is named
  --help, --version  this; the kit that the program was proved with
Status: 0 moved, 1 refused, 2 trouble or misuse. docs/FORMATS.md has the formats, docs/NUMBERS.md the refusals.

  ./move up -o letters-two.book samples/letters.book
  ./move samples/letters.book | ./book
TEXT
}

# operand WORD: up or down, then a file
direction=
operand() {
    case $1:$direction:$named in
    up:: | down::) direction=$1 ;;
    *)
        [ -z "$named" ] || misused "one file is taken, and '$1' is one too many"
        [ -n "$1" ] || misused "a file's name is empty"
        file=$1
        named=yes
        ;;
    esac
}

# check: the book is raw bytes
check() {
    no_terminal
}

front "$@"
if [ -z "$direction" ]; then
    direction=down
    [ "$(byte_in 4)" = 0 ] || direction=up
fi
{
    if [ "$direction" = up ]; then printf '\001'; else printf '\000'; fi
    panel_bytes
    tail -c +5 "$work/in"
} >"$work/asked" || fail "the temporary folder '$work' can't be written"
run_program ${opt_dual:+dual} <"$work/asked"
if [ "$number" = 0 ]; then
    { head -c 4 "$work/in" && cat "$work/gave"; } >"$work/moved" || fail "the temporary folder '$work' can't be written"
    give "$work/moved"
else
    refuse_move "$direction" "$number" "$(sed -n 's/^refusal .* place //p' "$work/said")" >&2
fi
accept
