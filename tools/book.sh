# Sourced by the commands that take a book: their file is C, L, w, a screen's number or identity in one byte, and the book.
sample=samples/letters.book
# with the longest book, and one byte to see that there are more
most=32773

# book_help: what they take, for --help
book_help() {
    cat <<'TEXT'
FILE, or standard input where it is not named or is `-`, is raw bytes: C, L and w (columns, lines, cell width), a screen's number, or its
identity in a book of form two, and the book (docs/BOOK.md).
TEXT
}

# check_screen: a number that two bytes hold
check_screen() {
    case $opt_screen in
    '') return ;;
    *[!0-9]* | ??????*) ;;
    *) [ "$opt_screen" -gt 65535 ] || return 0 ;;
    esac
    misused "--screen is to be followed by a screen's number or identity, 0 to 65535"
}

# panel_bytes: C, L, w of the file, 0 where they are missing
panel_bytes() {
    { head -c 3 "$work/in" && printf '\000\000\000'; } | head -c 3
}

# pick_screen: `key` is the screen asked for, else the file's own. $work/keyed is the program's input, where it has two bytes, low first.
pick_screen() {
    key=${opt_screen:-$(byte_in 3)}
    # 010 is ten
    key=$(echo "$key" | sed 's/^0*\(.\)/\1/')
    {
        panel_bytes
        # a format, of two escapes
        # shellcheck disable=SC2059
        printf "$(printf '\\%03o\\%03o' $((key % 256)) $((key / 256)))"
        tail -c +5 "$work/in"
    } >"$work/keyed" || fail "the temporary folder '$work' can't be written"
}
