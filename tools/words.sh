# Sourced by the front: refusals in words. The file is $work/in; the numbers are document 01's, and docs/NUMBERS.md has them all.

# refuse_panel: 1, by the lines of its kind
refuse_panel() {
    bytes "$work/in" 0 3 | awk -v dual="$opt_dual" '{
        fit = dual ? "in two halves 2 to 32, even" : "1 to 16"
        if (!dual && $2 > 16 && $2 <= 32 && $2 % 2 == 0) fit = fit "; in two halves 2 to 32, even: --dual"
        printf "refused: 1, the panel is not valid: columns %d (1 to 80), lines %d (%s), width %d (6 or 8)\n", $1, $2, fit, $3 }'
}

# What a pair is, and why it is refused, for awk.
pair_words='
    function named(k, b) {
        if (k == 0) return sprintf("data %02X", b)
        if (k == 1) return sprintf("command %02X", b)
        if (k == 2) return "data read"
        if (k == 3) return "status read"
        if (k == 4) return "blink tick"
        return sprintf("kind %d, byte %02X", k, b)
    }
    function reason(number, k) {
        if (number == 3) return "a kind above 4"
        if (number == 4) return "a command code that is not defined"
        if (number == 5) return "a command other than B2H in auto " mode
        if (number == 6) return "a command with fewer data than it needs"
        if (number == 7) return k == 0 ? "data written in auto read" : "data read in auto write"
        if (number == 13) return "an answer without room"
        return "see docs/NUMBERS.md"
    }
    # follow: the auto mode behind a pair
    function follow(k, b) {
        if (k == 1 && b == 178) mode = ""
        else if (k == 1 && mode == "") mode = b == 176 ? "write" : b == 177 ? "read" : ""
    }
    function refused(number, at, k, b) {
        return sprintf("%d, %s: ", number, reason(number, k)) placed(at, k, b)
    }
    function placed(at, k, b) {
        return sprintf("pair %d (byte %d): ", at, 3 + 2 * at) named(k, b)
    }'

# refuse_log NUMBER PLACE: of a file with C, L, w and pairs; with the three pairs before the one refused
refuse_log() {
    case $1 in
    1) refuse_panel ;;
    8) echo "refused: 8, the log has an odd number of bytes: whole pairs: $2, then a byte alone (byte $((3 + 2 * $2)))" ;;
    *)
        tail -c +4 "$work/in" | head -c $((2 * $2 + 2)) | od -An -v -tu1 | awk -v number="$1" -v place="$2" "$pair_words"'
            {
                for (i = 1; i < NF; i += 2) {
                    if (n > 0) follow(kind[(n - 1) % 4], byte[(n - 1) % 4])
                    kind[n % 4] = $i
                    byte[n % 4] = $(i + 1)
                    n++
                }
            }
            END {
                print "refused: " refused(number, place, kind[place % 4], byte[place % 4])
                for (at = place < 3 ? 0 : place - 3; at < place; at++) print "  before it: " placed(at, kind[at % 4], byte[at % 4])
            }'
        ;;
    esac
}

# skipped_log LIST: a line for every pair that the file LIST has, in lines `refusal N place P`, in the order of the log
skipped_log() {
    {
        awk '{ print "refusal", $2, $4 }' "$1"
        tail -c +4 "$work/in" | od -An -v -tu1
    } | awk "$pair_words"'
        $1 == "refusal" { number[++listed] = $2; place[listed] = $3; next }
        told < listed {
            for (i = 1; i < NF; i += 2) {
                if (told < listed && place[told + 1] == n) print "skipped: " refused(number[++told], n, $i, $(i + 1))
                follow($i, $(i + 1))
                n++
            }
        }'
}

# byte_in AT: a byte of the file, 0 where it is missing
byte_in() {
    found=$(bytes "$work/in" "$1" 1)
    echo $((found))
}

# refuse_book NUMBER PLACE: of a file with C, L, w, a screen's number or identity and a book; `key` is the screen asked for
refuse_book() {
    at="byte $2 of the book (byte $((4 + $2)) of the file)"
    form=one
    [ "$(byte_in 4)" != 0 ] || form=two
    case $1 in
    1) refuse_panel ;;
    9)
        if [ "$2" != 0 ]; then
            entry=$((($2 - 1) / 4))
            [ "$form" = one ] || entry=$((($2 - 2) / 6))
            echo "refused: 9, the book's contents are wrong: entry $entry, $at"
        else
            length=$(size "$work/in")
            echo "refused: 9, the book is empty or too long, has no screens or too many, or ends inside its contents:" \
                "it has $((length < 4 ? 0 : length - 4)) bytes"
        fi
        ;;
    10)
        if [ "$form" = one ]; then
            echo "refused: 10, there is no screen $key: the book has $(byte_in 4), counted from 0"
        else
            echo "refused: 10, there is no screen with identity $key: ./book lists the $(byte_in 5) that there are"
        fi
        ;;
    11)
        echo "refused: 11, an operation that is unknown, cut off or out of range for the panel: $at: operation $(byte_in $((4 + $2)))"
        ;;
    12) echo "refused: 12, the stream is too long: it has $2 pairs" ;;
    *) echo "refused: $1, see docs/NUMBERS.md: place $2" ;;
    esac
}

# and_place SCREEN: where its first AND stands, by the listing of the book
and_place() {
    build screens >&2
    { panel_bytes && tail -c +5 "$work/in"; } | run screens ${opt_dual:+dual} 3>/dev/null | awk -v screen="$1" '
        $1 == "screen" { here = $2 == screen }
        here && $2 == "mode" && $3 == "AND" {
            printf "byte %d of the book (byte %d of the file)", $1, 4 + $1
            exit
        }'
}

# refuse_move DIRECTION NUMBER PLACE: of such a file
refuse_move() {
    case $2:$1:$(byte_in 4) in
    9:up:0) [ "$(size "$work/in")" -lt 5 ] || { echo "refused: 9, the book is in form two already" && return; } ;;
    9:up:*) ;;
    9:down:0) ;;
    9:down:*) echo "refused: 9, the book is in form one already" && return ;;
    17:*) echo "refused: 17, the identities are other than 0 to n-1, and form one can't keep them: ./book lists them" && return ;;
    19:*)
        echo "refused: 19, screen $3 uses AND, which form two does not know: $(and_place "$3"); in form one the book stays as it is"
        return
        ;;
    18:*) echo "refused: 18, in form two the book would have $3 bytes, and 32768 are the most" && return ;;
    esac
    refuse_book "$2" "$3"
}
