# Sourced by what reads XBM text: the panel and the bytes in it.

# xbm_raw: XBM text from standard input becomes C, L and w of a panel with a frame of that size and the bytes, in XBM's order. Where the
# width divides by eight the cells are of eight dots, else of six: the frame is the same. It fails with a word where the text is no XBM,
# or where no panel has such a frame.
xbm_raw() {
    awk '
        BEGIN { n = 0 }
        function number(word, i, sum) {
            word = tolower(word)
            if (word !~ /^0x/) return word + 0
            for (i = 3; i <= length(word); i++) sum = 16 * sum + index("0123456789abcdef", substr(word, i, 1)) - 1
            return sum + 0
        }
        $1 == "#define" && $2 ~ /width$/ && $3 ~ /^[0-9]+$/ { width = $3 }
        $1 == "#define" && $2 ~ /height$/ && $3 ~ /^[0-9]+$/ { height = $3 }
        {
            open = index($0, "{")
            if (open) { inside = 1; $0 = substr($0, open + 1) }
            if (!inside) next
            # numbers as C has them, in hex or in decimal
            while (match($0, /[0-9][0-9a-fA-FxX]*/)) {
                byte[n] = number(substr($0, RSTART, RLENGTH))
                if (byte[n++] > 255) wide = 1
                $0 = substr($0, RSTART + RLENGTH)
            }
        }
        END {
            if (width == "" || height == "" || !inside) { print "no width, height and bytes"; exit }
            if (wide) { print "numbers of more than a byte"; exit }
            w = width % 8 == 0 ? 8 : 6
            if (width % w || height % 8 || width / w > 255 || height / 8 > 255) {
                print width " by " height " dots, and no panel has such a frame"
                exit
            }
            printf "\\%03o\\%03o\\%03o\n", width / w, height / 8, w
            line = ""
            for (i = 0; i < n; i++) {
                line = line sprintf("\\%03o", byte[i])
                if (i % 64 == 63) { print line; line = "" }
            }
            if (line != "") print line
        }' | while IFS= read -r line; do
        case $line in
        '\'*)
            # the line is a format, of escapes alone
            # shellcheck disable=SC2059
            printf "$line" || exit 1
            ;;
        *)
            echo "$line" >&2
            exit 1
            ;;
        esac
    done
}
