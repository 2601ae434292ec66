# Sourced by the commands that show a picture. Their options `dots`, `blocks`, `pbm` and `rom` are these.
picture_flags='dots blocks pbm'

# picture_help: those options, for --help
picture_help() {
    cat <<'TEXT'
  --dots             the picture as `#` and `.`, a character a dot; so too where standard output is no terminal
  --blocks           the picture in half blocks, two dots to a character; so too on a terminal (in quarter blocks where it is narrow)
  --pbm              the picture as a PBM file (P4)
  --rom FILE         the character ROM, 1,024 bytes: row v of code k is byte 8k + v; else fonts/own.rom, which is our own
TEXT
}

# check_picture: one way to show it, P4 not on a terminal, a ROM
check_picture() {
    case $opt_dots$opt_blocks$opt_pbm in
    '' | yes) ;;
    *) misused "of --dots, --blocks and --pbm one is enough" ;;
    esac
    [ -z "$opt_pbm" ] || no_terminal
    find_rom
}

# find_rom: `rom` is the file asked for, else our own font; $work/none is a ROM without a dot
find_rom() {
    rom=$root/fonts/own.rom
    head -c 1024 /dev/zero >"$work/none"
    [ -n "$opt_rom" ] || return 0
    rom=$opt_rom
    [ -e "$rom" ] || fail "there is no file '$rom'"
    [ ! -d "$rom" ] || fail "'$rom' is a folder"
    cat -- "$rom" >"$work/rom" 2>"$work/said" || fail "the ROM '$rom' can't be read: $(reason)"
    rom=$work/rom
    [ "$(size "$rom")" = 1024 ] || fail "the ROM '$opt_rom' has $(size "$rom") bytes, and a character ROM has 1024"
}

# own_shapes BARE: says so where a dot of our font is to be seen: the picture in $work/rows was made with it, the one in BARE with no dots.
own_shapes() {
    cmp -s "$work/rows" "$1" || echo "the character shapes are Bintarumpe's own" >&2
}

# show_picture: the rows of dots in $work/rows, as asked for
show_picture() {
    width=$(awk 'NR == 1 { print length }' "$work/rows")
    if [ -n "$opt_pbm" ]; then
        p4 <"$work/rows" >"$work/picture"
    elif [ -n "$opt_blocks" ]; then
        half_blocks <"$work/rows" >"$work/picture"
    elif [ -z "$opt_dots$opt_output" ] && [ -t 1 ] && block_terminal; then
        exec 5>&1
        across=$(stty size <&5 2>/dev/null | sed 's/.* //')
        exec 5>&-
        : "${across:=0}"
        [ "$across" = 0 ] || [ "$width" -le $((2 * across)) ] ||
            say "the picture is $width dots wide, too wide for this terminal: --pbm -o FILE makes a file of it"
        if [ "$across" = 0 ] || [ "$width" -le "$across" ]; then half_blocks; else quarter_blocks; fi <"$work/rows" >"$work/picture"
    else
        cp "$work/rows" "$work/picture"
    fi || fail "the temporary folder '$work' can't be written"
    give "$work/picture"
}

# block_terminal: its characters are UTF-8, or it does not say
block_terminal() {
    case $charset in
    *.[Uu][Tt][Ff]*) return 0 ;;
    *.*) return 1 ;;
    esac
}

# half_blocks: two rows to a line
half_blocks() {
    awk '
        NR % 2 { above = $0; next }
        {
            line = ""
            for (i = 1; i <= length($0); i++) {
                two = substr(above, i, 1) substr($0, i, 1)
                line = line (two == "##" ? "\342\226\210" : two == "#." ? "\342\226\200" : two == ".#" ? "\342\226\204" : " ")
            }
            print line
        }'
}

# quarter_blocks: two rows and two columns to a character
quarter_blocks() {
    awk '
        NR % 2 { above = $0 "."; next }
        {
            below = $0 "."
            line = ""
            for (i = 1; i <= length($0); i += 2) line = line block(substr(above, i, 2) substr(below, i, 2))
            print line
        }
        # the block whose quarters are lit: above left, above right, below left, below right
        function block(four) {
            if (four == "....") return " "
            if (four == "#...") return "\342\226\230"
            if (four == ".#..") return "\342\226\235"
            if (four == "##..") return "\342\226\200"
            if (four == "..#.") return "\342\226\226"
            if (four == "#.#.") return "\342\226\214"
            if (four == ".##.") return "\342\226\236"
            if (four == "###.") return "\342\226\233"
            if (four == "...#") return "\342\226\227"
            if (four == "#..#") return "\342\226\232"
            if (four == ".#.#") return "\342\226\220"
            if (four == "##.#") return "\342\226\234"
            if (four == "..##") return "\342\226\204"
            if (four == "#.##") return "\342\226\231"
            if (four == ".###") return "\342\226\237"
            return "\342\226\210"
        }'
}

# p4: each row as octal numbers, which printf turns into bytes
p4() {
    awk '
        { row[NR] = $0 }
        END {
            printf "P4\\n%d %d\\n\n", length(row[1]), NR
            for (r = 1; r <= NR; r++) {
                line = ""
                for (i = 1; i <= length(row[r]); i += 8) {
                    byte = 0
                    for (k = 0; k < 8; k++) byte = 2 * byte + (substr(row[r], i + k, 1) == "#")
                    line = line sprintf("\\%03o", byte)
                }
                print line
            }
        }' | while IFS= read -r line; do
        # the line is a format, of escapes alone
        # shellcheck disable=SC2059
        printf "$line" || exit 1
    done
}
