# Sourced by what runs a proved program: the kit, what is built, a build. Before that `root` is the repository's folder and `usage` the
# command with what it takes.
name=${usage%% *}
child=

# say WORDS: on standard error, with the command's name
say() {
    printf '%s: %s\n' "$name" "$1" >&2
}

# fail WHY: trouble
fail() {
    say "$1"
    exit 2
}

misused() {
    echo "usage: $usage" >&2
    exit 2
}

# explained WORD..: --help prints the lines that a script begins with
explained() {
    case ${1-} in
    --help | -h)
        sed -n -e 1d -e '/^[^#]/q' -e 's/^# \{0,1\}//p' "$0" || exit 2
        exit 0
        ;;
    esac
}

# stop STATUS: on a signal, with what was started
stop() {
    [ -z "$child" ] || kill -s TERM -- "-$child" 2>/dev/null || kill "$child" 2>/dev/null
    exit "$1"
}

# find_kit: the kit's tools for this machine
find_kit() {
    command -v rt >/dev/null 2>&1 || fail "'rt', the Rattle kit's command, is not on PATH"
    machine=$(uname -m)
    tools=$(dirname "$(dirname "$(readlink -f "$(command -v rt)")")")/toolchain
}

# find_runner PROGRAM: what runs it. An x86-64 machine needs nothing of the kit; another needs its emulator, which may be the one noted.
find_runner() {
    machine=$(uname -m)
    [ "$machine" != x86_64 ] || return 0
    if command -v rt >/dev/null 2>&1; then
        find_kit
    else
        tools=$(sed -n 2p "$root/target/kit/$1" 2>/dev/null)
    fi
    [ -x "$tools/bin/qemu-x86_64" ] ||
        fail "programs are x86-64, this machine is $machine: it takes the Rattle kit's emulator, and 'rt', the kit's command, is not on PATH"
}

# programs: each that there is
programs() {
    for main in "$root"/crates/*/src/main.rt; do
        crate=${main%/src/main.rt}
        crate=${crate##*/}
        if [ "$crate" = log_program ]; then echo log; else echo "$crate"; fi
    done
}

# run PROGRAM [WORD..]: programs are x86-64, and run through the kit's emulator elsewhere
run() {
    program=$1
    shift
    if [ "$machine" = x86_64 ]; then
        "$root/target/bin/$program" "$@"
    else
        "$tools/bin/qemu-x86_64" "$tools/lib/ld-linux-x86-64.so.2" --library-path "$tools/lib" "$root/target/bin/$program" "$@"
    fi
}

# crate_of PROGRAM: the crate that it is; the kit has a library named log
crate_of() {
    if [ "$1" = log ]; then echo log_program; else echo "$1"; fi
}

# below PROGRAM: the crates that it is made of, itself first
below() {
    of=$(crate_of "$1")
    echo "$of"
    sed -n "s/^$of://p" "$root/crates.txt" | tr ' ' '\n' | while read -r crate; do
        [ ! -d "$root/crates/$crate/src" ] || [ -z "$crate" ] || echo "$crate"
    done
}

# state PROGRAM: `current`, or why it is not. Edits that must be refused are no part of a program.
state() {
    if [ ! -x "$root/target/bin/$1" ]; then
        echo "not built yet"
        return
    fi
    set -- "$1" "$root/crates.txt"
    for crate in $(below "$1"); do
        for part in src specs proofs; do
            [ ! -d "$root/crates/$crate/$part" ] || set -- "$@" "$root/crates/$crate/$part"
        done
    done
    built=$root/target/bin/$1
    shift
    if [ -n "$(find "$@" -newer "$built" -print 2>/dev/null | head -n 1)" ]; then echo "older than its crates"; else echo current; fi
}

# noted PROGRAM: target/kit has the kit that made it, and it was not made again since
noted() {
    [ -f "$root/target/kit/$1" ] && [ -z "$(find "$root/target/bin/$1" -newer "$root/target/kit/$1" -print)" ]
}

# build PROGRAM: proved and built where it is not current, and the kit noted that did it
build() {
    state=$(state "$1")
    if command -v rt >/dev/null 2>&1; then
        [ "$state" != current ] || ! noted "$1" || return 0
    else
        [ "$state" != current ] || return 0
        fail "the $1 program is $state, and 'rt', the Rattle kit's command, is not on PATH to build it"
    fi
    for tool in flock setsid mkfifo; do
        command -v $tool >/dev/null 2>&1 || fail "the $1 program is $state, and '$tool', which a build needs, is missing"
    done
    lock=$root/target/lock
    mkdir -p "$root/target/bin" "$root/target/kit" "$root/target/log" 2>/dev/null
    # a folder of another user, a file system that is read-only or full
    if ! (: >>"$lock" && [ -w "$root/target/kit" ] && [ -w "$root/target/log" ]) 2>/dev/null; then
        [ "$state" != current ] || return 0
        fail "the $1 program is $state, and '$root/target' can't be written"
    fi
    # The lock is held through descriptor 9, by this shell and by the prover that it starts: it is free when the last of them has ended,
    # however that was. Two commands in a pipe would else prove over each other.
    exec 9<>"$lock"
    if ! flock -n 9; then
        holder=$(cat "$lock")
        say "waiting for a build that goes on here: ${holder:-one that has just begun}"
        flock 9 &
        child=$!
        wait "$child" || fail "the lock $lock can't be taken"
        child=
    fi
    echo "$name, process $$, since $(date '+%Y-%m-%d %H:%M:%S')" >"$lock" || fail "'$root/target' can't be written"
    state=$(state "$1")
    if [ "$state" != current ] || ! noted "$1"; then prove "$1"; fi
    true >"$lock"
    exec 9>&-
}

# prove PROGRAM: by the kit, with a line for each crate and what the prover says in target/log. rt also runs it, on the crate's own input,
# and it must write what it must. It is then put into target/bin, with the time when this began.
prove() {
    count=$(($(below "$1" | wc -l)))
    [ "$state" = current ] || say "proving and building the $1 program, which is $state: $count crates, the first time some minutes"
    began=$root/target/kit/$1.began
    talk=$work/talk
    { true >"$began" && mkfifo "$talk"; } 2>/dev/null || fail "'$root/target' or '$work' can't be written"
    told "$root/target/log/$1.build" <"$talk" &
    made=$root/crates/$(crate_of "$1")
    ({ cd "$made" && exec setsid rt run <stdin >"$work/ran"; } 2>"$talk") &
    child=$!
    wait "$child"
    proved=$?
    wait
    child=
    rm -f "$talk"
    [ "$proved" = 0 ] && cmp -s "$work/ran" "$made/stdout" ||
        fail "the $1 program was not proved and built; target/log/$1.build has all that was said"
    find_kit
    put "$1" && note "$1" && touch -r "$began" "$root/target/bin/$1" || fail "'$root/target' can't be written"
    rm -f "$began"
}

# put PROGRAM: what rt built of it into target/bin, from where it can be run while it is replaced
put() {
    mkdir -p "$root/target/bin" && cp -- "$root/crates/$(crate_of "$1")/out/$(crate_of "$1")" "$root/target/bin/$1.new" &&
        mv -f -- "$root/target/bin/$1.new" "$root/target/bin/$1"
}

# note PROGRAM: the kit that made it
note() {
    { rt version && echo "$tools"; } >"$root/target/kit/$1.new" && mv -f "$root/target/kit/$1.new" "$root/target/kit/$1"
}

# told FILE: of what rt says, the crates and their seconds; all of it into the file
told() {
    since=$(date +%s)
    while IFS= read -r line; do
        printf '%s\n' "$line" >&8
        case $line in
        'crate '*) crate=${line#crate } && crate=${crate%%:*} ;;
        logic=*)
            now=$(date +%s)
            case $line in logic=proved*) how=proved ;; *) how='NOT PROVED' ;; esac
            say "$crate $how ($((now - since)) s)"
            since=$now
            ;;
        esac
    done 8>"$1"
}

# library CRATE: the library for C that the crate is, proved and made where it is not current; one at a time
library() {
    archive=$root/target/staticlib/lib$1.a
    mkdir -p "$root/target/log" && exec 7>>"$root/target/library" && flock 7 || fail "'$root/target' can't be written"
    if [ ! -f "$archive" ] || [ -n "$(find "$root"/crates/*/src "$root"/crates/*/specs "$root"/crates/*/proofs "$root/crates.txt" -newer "$archive" -print 2>/dev/null | head -n 1)" ]; then
        (cd "$root/crates/$1" && rt lib && mkdir -p "$root/target/staticlib" && cp "out/lib$1.a" "$archive") \
            </dev/null >"$root/target/log/$1.library" 2>&1 ||
            { tail -n 5 "$root/target/log/$1.library" >&2; fail "$archive was not proved and made"; }
    fi
    exec 7>&-
}
