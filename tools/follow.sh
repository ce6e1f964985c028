# shellcheck shell=sh disable=SC2154
# follow.sh: read in by run and bindings/build, which set top (the top of the repository) and me (what their messages begin with).
# A command is started in the background and what it says is read line by line as it comes. A signal ends the command, and what
# it has started, at once.

say() { printf '%s: %s\n' "$me" "$*" >&2; }

# die STATUS TEXT..
die() {
    ends_with=$1
    shift
    say "$*"
    exit "$ends_with"
}

# Ends the command that is under way: the whole group where the command has one of its own, else the one process.
job='' group=''
stop() {
    [ -z "$job" ] || kill -s TERM -- "$group$job" 2>/dev/null
    rm -f "$top/target/pipe.$$"
    die "$1" "interrupted${2:+; $2}"
}

# on_signals TEXT: what is said when a signal ends the run. The statuses are the shell's own: 128 and the number of the signal.
on_signals() {
    # shellcheck disable=SC2064
    trap "stop 130 '$1'" INT
    # shellcheck disable=SC2064
    trap "stop 143 '$1'" TERM
    # shellcheck disable=SC2064
    trap "stop 129 '$1'" HUP
}

# follow HANDLER: reads what the command under way says from the pipe, gives each line to HANDLER, and answers the command's status.
# The pipe's name is removed as soon as both ends are open, so that nothing is left behind.
follow() {
    exec 5<"$top/target/pipe.$$"
    rm -f "$top/target/pipe.$$"
    while IFS= read -r line <&5 || [ -n "$line" ]; do "$1" "$line"; done
    exec 5<&-
    wait "$job"
    ended=$?
    job='' group=''
    return "$ended"
}

# Proofs and programs go to the crates' folders out/, the pipe and the library for C to target/: says so where nothing can be written there.
need_target() {
    for folder in "$top/target" "$top/crates/lists/out"; do
        # shellcheck disable=SC2188
        if mkdir -p "$folder" 2>/dev/null && (: >"$folder/.written") 2>/dev/null; then
            rm -f "$folder/.written"
        else
            die 3 "cannot write to $folder: proofs and programs go there: the checkout is read-only, belongs to another user, or its disk is full"
        fi
    done
}

need_rt() {
    rt=$(command -v rt) ||
        die 3 "the command rt of the Rattle toolchain is not on PATH: without it nothing can be proved or built. Add the folder bin of the toolchain to PATH"
}

# One line for each crate that was proved anew, or was not, and what rt itself has to say. built: a proved program was built, and is started.
proving='' shown='' built=''
show_crate() {
    case $1 in
    'crate '*': modules '*)
        proving=${1#crate }
        proving=${proving%%:*}
        ;;
    'logic=proved '*)
        case "$shown " in *" $proving "*) ;; *) say "$proving proved" ;; esac
        shown="$shown $proving"
        ;;
    'logic='*) say "$proving NOT PROVED" ;;
    'rt: running '*) built=1 ;;
    # what it chose, where it begins and how to write proofs is for those who write them
    'rt: chose '* | 'rt: rt '* | 'rt: nothing has changed '* | 'rt: '*': begins with '*) ;;
    'rt: '*) printf '%s\n' "$1" >&2 ;;
    esac
}

# prove CRATE WORDS..: runs rt with these words in the crate's folder. It has a session of its own, so that a signal can end the provers that
# it starts too: they are in the background, where a shell has them ignore an interrupt. What was proved is kept in the crates' folders out/.
prove() {
    need_rt
    need_target
    crate=$1
    shift
    mkfifo "$top/target/pipe.$$" || die 3 "no pipe could be made in $top/target"
    on_signals 'what was proved is kept, and the next run goes on from there'
    own=$(command -v setsid) || own=''
    # shellcheck disable=SC2086
    (cd "$top/crates/$crate" && exec $own "$rt" "$@") </dev/null >"$top/target/pipe.$$" 2>&1 &
    job=$! group=${own:+-}
    follow show_crate
}

# prove_below CRATE: proves the crate and those below it, as many at a time as there are processors and memory for (3 GB each).
prove_below() {
    jobs=$(getconf _NPROCESSORS_ONLN 2>/dev/null) || jobs=1
    room=$(awk '/^MemAvailable:/ { print int($2 / 3000000) }' /proc/meminfo 2>/dev/null) || room=1
    [ "$jobs" -le "${room:-1}" ] || jobs=${room:-1}
    [ "$jobs" -ge 1 ] || jobs=1
    prove "$1" all check --jobs "$jobs"
}
