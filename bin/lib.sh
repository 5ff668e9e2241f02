# What the commands of bin/ share. A command defines `help`, which says what it reads and prints, and ends with
# `command_on_folder PROGRAM "$@"`, which runs the proved program on the two sheets of a folder, with
# `command_on_input PROGRAM "$@"`, which runs it on standard input, or with `command_on_both PROGRAM "$@"`, which runs it on the
# site sheet of a folder and on standard input.
#
# The program says on standard error what went wrong and has no exit status of its own; the command ends with status 1 if the
# program said anything. Status 2 is for what keeps the program from being run at all.
# shellcheck shell=sh

root=$(dirname "$(dirname "$(readlink -f "$0")")")
status=0

say() {
    printf '%s: %s\n' "${0##*/}" "$*" >&2
}

fail() {
    say "$*"
    exit 2
}

need_kit() {
    command -v rt >/dev/null || fail "the Rattle kit's command rt is not on the PATH"
}

# ---- Building

# The crates that a program is built from, itself among them, one to a line: those that a crate stands on come before it.
crates_of() { # PROGRAM
    awk -v wanted="$1" '
        function visit(name, on, n, i) {
            if (!(name in below) || name in seen) return
            seen[name] = 1
            n = split(below[name], on, " ")
            for (i = 1; i <= n; i++) visit(on[i])
            print name
        }
        { sub(/#.*/, "") }
        /:/ { split($0, half, ":"); gsub(/[ \t]/, "", half[1]); below[half[1]] = half[2] }
        END { visit(wanted) }' "$root/crates.txt"
}

# Whether a program was proved and built, and none of its sources is newer, or gone (find says so). What rt keeps of a crate in its
# folder out/ is no source.
is_built() { # PROGRAM CRATES
    [ -x "$root/target/bin/$1" ] || return 1
    newer=$(
        find "$root/crates.txt" -newer "$root/target/bin/$1" 2>&1
        for crate in $2; do
            find "$root/crates/$crate" -type d -name out -prune -o -newer "$root/target/bin/$1" -print 2>&1
        done
    )
    [ -z "$newer" ]
}

# Says of a crate that it is proved, and before it of those that it stands on, and how many are left. rt says nothing of a library
# that was proved earlier and hasn't changed.
say_proved() { # CRATE
    for each in $(crates_of "$1"); do
        case $told in *" $each "*) continue ;; esac
        told="$told$each " left=$((left - 1))
        say "$each is proved, $left left"
    done
}

# Says of each crate that it is proved and how many are left; the whole of what rt says goes to a log. True if the last line is
# DONE: it comes only when all is proved and the program was run.
DONE="the program was proved, built and run"
progress() { # LOG PROGRAM LEFT
    left=$3 told=' ' crate=$2 is_done=false
    while IFS= read -r line; do
        printf '%s\n' "$line" >>"$1"
        is_done=false
        case $line in
        'crate '*': '*)
            crate=${line#crate }
            crate=${crate%%:*}
            ;;
        'logic=proved '*) say_proved "$crate" ;;
        'logic=not-proved'*) say "$crate NOT PROVED" ;;
        "$DONE") is_done=true ;;
        esac
    done
    ! "$is_done" || say_proved "$2"
    "$is_done"
}

# Lets rt prove and build a program, which it then also runs, in the folder of its crate and on no input: what it prints there
# is nothing. What stands on standard input is the program's, and not for rt.
prove_and_build() { # PROGRAM
    { cd "$root/crates/$1" && rt run </dev/null >/dev/null; } 2>&1 && echo "$DONE"
}

# Proves and builds a program, which is put into target/bin; it counts as old as the moment when that began. When rt fails, the
# program of before stays older than its sources, and isn't run.
build() { # PROGRAM CRATES
    need_kit
    log=$root/target/log/$1.build program=$root/target/bin/$1
    { mkdir -p "$root/target/bin" "$root/target/log" && : >"$log"; } || fail "nothing can be built in $root/target"
    count=$(printf '%s\n' "$2" | wc -l)
    say "the program $1 is proved and built anew, from $((count)) crates; what rt says is in $log"
    for crate in $2; do # made now, so that the crates' folders don't get newer than the program
        [ ! -d "$root/crates/$crate" ] || mkdir -p "$root/crates/$crate/out"
    done
    : >"$log.begun"
    prove_and_build "$1" | progress "$log" "$1" "$count" && cp "$root/crates/$1/out/$1" "$program.new" ||
        fail "there is no proved program $1: $(tail -n 1 "$log"); what else rt said is in $log"
    touch -r "$log.begun" "$program.new"
    mv -f "$program.new" "$program"
}

# ---- Running

# Programs are for x86-64; on another processor the kit has an emulator beside its compiler.
need_processor() {
    machine=$(uname -m)
    [ "$machine" != x86_64 ] || return 0
    need_kit
    tools=${RATTLE_HOME:-$(dirname "$(dirname "$(readlink -f "$(command -v rt)")")")}/on/$machine/toolchain
    [ -x "$tools/bin/qemu-x86_64" ] || fail "the Rattle kit has no emulator for this processor, $machine"
}

run() { # PROGRAM [WORD]..
    program=$root/target/bin/$1
    shift
    case $machine in
    x86_64) "$program" "$@" ;;
    *) "$tools/bin/qemu-x86_64" "$tools/lib/ld-linux-x86-64.so.2" --library-path "$tools/lib" "$program" "$@" ;;
    esac
}

# Whether the program may open a sheet. Opening a FIFO waits for somebody who writes to it; so whatever stands in a file's place and
# is none is named here, and the program is given an empty file for it.
may_open() { # FILE
    [ ! -e "$1" ] || [ -f "$1" ] && return
    say "$1: Not a regular file"
    status=1
    return 1
}

# Whether there is a standard input at all. Where there is none, whatever is opened next would stand in its place; so that is said
# here, and the program is given an empty file.
may_read_input() {
    (: 3<&0) 2>/dev/null && return
    say "standard input: Bad file descriptor"
    status=1
    return 1
}

# Runs a program. What it says on standard error comes behind what it prints.
run_and_say() { # PROGRAM [WORD]..
    { said=$(run "$@" 2>&1 >&3) || said="$said${said:+
}the program $1 ended with status $?"; } 3>&1
    [ -n "$said" ] || return 0
    printf '%s\n' "$said" | while IFS= read -r line; do say "$line"; done
    status=1
}

# Runs a program on the two sheets of the current folder.
run_on_sheets() { # PROGRAM
    site=site.csv steps=steps.csv
    may_open "$site" || site=/dev/null
    may_open "$steps" || steps=/dev/null
    run_and_say "$1" "$site" "$steps"
}

# Runs a program on the site sheet of the current folder and on standard input, with the events' file if one is named.
run_on_site() { # PROGRAM EVENTS
    site=site.csv
    may_open "$site" || site=/dev/null
    run_and_say "$1" "$site" ${2:+"$2"}
}

# ---- Commands

help_if_asked() { # PROGRAM [WORD]..
    case ${2-} in -h | --help)
        help
        exit
        ;;
    esac
}

# Sees to it that a program can be run here and is built.
make_ready() { # PROGRAM
    (: 3>&1) 2>/dev/null || fail "standard output is closed"
    need_processor
    trap '' PIPE # a write to a pipe that nobody reads fails, and is told as any other
    crates=$(crates_of "$1")
    is_built "$1" "$crates" || build "$1" "$crates"
}

command_on_input() { # PROGRAM
    help_if_asked "$@"
    [ $# -le 1 ] || fail "it takes no words: give it the stream on standard input, as in ${0##*/} <FILE; --help says more"
    may_read_input || exec </dev/null
    make_ready "$1"
    run_and_say "$1"
    exit "$status"
}

# Goes into the folder that a command is given.
go_into() { # FOLDER
    case $1 in
    /*) cd "$1" ;;
    ?*) cd "./$1" ;;
    *) false ;;
    esac 2>/dev/null || fail "there is no folder '$1' to go into"
}

command_on_folder() { # PROGRAM [FOLDER]
    help_if_asked "$@"
    [ $# -le 2 ] || fail "at most one folder, not $(($# - 1)); --help says more"
    go_into "${2-.}"
    make_ready "$1"
    run_on_sheets "$1"
    exit "$status"
}

# FILE is named from the folder that the command is called in.
command_on_both() { # PROGRAM [--events FILE] [FOLDER]
    help_if_asked "$@"
    called=$1 events=
    shift
    if [ "${1-}" = --events ]; then
        [ -n "${2-}" ] || fail "--events needs the name of a file; --help says more"
        events=$2
        shift 2
    fi
    [ $# -le 1 ] || fail "at most one folder, not $#; --help says more"
    case $events in
    '' | /*) ;;
    *) events=$PWD/$events ;;
    esac
    may_read_input || exec </dev/null
    go_into "${1-.}"
    make_ready "$called"
    run_on_site "$called" "$events"
    exit "$status"
}

# ---- What --help says behind a command's own text

help_on_folder() {
    cat <<'EOF'

A sheet that isn't there or can't be read counts as empty and is named on standard error.
docs/SHEETS.md says how to type a sheet and what the numbers mean.
EOF
    help_for_all "a sheet"
}

help_on_input() {
    cat <<'EOF'

Standard input that is closed or can't be read counts as empty, and standard error says so.
docs/SHEETS.md says what the numbers mean.
EOF
    help_for_all "the stream"
}

help_for_all() { # WHAT-IS-READ
    cat <<EOF

The program is proved and built by the Rattle kit the first time, and whenever one of its
sources is newer; standard error then has a line for each crate.

Status: 0 all went well; 1 $1 couldn't be read or the text couldn't be written, and
standard error says which; 2 the program wasn't run, and standard error says why.
EOF
}
