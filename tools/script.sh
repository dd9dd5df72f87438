# shellcheck shell=sh disable=SC2034,SC2154
# What the scripts of this folder share. A script sets `top` to the folder of the repository and reads this file before it looks at its words.
# `--help` as the first word prints the comment at the head of the script, and ends it.
if [ "$1" = --help ]; then
    while IFS= read -r line; do
        case $line in
        '#!'*) ;;
        '#'*) line=${line#"#"} && printf '%s\n' "${line#" "}" ;;
        *) exit 0 ;;
        esac
    done <"$0"
    exit 0
fi
attended=

# Makes the folder `folder`. It goes when the script ends, and so does what `attend` runs. A signal ends the script.
own_folder() {
    folder=$(mktemp -d) || exit 2
    trap 'end_attended; rm -rf "$folder"' EXIT
    trap 'exit 129' HUP
    trap 'exit 130' INT
    trap 'exit 143' TERM
}

end_attended() {
    [ -z "$attended" ] || { kill "$attended" && wait "$attended"; } 2>/dev/null
    attended=
}

# Runs a command, and gives its status. It ends with the script: the shell heeds a signal while it waits for a process in the background.
# (the standard input of such a process is an empty one, unless it comes by another descriptor)
attend() {
    { "$@" <&7 7<&- & } 7<&0
    attended=$!
    wait "$attended"
    set -- $?
    attended=
    return "$1"
}

# Prints the program `explore` that is beside the program `pool` that POOL names, if it names one and there is one.
beside_pool() {
    case $POOL in
    '') return ;;
    unproved | */unproved) beside=$POOL ;;
    pool_cli | */pool_cli) beside=${POOL%pool_cli} && beside=${beside%pool_cli/out/}explore_cli/out/explore_cli ;;
    pool | */pool) beside=${POOL%pool}explore ;;
    *) return ;;
    esac
    [ ! -x "$beside" ] || echo "$beside"
}

# `stop_unbuilt NAME AFTER` ends the script with the status 70 if the script NAME at the top would first prove and build its program. What it says first
# is what that takes and what to type instead; AFTER stands behind "and then the same again".
stop_unbuilt() {
    IFS= read -r line <"$top/$1" 2>/dev/null || line=
    if [ "$line" = '#!/bin/sh' ] && [ -f "$top/tools/programs.sh" ] && (. "$top/tools/programs.sh" && changed "$1"); then
        here=$(cd "$(dirname "$0")" && pwd)/${0##*/}
        {
            echo "${here#"$top"/}: $1 is not built from these sources, and to prove and build it takes up to half an hour on four processors, once. Type"
            echo "    $top/pool; $top/explore"
            echo "and then the same again$2"
        } >&2
        exit 70
    fi
}

# `find_program NAME WORD..` sets the variable `program_NAME` to the path of `pool` or `explore`: to what POOL or EXPLORE names, or to the
# `explore` beside the `pool` that POOL names, or to the script at the top. Where that script would first prove and build its program, `stop_unbuilt` ends this one;
# it also says with which POOL these words run on a program without proofs.
find_program() {
    wanted=$1
    shift
    found=$POOL
    [ "$wanted" = pool ] || found=${EXPLORE:-$(beside_pool)}
    if [ -z "$found" ]; then
        found=$top/$wanted
        stop_unbuilt "$wanted" ". For a first look it is compiled without proofs, once, in one to two minutes. Type
    POOL=$top/tools/unproved $0 $*"
    fi
    if [ "$wanted" = pool ]; then program_pool=$found; else program_explore=$found; fi
}
