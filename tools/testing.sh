# shellcheck shell=sh disable=SC2154
# What the scripts share that count passed and failed cases. A script sets `top` to the top of the repository and reads this file, and with it tools/script.sh.
. "$top/tools/script.sh"
passed=0 failed=0

# Makes the folder `made`, which goes when the script ends.
make_folder() {
    made=$(mktemp -d) || exit 2
    trap 'rm -rf "$made"' EXIT
    trap 'exit 129' HUP
    trap 'exit 130' INT
    trap 'exit 143' TERM
}

# `program_of WORD NAME` prints the path of a program: of the one that the word names, or of the script NAME at the top.
# A program that is not built is not built here either: it says what to type. Without words that script ends with the status 64.
program_of() {
    case $1 in
    /*) echo "$1" ;;
    ?*) echo "$PWD/$1" ;;
    *)
        stop_unbuilt "$2" ', or name built programs as its words.'
        "$top/$2" >&2
        [ $? -eq 64 ] && echo "$top/$2"
        ;;
    esac
}

# `good` counts a case that passed, and `bad LINE..` one that failed, of which the lines say why.
good() { passed=$((passed + 1)); }
bad() {
    failed=$((failed + 1))
    printf '%s\n' "$@" >&2
}

# `same GOT WANTED LINE..` compares two texts; the lines are the head of what is said where they differ.
same() {
    if [ "$1" = "$2" ]; then
        good
        return
    fi
    got=$1 wanted=$2
    shift 2
    bad "$@" "$wanted" "but is told" "$got"
}

# `tells STATUS TEXT COMMAND..` compares the status of a command, and its two streams together, with what is wanted.
tells() {
    status=$1 text=$2
    shift 2
    told=$("$@" 2>&1)
    same "status $?, $told" "status $status, $text" "$*: here is wanted"
}

# `gives STATUS OUT ERR COMMAND..` compares the status, and each stream with a file; where there is no such file, with nothing.
gives() {
    status=$1 out=$2 err=$3
    shift 3
    "$@" >"$made/out" 2>"$made/err"
    got=$?
    [ -f "$out" ] || out=/dev/null
    [ -f "$err" ] || err=/dev/null
    if [ $got -eq "$status" ] && cmp -s "$made/out" "$out" && cmp -s "$made/err" "$err"; then
        good
    else
        bad "$*: status $got, and here is wanted $status; what differs (> is told):" "$(diff "$out" "$made/out" | head -n 6; diff "$err" "$made/err" | head -n 6)"
    fi
}

# Prints the closing line; the status is 0 where cases passed and none failed.
summary() {
    echo "$passed passed, $failed failed"
    [ "$passed" -gt 0 ] && [ "$failed" -eq 0 ]
}
