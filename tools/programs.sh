# shellcheck shell=sh disable=SC2034,SC2154
# What the scripts share that build the programs `pool` and `explore`. A script sets `top` to the folder of the repository and reads this file.
# What is built is kept in the folder `kept`, with these files for each program NAME:
#     NAME            the program
#     NAME.about      what it was built from, and what it needs
#     NAME.names      the files that its build read
#     NAME.built      their times and sizes when that build began
#     NAME.started    the same of a build under way, until NAME stands or has failed in it
#     NAME.failed     why NAME was not built by the last build
# Of the build under way, `building` has the number of its process, `told` a line for each crate that is proved, with the seconds since its start, and `log` all that the judge said.
programs='pool explore'
kept=$top/.pool
rt=$(command -v rt)

# The crates of these programs, each after those that it uses.
crates() {
    awk '
        function take(name, words, count, i) {
            if (!(name in uses) || taken[name]++) return
            count = split(uses[name], words, " ")
            for (i = 1; i <= count; i++) take(words[i])
            print name
        }
        { sub(/#.*/, "") }
        split($0, parts, ":") == 2 { split(parts[1], names, " "); uses[names[1]] = parts[2] }
        END { count = split(programs, wanted, " "); for (i = 1; i <= count; i++) take(wanted[i] "_cli") }' programs="$*" "$top/crates.txt"
}

# The files of the crates of these programs, but for what was made, wrong bodies and files of editors.
sources() {
    # shellcheck disable=SC2046 # (the name of a crate has no blank)
    set -- $(crates "$@")
    [ $# -eq 0 ] || (cd "$top/crates" && find "$@" \( -name out -o -name must-fail \) -prune -o -type f ! -name '.*' -print) |
        sed 's,^,crates/,' | LC_ALL=C sort
}

# The files that a build of a program reads: the toolchain that is on the path, and the sources of the program's crates.
files() {
    if [ -n "$rt" ]; then
        kit=$(readlink -f "$rt")
        kit=${kit%/*}
        printf '%s\n' "$rt" "$kit/rattle" "${kit%/*}/KIT-ID"
    fi
    echo crates.txt
    sources "$1" | grep '[.]rt$\|[.]antt$'
}

# Adds to each name the time of its last change and its size; a name of nothing is left out.
stamped() { (cd "$top" && tr '\n' '\0' | xargs -0 stat -L -c '%n %.Y %s' 2>/dev/null) || :; }

# Whether there is no such program, or a file that its build read is another one now, or is gone. (A new file is read only where one of these names it.)
changed() {
    [ -x "$kept/$1" ] && [ -s "$kept/$1.built" ] && [ -s "$kept/$1.names" ] || return 0
    # (the first name is that of the toolchain's command)
    IFS= read -r known <"$kept/$1.names"
    if [ -z "$rt" ]; then
        # (without the toolchain the sources alone are looked at)
        changes=$(grep -v '^/' "$kept/$1.names" | stamped | grep -cvxF -f "$kept/$1.built") || :
        found=$(grep -v '^/' "$kept/$1.names" | stamped | wc -l)
        [ "$changes" -gt 0 ] || [ "$found" -ne "$(grep -cv '^/' "$kept/$1.built")" ]
    else
        [ "$rt" != "$known" ] || ! stamped <"$kept/$1.names" | cmp -s - "$kept/$1.built"
    fi
}

# A number of seconds, in words.
span() {
    [ "$1" -lt 60 ] || printf '%d min ' $(($1 / 60))
    printf '%d s' $(($1 % 60))
}

# The libraries that a program needs, by their names.
needs() { ldd "$1" 2>/dev/null | awk '$1 !~ /^linux-vdso/ { sub(/.*\//, "", $1); printf "%s%s", between, $1; between = ", " }'; }
