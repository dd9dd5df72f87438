# shellcheck shell=sh disable=SC2154
# What the scripts of this folder share. A script sets `here` to this folder and `name` to its own name, makes the folder `made`, and
# reads this file. Without Erlang it reports so, and the script ends with status 70.
if ! command -v erlc >/dev/null || ! command -v erl >/dev/null; then
    echo "$name: there is no Erlang here; on Debian, apt-get install erlang-base installs it" >&2
    exit 70
fi
beams=$here/out

# Compiles the engine into out/, unless that is newer than the sources. (A shell of its own does so, whose folder goes with it.)
compile() (
    [ -f "$beams/pool_engine.beam" ] && [ -z "$(find "$here" -name '*.[eh]rl' -newer "$beams/pool_engine.beam")" ] && exit
    new=$(mktemp -d "$here/new.XXXXXX") || exit
    trap 'rm -rf "$new"' EXIT
    trap 'exit 129' HUP
    trap 'exit 130' INT
    trap 'exit 143' TERM
    erlc -o "$new" "$here"/*.erl && mkdir -p "$beams" && mv "$new"/* "$beams"
)

# `plant FAULT FOLDER` makes a copy of the engine in a new folder, with the changes of faults/FAULT.edit. From now on that copy runs. The old
# text of a change must be in one place of its file.
plant() {
    mkdir "$2" && cp "$here"/*.erl "$here"/*.hrl "$2" && cp -r "$here/out" "$2" || return
    changed=$(awk -v folder="$2" -v name="$name" '
        $1 == "file:" { file = folder "/" $2 }
        $1 == "old:" { old = substr($0, 6) }
        $1 == "new:" {
            text = ""
            found = 0
            while ((getline line <file) > 0) {
                at = index(line, old)
                if (at) { found++; line = substr(line, 1, at - 1) substr($0, 6) substr(line, at + length(old)) }
                text = text line "\n"
            }
            close(file)
            if (found != 1) { print name ": " FILENAME ": " found " places have the text" old >"/dev/stderr"; exit 1 }
            printf "%s", text >file
            close(file)
            print file
        }' "$here/faults/$1.edit") || return
    printf '%s\n' "$changed" | sort -u | tr '\n' '\0' | xargs -0 erlc -o "$2/out" && beams=$2/out
}

# Starts Erlang in the place of this shell, with these words and without an input or a shell of its own. Its modules write texts for readers to
# the file 3.
erlang() { exec env ERL_CRASH_DUMP_SECONDS=0 erl +Bd +sbwt none -noinput -kernel logger_level none -pa "$beams" "$@"; }

# `engine N JOBS` runs the jobs of a file on N hosts, in the place of this shell. All of them listen on the loopback alone, with a secret of
# their own.
engine() {
    HOME=$made ERL_EPMD_ADDRESS=127.0.0.1 erlang -name "pool$$@127.0.0.1" -kernel inet_dist_use_interface '{127,0,0,1}' -run pool_engine main "$1" "$2"
}
