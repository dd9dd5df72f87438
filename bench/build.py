#!/usr/bin/env python3
"""Builds a program of this folder, as a crate over copies of the repository's crates with what is kept of their proofs.

    bench/build.py NAME               proves and builds it by `rt run`, keeps it as .pool/NAME and prints that path
    bench/build.py --try NAME WORD..  runs it by `rt try` before anything is proved

`bench/NAME/program.txt` is the source. Beside it `FUNCTION.answers.txt` and `FUNCTION.invariants.txt` have what is written by hand
of a function's proof. The crates are those that these texts name, and in crates.txt those below them. The status is 0, or 1
where the program was not proved and built, or 2 where the words are others; under --try it is that of `rt try`.
"""
import glob
import os
import re
import shutil
import subprocess
import sys
import tempfile

TOP = os.path.dirname(os.path.dirname(os.path.realpath(__file__)))


def texts(name):
    """Gives the texts of a program, each with its place in the crate."""
    for path in sorted(glob.glob(f"{TOP}/bench/{name}/*.txt")):
        function, _, part = os.path.basename(path)[: -len(".txt")].rpartition(".")
        with open(path, encoding="utf-8") as file:
            yield f"proofs/{function}/{part.capitalize()}.antt" if function else "src/main.rt", file.read()


def lines():
    """Gives the lines of crates.txt: each crate's, with what it uses."""
    with open(f"{TOP}/crates.txt", encoding="utf-8") as file:
        for line in file:
            head, colon, uses = line.partition("#")[0].partition(":")
            if colon:
                yield head.split()[0], line, uses.split()


def crates(name):
    """Gives the crates that the texts of a program import, and the lines of all crates that it needs."""
    known = {crate: (line, uses) for crate, line, uses in lines()}
    named = {crate for _, text in texts(name) for crate in re.findall(r"(?m)^(?:ghost )?use (?:Rattle\.)?(\w+)", text)}
    used = [crate for crate in known if crate in named]
    needed, left = {}, list(used)
    while left:
        crate = left.pop()
        if crate in known and crate not in needed:
            needed[crate], uses = known[crate]
            left += uses
    return used, needed


def lay_out(name, folder):
    """Writes the crate of a program, and gives its folder."""
    crate = f"{folder}/crates/{name}_bench"
    used, needed = crates(name)
    for place, text in texts(name):
        os.makedirs(os.path.dirname(f"{crate}/{place}"), exist_ok=True)
        with open(f"{crate}/{place}", "w", encoding="utf-8") as file:
            file.write(text)
    os.makedirs(f"{crate}/proofs", exist_ok=True)
    open(f"{crate}/proofs/Lib.antt", "w").close()
    for it in needed:
        subprocess.run(["cp", "-a", f"{TOP}/crates/{it}", f"{folder}/crates"], check=True)
    with open(f"{folder}/crates.txt", "w", encoding="utf-8") as file:
        file.write("".join(needed.values()) + f"{name}_bench: {' '.join(used)}\n")
    return crate


def built(name):
    """Gives the path of a program, which is proved and built anew."""
    with tempfile.TemporaryDirectory() as folder:
        crate = lay_out(name, folder)
        # Without words the program answers with the status 64.
        run = subprocess.run(["rt", "run"], cwd=crate, stdout=subprocess.PIPE, stderr=subprocess.STDOUT)
        if run.returncode != 64:
            sys.stderr.write(run.stdout.decode()[-2000:])
            sys.exit(f"bench/{name}/run: the program was not proved and built")
        os.makedirs(f"{TOP}/.pool", exist_ok=True)
        return shutil.copy(f"{crate}/out/{name}_bench", f"{TOP}/.pool/{name}")


def tried(name, words):
    """Gives the status of `rt try`."""
    with tempfile.TemporaryDirectory() as folder:
        return subprocess.run(["rt", "try", "--", *words], cwd=lay_out(name, folder)).returncode


def main(words):
    trying = words[:1] == ["--try"]
    words = words[trying:]
    if not words or not trying and len(words) > 1 or not os.path.isfile(f"{TOP}/bench/{words[0]}/program.txt"):
        print("bench/build.py: usage: bench/build.py NAME, bench/build.py --try NAME [WORD..], of a folder with a program.txt", file=sys.stderr)
        return 2
    if trying:
        return tried(words[0], words[1:])
    print(built(words[0]))
    return 0


if __name__ == "__main__":
    sys.exit(main(sys.argv[1:]))
