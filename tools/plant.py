#!/usr/bin/env python3
"""Plants bugs in the code, one at a time, and says which are caught: python3 tools/plant.py [CRATE..]

The bugs of a crate are in tools/plants/CRATE.txt, separated by empty lines. Each has a line 'bug: NAME', a line 'what: ...', and
then, as in a must-fail edit, 'file: src/..', 'old: TEXT' and 'new: TEXT'. Each TEXT is one line, and the old one occurs exactly
once in that file. A line 'same: WHY' says why no test could tell the program with the bug from the right one.

The script copies the repository to a temporary folder, and there gives each crate's bugs to 'rt must-fail' in place of its edits.
A bug that the checker refuses is caught. A bug that it accepts is put into the copy and run, until something notices: the tests
of its crate; the crate itself, if it is a program; golden on the stored listings and on some files of tools/fuzz.py; then the
tests and programs of the other crates that depend on it, where the checker may also refuse it. A bug that nothing notices has
survived. The script prints a line for each bug and a count for each crate. The status is 1 if a bug without a 'same:' line
survived, or could not be tried. The whole takes more than an hour.
"""

import os
import re
import shutil
import subprocess
import sys
import tempfile

HERE = os.path.dirname(os.path.dirname(os.path.abspath(__file__)))
PLANTS = os.path.join(HERE, "tools", "plants")
FUZZED = "2000"
REFUSED, RUN, SURVIVED, SAME, BAD = "refused", "caught by running", "survived", "survived, the same", "could not be tried"
NAMES_ALONE = "only because a proof file names what the edit took away"


class Bug:
    def __init__(self, crate, text):
        self.crate, self.lines = crate, text.split("\n")
        self.name, self.what, self.same = self.field("bug"), self.field("what"), self.field("same")
        self.edit = "\n".join(it for it in self.lines if re.match("(file|old|new):", it)) + "\n"

    def field(self, name):
        return next((it[len(name) + 2 :] for it in self.lines if it.startswith(f"{name}: ")), None)

    def put_into(self, crate):
        """Applies the bug in a crate's folder. Returns the old text of each changed file, by its path."""
        path, old, was = None, None, {}
        for line in self.edit.split("\n"):
            word, _, text = line.partition(":")
            text = text.removeprefix(" ")
            if word == "file":
                path = os.path.join(crate, text)
            elif word == "old":
                old = text
            elif word == "new":
                now = read(path)
                was.setdefault(path, now)
                write(path, now.replace(old, text))
        return was


def read(path):
    with open(path, encoding="utf-8") as file:
        return file.read()


def write(path, text):
    with open(path, "w", encoding="utf-8") as file:
        file.write(text)


def bugs_of(crate):
    blocks = re.split(r"\n{2,}", read(os.path.join(PLANTS, f"{crate}.txt")).strip("\n"))
    return [Bug(crate, block) for block in blocks]


def dependencies():
    """Each crate of the repository, with those that it depends on directly."""
    known = {}
    for line in read(os.path.join(HERE, "crates.txt")).splitlines():
        name, colon, rest = line.partition("#")[0].partition(":")
        if colon:
            known[name.split()[0]] = rest.split()
    return known


def stands_on(above, crate, known):
    return above == crate or any(stands_on(dep, crate, known) for dep in known.get(above, []))


def rt(folder, *words):
    ran = subprocess.run(["rt", *words], cwd=folder, stdin=subprocess.DEVNULL, capture_output=True, text=True, errors="replace")
    return ran.returncode, ran.stdout + ran.stderr


def tried(top, crate, bugs):
    """What 'rt must-fail' says of each bug: whether it is refused (None if it could not be tried), and its message."""
    folder = os.path.join(top, "crates", crate, "must-fail")
    shutil.rmtree(folder, ignore_errors=True)
    os.makedirs(folder)
    for bug in bugs:
        write(os.path.join(folder, f"{bug.name}.edit"), bug.edit)
    status, output = rt(os.path.join(top, "crates", crate), "check")
    if status:
        sys.exit(f"plant: {crate} is not proved before anything is planted:\n{output[-2000:]}")
    _, output = rt(top, "must-fail", crate)
    results = {}
    for name, words in re.findall(rf"must-fail {crate}/(\S+)\.edit: (.*)", output):
        refused = True if words.startswith("refused") else False if words.startswith("NOT REFUSED") else None
        results[name] = refused, words
    shutil.rmtree(folder)
    return results


def with_tests(folder):
    return any("#[test]" in read(os.path.join(at, name)) for at, _, names in os.walk(f"{folder}/src") for name in names)


def stream(folder, name):
    path = os.path.join(folder, name)
    return read(path) if os.path.isfile(path) else ""


def built(folder, *words):
    """Runs rt in a folder. Returns how that catches the bug, or None. A program's own status is ignored."""
    status, output = rt(folder, *words)
    if "logic=not-proved" in output or "it is not proved" in output:
        return REFUSED, f"not by its own crate, but when {os.path.basename(folder)} is built"
    return (RUN, f"the tests of {os.path.basename(folder)}") if status and words[0] == "try" else None


def program_differs(folder):
    """Runs a built program with its data. Returns whether its output or its status differs from the stored one."""
    with tempfile.TemporaryDirectory() as room:
        if os.path.isdir(f"{folder}/data"):
            shutil.copytree(f"{folder}/data", room, dirs_exist_ok=True)
        program = os.path.join(folder, "out", os.path.basename(folder))
        given = open(f"{folder}/stdin", "rb") if os.path.isfile(f"{folder}/stdin") else subprocess.DEVNULL
        ran = subprocess.run([program, *stream(folder, "args").split("\n")[:-1]], cwd=room, stdin=given, capture_output=True)
        wanted = int(stream(folder, "status") or 0)
        return ran.returncode != wanted or ran.stdout != stream(folder, "stdout").encode()


def listing_differs(top, program):
    """The name of the first stored listing that the program does not reproduce, or None."""
    data = os.path.join(top, "crates", "conformance", "data")
    for name in read(os.path.join(data, "names")).split():
        with open(f"{data}/{name}.gtm", "rb") as calls, open(f"{data}/{name}.txt", "rb") as wanted:
            ran = subprocess.run([program], stdin=calls, capture_output=True)
            if ran.returncode or ran.stdout != wanted.read():
                return name
    return None


def golden_differs(top):
    """How the program golden catches a bug in the copy, or None. The checker may refuse the bug when golden is built."""
    folder = os.path.join(top, "crates", "golden")
    found, program = built(folder, "run"), os.path.join(folder, "out", "golden")
    name = None if found else listing_differs(top, program)
    if found or name:
        return found or (RUN, f"the listing {name}")
    fuzz = [sys.executable, os.path.join(top, "tools", "fuzz.py"), FUZZED]
    ran = subprocess.run(fuzz, env={**os.environ, "GOLDEN": program}, capture_output=True, text=True)
    return (RUN, f"tools/fuzz.py: {ran.stdout.strip().splitlines()[-1]}") if ran.returncode else None


def crate_differs(folder):
    """How a crate's tests or, for a program, its output catch a bug in the copy, or None."""
    found = built(folder, "try", "--test") if with_tests(folder) else None
    if found or not os.path.isfile(f"{folder}/src/main.rt"):
        return found
    return built(folder, "run") or ((RUN, f"what {os.path.basename(folder)} prints") if program_differs(folder) else None)


def run_over(top, crate, known):
    """How running the programs and tests catches a bug in a crate, or None."""
    found = crate_differs(os.path.join(top, "crates", crate))
    if not found and stands_on("golden", crate, known):
        found = golden_differs(top)
    above = (name for name in known if name not in (crate, "golden") and stands_on(name, crate, known))
    others = (crate_differs(os.path.join(top, "crates", name)) for name in above)
    return found or next((it for it in others if it), None)


def verdict(top, bug, result, known):
    refused, words = result
    if refused is None:
        return BAD, words
    if refused:
        return REFUSED, words.partition(": ")[2] if NAMES_ALONE not in words else words
    was = bug.put_into(os.path.join(top, "crates", bug.crate))
    found = run_over(top, bug.crate, known)
    for path, text in was.items():
        write(path, text)
    return found or ((SAME, bug.same) if bug.same else (SURVIVED, bug.what))


def plant(top, crate, known):
    bugs, count = bugs_of(crate), {}
    results = tried(top, crate, bugs)
    for bug in bugs:
        kind, words = verdict(top, bug, results.get(bug.name, (None, "rt must-fail said nothing of it")), known)
        count[kind] = count.get(kind, 0) + 1
        print(f"{crate}/{bug.name}: {kind}: {words}", flush=True)
    print(f"{crate}: {len(bugs)} bugs; " + ", ".join(f"{kind} {n}" for kind, n in count.items()), flush=True)
    return count


def main():
    known = dependencies()
    named = sys.argv[1:] or [name for name in known if os.path.isfile(f"{PLANTS}/{name}.txt")]
    total = {}
    with tempfile.TemporaryDirectory(prefix="plant-") as top:
        shutil.copytree(f"{HERE}/crates", f"{top}/crates", ignore=shutil.ignore_patterns("out"))
        shutil.copytree(f"{HERE}/tools", f"{top}/tools")
        for name in ("crates.txt", "HANDLES"):
            if os.path.isfile(f"{HERE}/{name}"):
                shutil.copy(f"{HERE}/{name}", top)
        number = sum(len(bugs_of(crate)) for crate in named)
        print(f"planting {number} bugs, one at a time, in a copy at {top}", flush=True)
        for crate in named:
            for kind, n in plant(top, crate, known).items():
                total[kind] = total.get(kind, 0) + n
    print(f"{sum(total.values())} bugs: " + ", ".join(f"{kind} {n}" for kind, n in total.items()))
    sys.exit(1 if total.get(SURVIVED) or total.get(BAD) else 0)


main()
