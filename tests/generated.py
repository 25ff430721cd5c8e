"""Every generated file of the repository: written, or compared with what is stored.

python3 tests/generated.py             writes all of them, and names those that have changed
python3 tests/generated.py --compare   names each that differs, with the command that writes it alone; the exit status
                                       is 1 if there is one

    docs/BELIEVED.md, and the counts in README.md    tests/believed.py
    docs/CONTRACTS.md, what is asked of a caller     tests/contracts.py
    docs/COVERAGE.md                                 tests/definitions.py
    docs/CRATES.md                                   tests/crates.py
    docs/WRONG-VERSIONS.md                           tests/edits.py
    docs/map.svg, docs/map/, docs/discovery.svg      tests/map.py
    stdin and stdout of the programs in crates/      tests/vectors.py, tests/logs.py, tests/oracle.py
    tests/logs                                       tests/logs.py
    the version in bindings/ and oracle/             tests/version.py

docs/WRONG-VERSIONS.md needs logs of the wrong versions that are new: `python3 tests/edits.py --table` makes these, and
writes it. The others keep the facts that the document has. The Rust's stored answers in tests/oracle are not written
here, since they need client.rs: `python3 tests/oracle.py --store` writes them.
"""
import itertools
import subprocess
import sys

import believed
import contracts
import crates
import definitions
import edits
import logs
import oracle
import project
import vectors
from project import Faults, root

# The words of the command that writes some files, and the function that makes them. The definitions are run on the
# stored logs, which come before them.
MADE = {
    "tests/vectors.py": vectors.generated,
    "tests/logs.py --make": logs.generated,
    "tests/oracle.py --excerpt": oracle.generated,
    "tests/believed.py": believed.generated,
    "tests/contracts.py --table": contracts.generated,
    "tests/definitions.py --table": definitions.generated,
    "tests/crates.py --table": crates.generated,
    "tests/edits.py --table": edits.generated,
}

# Scripts that write and compare by themselves: the words that write, those that compare, what they write in words, and
# the files among which that is.
BY_COMMAND = [
    ("tests/map.py", "tests/map.py --compare", "a picture of docs/", "docs/**/*.svg"),
    ("tests/version.py --write", "tests/version.py", "the version in bindings/ or oracle/", "[bo]*/**/*.*"),
]


def made(command, function, compare):
    """What a function makes: how many files, those that differ, which are then written, and why it makes none."""
    try:
        files = function()
    except (Faults, OSError) as error:
        lines = error.lines if isinstance(error, Faults) else [str(error)]
        return 0, [], [f"python3 {command} cannot make its file:", *(f"    {line}" for line in lines)]
    return len(files), [project.name_of(path) for path in (project.differing if compare else project.write)(files)], []


def contents(pattern):
    return {path: path.read_bytes() for path in sorted(root.glob(pattern)) if path.is_file()}


def by_command(write, compare, what, pattern, comparing):
    """The same for a script that does it by itself."""
    before = contents(pattern)
    words = [sys.executable, *(compare if comparing else write).split()]
    done = subprocess.run(words, cwd=root, text=True, stdout=subprocess.PIPE, stderr=subprocess.STDOUT)
    printed = [f"    {line}" for line in done.stdout.splitlines()]
    if comparing and done.returncode and (root / write.split()[0]).exists():
        return 1, [what], printed
    after = contents(pattern)
    changed = [project.name_of(path) for path in after if before.get(path) != after[path]]
    return 1, changed, [f"python3 {write} cannot make its file:", *printed] if done.returncode else []


def main(words):
    if words not in ([], ["--compare"]):
        raise Faults(__doc__)
    compare, count, differ, faults = bool(words), 0, 0, 0
    results = ((command, made(command, function, compare)) for command, function in MADE.items())
    others = ((script[0], by_command(*script, compare)) for script in BY_COMMAND)
    for command, (files, names, lines) in itertools.chain(results, others):
        for name in names:
            done = "written" if (root / name).exists() else "removed"
            print(f"{name} differs: python3 {command} writes it" if compare else f"{done}: {name}")
        for line in lines:
            print(line)
        count, differ, faults = count + files, differ + len(names), faults + len(lines)
    if compare:
        print(f"generated files: {count} compared, {differ} differ")
    else:
        print(f"generated files: {count} made, {differ} of them changed")
    return 1 if faults or compare and differ else 0


if __name__ == "__main__":
    project.run(main)
