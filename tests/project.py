"""What the scripts in this folder share. It is imported, and does nothing when it is run.

It finds the repository's root, reads crates.txt, splits the code into functions, reads the files of wrong versions,
checks crates in a copy of the repository, and writes and compares generated files.

Words that are used in all scripts:

module         a file of Rattle code: src/lib.rt and src/main.rt are a crate's root, src/answer.rt its module `answer`,
               src/answer/next.rt the module `answer::next`
fault          something that a script found to be wrong: one line of text
generated file a file that a script writes; a script's function `generated()` gives what should be in it
"""
import os
import pathlib
import re
import shutil
import signal
import subprocess
import sys
from collections import namedtuple

root = pathlib.Path(__file__).resolve().parent.parent
documents = root / "../shared/documents"  # beside the repository: documents 01 and 02, and client.rs in src/


class Faults(Exception):
    """Why a script cannot go on, in lines of text."""

    def __init__(self, *lines):
        super().__init__(*lines)
        self.lines = list(lines)


def name_of(path):
    """A file's path from the root on, as it is written in messages and documents."""
    return path.relative_to(root).as_posix()


def finish(faults, summary, evidence=True):
    """Prints the faults and a summary, and gives the exit status: 0 only where there is no fault and some evidence."""
    for fault in faults:
        print(fault)
    print(summary)
    return 1 if faults or not evidence else 0


# The crates and their code.

def crates():
    """The crates of crates.txt in its order, each with the names of those that it depends on. A line begins with the
    crate's name, which the word `staticlib` may follow."""
    lines = [line for line in (root / "crates.txt").read_text().splitlines() if line and not line.startswith("#")]
    return {name.split()[0]: uses.split() for name, uses in (line.split(":") for line in lines)}


def code_files(crate="*"):
    """The files of a crate's code, or of all crates'."""
    return sorted(root.glob(f"crates/{crate}/src/**/*.rt"))


def purpose(crate):
    """What a crate says of itself: the comment on the first line of its source, or right after the line that asks for
    tactics."""
    main, lib = (root / "crates" / crate / "src" / name for name in ("main.rt", "lib.rt"))
    lines = (main if main.exists() else lib).read_text().split("\n")
    line = lines[0] if lines[0] != "#![tactic(auto)]" else next(filter(None, lines[1:]), "")
    if not line.startswith("// "):
        raise Faults(f"crates/{crate}: the source does not begin with a comment")
    return line[3:]


def crate_of(path):
    """The crate of a file under crates/."""
    return path.relative_to(root / "crates").parts[0]


def module_of(file):
    """The module of a code file, whose path below the crate is given: ("answer",) for src/answer.rt, () for the crate's
    root."""
    *folders, name = pathlib.PurePath(file).with_suffix("").parts[1:]
    return tuple(folders) if not folders and name in ("lib", "main") else (*folders, name)


def place_of(path):
    """The crate and the module of a code file."""
    crate = crate_of(path)
    return crate, module_of(path.relative_to(root / "crates" / crate))


Clause = namedtuple("Clause", "word name text")  # `requires` or `ensures`; its name or ""; what it says, in one line


class Function(namedtuple("Function", "crate module owner name public exported start clauses body")):
    """A function of the code: its module's path, the type whose method it is or "", whether it is `pub` and whether it
    is exported to C, where it starts in its file, the clauses of its contract, and its body."""

    def path(self):
        """Its path in the crate: its module, its type and its name."""
        return tuple(filter(None, (*self.module, self.owner, self.name)))

    def full_name(self):
        return "::".join((self.crate, *self.path()))

    def all_of(self, word):
        """What the clauses say that begin with `requires` or with `ensures`."""
        return [clause.text for clause in self.clauses if clause.word == word]


def functions_in(text, crate, module):
    """The functions of a code file, those that a trait only declares among them."""
    begins = (r'(?m)^(?:impl(?:<.*?>)? (?:(?P<trait>[\w:]+)(?:<(?P<of>.*?)>)? for )?(?P<type>\w+)'
              r'|(?:pub )?trait (?P<declared>\w+)'
              r'|(?P<within> *)(?P<public>pub )?(?:pub\(\w+\) )?(?P<exported>extern "C" )?fn (?P<name>\w+))')
    found, owner = list(re.finditer(begins, text)), ""
    for match, end in zip(found, [match.start() for match in found[1:]] + [len(text)]):
        if not match["name"]:
            owner = match["declared"] or owner_of(match["type"], match["trait"], match["of"])
            continue
        clauses, body = contract_and_body(re.sub(r"//.*", "", text[match.start():end]))
        yield Function(crate, module, owner if match["within"] else "", match["name"], bool(match["public"]),
                       bool(match["exported"]), match.start(), clauses, body)


def owner_of(type_name, trait, of):
    """The name of the block of an `impl`, as in the paths of its functions' proofs: the type, or `U16Word2` for
    `impl Word<2> for u16`."""
    if not trait:
        return type_name
    words = [type_name, trait.split("::")[-1], *re.findall(r"\w+", of or "")]
    return "".join(word[0].upper() + word[1:] for word in words)


def contract_and_body(text):
    """The clauses of a function's contract, and its body; "" if it has none, being declared in a trait."""
    clauses, at, within = [], 0, 0
    while True:
        sign = re.compile(r"\b(requires|ensures) (?:(\w+) )?\{|[][(){;]").search(text, at)
        at = sign.end()
        if sign[1]:
            begin, depth = at, 1
            while depth:
                depth += (text[at] == "{") - (text[at] == "}")
                at += 1
            clauses.append(Clause(sign[1], sign[2] or "", " ".join(text[begin:at - 1].split())))
        elif sign[0] == "{":
            return tuple(clauses), text[at:]
        elif sign[0] == ";" and not within:
            return tuple(clauses), ""
        else:
            within += (sign[0] in "([") - (sign[0] in ")]")


def functions():
    """Every function of the code."""
    for path in code_files():
        yield from functions_in(path.read_text(), *place_of(path))


def uses_of(text):
    """What the `use` lines of a code file bring into it: the path behind each name."""
    brought = {}
    for path in re.findall(r"(?m)^(?:pub )?use ([^;]+);", text):
        before, braces, inside = path.partition("{")
        for part in inside.rstrip("} \n").split(",") if braces else [path]:
            whole, _, alias = (before + part.strip() if braces else part).partition(" as ")
            steps = tuple(whole.strip().split("::"))
            brought[alias.strip() or steps[-1]] = steps
    return brought


def resolved(steps, crate, module, text):
    """The whole path, from the crate on, of a path that is written in a code file: by the file's `use` lines, `crate`,
    `self` and `super`, and the modules and types that the file declares."""
    brought, children = uses_of(text), re.findall(r"(?m)^(?:pub )?mod (\w+);", text)
    steps = (*brought.get(steps[0], steps[:1]), *steps[1:])
    if steps[0] == "crate":
        return (crate, *steps[1:])
    if steps[0] in ("self", "super"):
        return (crate, *(module if steps[0] == "self" else module[:-1]), *steps[1:])
    if len(steps) == 1 or steps[0] in children or steps[0][0].isupper():
        return (crate, *module, *steps)
    return steps


def program(crate):
    """The program of a crate, where `rt ci` and `rt run` leave it."""
    path = root / "crates" / crate / "out" / crate
    if not path.exists():
        raise Faults(f"{name_of(path)} is not there: `rt run` in crates/{crate} proves and builds it")
    return path


# Wrong versions.

class Entry:
    """A part of a file of wrong versions: its label, the rule that it breaks, its edits, each a file with an old and a
    new text, and its other lines by their first words."""

    def __init__(self, label):
        self.label, self.rule, self.edits, self.others = label, "", [], []

    def all_of(self, word):
        return [rest for first, rest in self.others if first == word]


def entries(text, first, others=()):
    """The parts of a file of wrong versions. A part begins with the line `FIRST: LABEL`; a line after `#` is the rule
    that it breaks; `file:` holds for the pairs of `old:` and `new:` after it; `others` are the other words allowed."""
    found, file = [], None
    for line in filter(None, text.split("\n")):
        word, _, rest = line.partition(":")
        rest = rest.removeprefix(" ")
        if word == first:
            found.append(Entry(rest))
        elif not found:
            raise Faults(f"a line before the first `{first}:`: {line}")
        elif line.startswith("# "):
            found[-1].rule = f"{found[-1].rule} {line[2:]}".strip()
        elif word == "file":
            file = rest
        elif word == "old":
            found[-1].edits.append([file, rest, None])
        elif word == "new" and found[-1].edits:
            found[-1].edits[-1][2] = rest
        elif word in others:
            found[-1].others.append((word, rest))
        else:
            raise Faults(f"a line that is not understood: {line}")
    for entry in found:
        if not entry.edits or any(None in edit for edit in entry.edits):
            raise Faults(f"{entry.label}: a pair of `old:` and `new:` in a `file:` is missing")
    return found


def edit_files(crate="*"):
    """The files of wrong versions of a crate, or of all: crates/NAME/must-fail/ROUND.edit, and in must-fail-long."""
    return sorted(root.glob(f"crates/{crate}/must-fail*/*.edit"))


def wrong_versions(edit_file):
    """The wrong versions of one of them."""
    try:
        return entries(edit_file.read_text(), "wrong")
    except Faults as faults:
        raise Faults(*(f"{name_of(edit_file)}: {line}" for line in faults.lines)) from None


# Checks in a copy.

def copy_crates(folder):
    """Copies the crates to a folder outside of the repository, without what checks have left there. A check in the copy
    begins with what rt finds of the same crates on this machine."""
    ignored = shutil.ignore_patterns("out", "must-fail*")
    shutil.copytree(root / "crates", folder / "crates", ignore=ignored)
    for name in ("crates.txt", "HANDLES"):
        if (root / name).exists():
            shutil.copy(root / name, folder)


def check(crate, limit=900):
    """Whether the crate in a folder is proved by `rt check`, and what that printed; after so many seconds it is
    stopped."""
    how = {"stdin": subprocess.DEVNULL, "stdout": subprocess.PIPE, "stderr": subprocess.STDOUT, "errors": "replace"}
    with subprocess.Popen(["rt", "check"], cwd=crate, start_new_session=True, **how) as started:
        try:
            printed = started.communicate(timeout=limit)[0]
        except subprocess.TimeoutExpired:
            os.killpg(started.pid, signal.SIGKILL)
            printed = f"{started.communicate()[0]}\nstopped after {limit} seconds\n"
    return started.returncode == 0, printed


# Generated files: a path, and what should be in it as text or bytes, or None where there should be no such file.

def differing(files):
    """Those of some generated files that are not as they should be."""
    stored = {path: path.read_bytes() if path.exists() else None for path in files}
    return [path for path, wanted in files.items() if stored[path] != as_bytes(wanted)]


def write(files):
    """Writes those of some generated files that are not as they should be, and gives their paths."""
    changed = differing(files)
    for path in changed:
        if files[path] is None:
            path.unlink()
        else:
            path.parent.mkdir(parents=True, exist_ok=True)
            path.write_bytes(as_bytes(files[path]))
    return changed


def as_bytes(contents):
    return contents.encode() if isinstance(contents, str) else contents


def write_or_compare(files, compare, command):
    """Writes generated files, or compares them and says which command writes them; gives the exit status."""
    if not compare:
        for path in write(files):
            print(f"{'written' if path.exists() else 'removed'}: {name_of(path)}")
        return 0
    faults = [f"{name_of(path)} differs: {command} writes it" for path in differing(files)]
    return finish(faults, f"generated files: {len(files)} compared, {len(faults)} differ", files)


def run(main):
    """Ends a script with the exit status that its main function gives for the command line's words."""
    try:
        sys.exit(main(sys.argv[1:]))
    except Faults as faults:
        sys.exit("\n".join(faults.lines))
    except subprocess.CalledProcessError as failed:
        sys.exit(f"this command failed with status {failed.returncode}: {' '.join(map(str, failed.cmd))}")
