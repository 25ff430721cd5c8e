r"""Wrong versions that change code and contract together: the changed crate is still proved, and what is promised of it
is refused.

python3 tests/versions.py [FILE ..]      the verdict on these rounds, or on all of tests/versions

A file of tests/versions is a round: its versions are tried at once, in a copy of the repository. A version is

    version: LABEL
    # the rule that it breaks
    proved: CRATE ..                     crates that must still be proved: every edited one, except that which refuses
                                         it, where each edited file must be free of errors
    refused: crates/NAME/FILE THEOREM    where the check of NAME must refuse it: at that theorem, and not because
                                         another one was refused; there may be more such lines
    breaks: crates/NAME/FILE THEOREM     if given: what then is not admitted, since a theorem that it needs was refused
    file: PATH                           an edit, and as many more as it takes; the old text stands once in the file, in
    old: TEXT                            lines of any layout
    new: TEXT                            where \n ends a line
"""
import pathlib
import re
import resource
import tempfile
from collections import namedtuple

import project
from declarations import declarations_of
from project import Faults, root

error = re.compile(r"(?m)^(?:\./)?((?:src|specs|proofs)/\S+?):\d+:\d+: error: `([^`]*)`(.*)$")
not_built = re.compile(r"(?m)^rt: the library \w+ did not build")
lacking = re.compile(r"(?m)^(?:\./)?(proofs/\S+?):\d+:\d+: error: (\d+) declarations? that depends? on `([^`]*)`, "
                     r"which was (?:rejected|not admitted), w(?:as|ere) not checked: (.*)$")
Lack = namedtuple("Lack", "path count cause names")  # of a file: declarations not checked, how many, and for what cause
unfit = re.compile(r"is not in scope|has no `|has no field|cannot be parsed|syntax|no occurrence of the path's")


class Version:
    """One wrong version: the crates that stay proved, the theorems that refuse it, the one that falls with them, each
    with its file, and its edits."""

    def __init__(self, entry):
        self.label, self.rule, self.edits = entry.label, entry.rule, entry.edits
        self.proved = [crate for line in entry.all_of("proved") for crate in line.split()]
        self.refused = [tuple(line.split()) for line in entry.all_of("refused")]
        self.breaks = next((tuple(line.split()) for line in entry.all_of("breaks")), None)

    def incomplete(self):
        """Whether something is not said: a crate that is edited must be proved, or be the one that refuses it."""
        edited = {path.split("/")[1] for path, _, _ in self.edits}
        refusing = {path.split("/")[1] for path, _ in self.refused}
        return not (self.rule and self.refused and edited and self.proved and edited <= {*self.proved, *refusing})

    def apply(self, tree):
        """Makes the edits in a tree; gives what does not fit, or None."""
        for path, old, new in self.edits:
            file = tree / path
            text = file.read_text() if file.exists() else ""
            places = list(re.finditer(r"\s+".join(re.escape(word) for word in old.split()), text))
            if len(places) != 1:
                return f"{self.label}: {path} has {len(places)} times: {old}"
            file.write_text(text[:places[0].start()] + new.replace("\\n", "\n") + text[places[0].end():])
        return None

    def judge(self, tree, errors, lacks):
        """What is wrong with how it was refused, or None; and what is right with it."""
        for at in self.refused:
            if at not in errors or unfit.search(errors[at]):
                return f"{self.label}: {at[1]} is not refused", None
        edited = {path for path, _, _ in self.edits}
        for path, theorem in errors:
            if path in edited:
                return f"{self.label}: {theorem} of {path}, which it edits, is not proved", None
        names = ", ".join(theorem for _, theorem in self.refused)
        if self.breaks and not falls(tree, lacks, self.breaks, self.refused):
            return f"{self.label}: {self.breaks[1]} does not fall with {names}", None
        fallen = f"; {self.breaks[1]} falls" if self.breaks else ""
        return None, f"{self.label}: {', '.join(self.proved)} proved; refused at {names}{fallen}"


def falls(tree, lacks, theorem, causes):
    """Whether a theorem was not checked because one that it needs was refused, over as many steps as it takes."""
    left, seen = [theorem], set()
    while left:
        path, name = left.pop()
        for lack in (lack for lack in lacks if lack.path == path and is_among(tree, lack, name)):
            if any(lack.cause == cause for _, cause in causes):
                return True
            if lack.cause not in seen:
                seen.add(lack.cause)
                left += [(other.path, lack.cause) for other in lacks]
    return False


def is_among(tree, lack, name):
    """Whether a declaration is one of those that were not checked. Where not all of them were printed, it is one if it
    names the cause, or another such one, and these are as many as were counted."""
    shown = re.sub(r" \(via [^)]*\)| and \d+ more$", "", lack.names).split(", ")
    if name in shown or not lack.names.endswith(" more"):
        return name in shown
    fallen, words = {lack.cause}, words_of(lack.path, (tree / lack.path).read_text())
    while more := {other for other in words.keys() - fallen if words[other] & fallen}:
        fallen |= more
    return name in fallen and len(fallen - {lack.cause}) == lack.count


def words_of(path, text):
    """The words of each declaration of a file, each part of a path for itself."""
    found = {}
    for part in declarations_of(path, text)[0]:
        words = [word for section in part.sections for word in section.words[""]]
        found.setdefault(part.name, set()).update(step for word in words for step in word.split("."))
    return found


def check(tree, crates):
    """Whether crates are proved in a tree, one after the other, the lowest first; what the checks printed; of each
    crate's errors the first at each theorem, by its file and its name; and what was not checked. The errors of a
    library below are not read."""
    proved, printed, errors, lacks = True, "", {}, []
    for crate in (name for name in project.crates() if name in crates):
        done, text = project.check(tree / "crates" / crate)
        proved, printed = proved and done, f"{printed}== {crate}\n{text}"
        if not not_built.search(text):
            for path, theorem, what in error.findall(text):
                errors.setdefault((f"crates/{crate}/{path}", theorem), what)
            lacks += [Lack(f"crates/{crate}/{path}", int(n), *more) for path, n, *more in lacking.findall(text)]
    return proved, printed, errors, lacks


def try_round(file, tree):
    """The versions of a round, and its faults."""
    allowed = ("proved", "refused", "breaks")
    versions = [Version(entry) for entry in project.entries(file.read_text(), "version", allowed)]
    above = sorted({path.split("/")[1] for version in versions for path, _ in version.refused})
    if not versions:
        return versions, [f"{file.name}: no version"]
    project.copy_crates(tree)
    if not check(tree, above)[0]:
        return versions, [f"{file.name}: without it {', '.join(above)} must be proved"]
    faults = [fault for version in versions if (fault := version.apply(tree))]
    faults += [f"{version.label}: no rule, no theorem, or a crate that is edited and not to be proved"
               for version in versions if version.incomplete()]
    if faults:
        return versions, faults
    proved, printed, *_ = check(tree, {crate for version in versions for crate in version.proved})
    if not proved:
        print(printed)
        return versions, [f"{file.name}: what must be proved is not"]
    _, printed, errors, lacks = check(tree, above)
    for fault, right in [version.judge(tree, errors, lacks) for version in versions]:
        if fault:
            faults.append(fault)
        else:
            print(right)
    if faults:
        print(printed)
    return versions, faults


def seconds():
    """The processor's seconds of all checks so far."""
    used = resource.getrusage(resource.RUSAGE_CHILDREN)
    return used.ru_utime + used.ru_stime


def main(words):
    if any(word.startswith("-") for word in words):
        raise Faults(__doc__)
    every, faults = [], []
    for file in [pathlib.Path(word) for word in words] or sorted((root / "tests/versions").iterdir()):
        before = seconds()
        with tempfile.TemporaryDirectory() as folder:
            versions, bad = try_round(file, pathlib.Path(folder))
        print(f"{file.name}: {seconds() - before:.0f} processor seconds", flush=True)
        every += versions
        faults += bad
    return project.finish(faults, f"wrong versions of code and contract: {len(every)}, faults: {len(faults)}", every)


if __name__ == "__main__":
    project.run(main)
