"""The documents name what is there: each theorem, file and wrong version that README.md and docs/ cite exists.

python3 tests/papers.py

A theorem is cited as `FILE.antt: NAME` in docs/THEOREMS.md, with several names after commas; a wrong version as
`CRATE/LABEL`; a file by its path from crates/, tests/, docs/, bindings/ or oracle/ on.

The notes in docs/landings are not read here: they are history, and name what was there then. `python3 tests/moved.py
--compare` compares them with the commits that they name.
"""
import re

import project
from project import Faults, root


def theorems():
    """The citations of docs/THEOREMS.md: a file, and names in it."""
    cited = re.findall(r"`(crates/[\w/.]+\.antt): ([^`]+)`", (root / "docs/THEOREMS.md").read_text())
    return [(root / path, re.split(r",\s*", names)) for path, names in cited]


def faults_of_theorems():
    for path, names in theorems():
        if not path.exists():
            yield f"docs/THEOREMS.md: no file {project.name_of(path)}"
            continue
        text = path.read_text()
        for name in names:
            if not re.search(rf"(?m)^\s*(?:abbrev |unfoldable )?pub (?:record |data )?{re.escape(name)}\b", text):
                yield f"docs/THEOREMS.md: {project.name_of(path)} has no public {name}"


def faults_of_labels(wrong):
    crates = set(project.crates())
    for document in sorted(root.glob("docs/*.md")):
        for label in re.findall(r"`(\w+/\w+)`", document.read_text()):
            if label.split("/")[0] in crates and label not in wrong:
                yield f"{project.name_of(document)}: no wrong version {label}"


def faults_of_files():
    for document in [root / "README.md", *sorted(root.glob("docs/*.md"))]:
        named = re.findall(r"(?<![\w/.-])((?:crates|tests|docs|bindings|oracle)/[\w/.-]*\.\w+)", document.read_text())
        for path in named:
            if not (root / path).exists():
                yield f"{project.name_of(document)}: no file {path}"


def main(words):
    if words:
        raise Faults(__doc__)
    wrong = {f"{project.crate_of(file)}/{entry.label}"
             for file in project.edit_files() for entry in project.wrong_versions(file)}
    faults = [*faults_of_theorems(), *faults_of_labels(wrong), *faults_of_files()]
    cited = theorems()
    summary = f"{len(cited)} citations of theorems, {len(wrong)} wrong versions, {len(faults)} faults"
    return project.finish(faults, summary, cited)


if __name__ == "__main__":
    project.run(main)
