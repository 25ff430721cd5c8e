"""docs/CRATES.md: each crate with its functions, its lines of code, definitions and proofs, its wrong versions, and how
long its check took with an older kit.

python3 tests/crates.py --table     writes it. The seconds in the document stay: `rt ci` prints none
python3 tests/crates.py --compare   compares it
"""
import re

import project
from project import Faults, root

document = root / "docs/CRATES.md"
head = """# The crates in numbers

Functions; lines of code (`src`), of definitions (`specs`) and of proofs (`proofs`); wrong versions, and the rounds in
which they are tried. The seconds are those that a check of the crate took in the gate with an older kit, where several
checks ran at a time on two cores; a crate that is newer has none. `tests/crates.py` writes this file.

| crate | what it is for | functions | code | definitions | proofs | wrong versions | rounds | seconds |
|---|---|---:|---:|---:|---:|---:|---:|---:|
"""


def lines(folder, suffix):
    return sum(len(file.read_text().splitlines()) for file in folder.rglob("*" + suffix))


def counts(crate):
    rounds = project.edit_files(crate.name)
    wrong = sum(len(project.wrong_versions(edit)) for edit in rounds)
    sizes = [lines(crate / folder, end) for folder, end in (("src", ".rt"), ("specs", ".antt"), ("proofs", ".antt"))]
    functions = sum(1 for function in project.functions() if function.crate == crate.name)
    return [functions, *sizes, wrong, len(rounds)]


def stored_seconds():
    rows = re.findall(r"(?m)^\| `(\w+)` .* (\d+) \|$", document.read_text() if document.exists() else "")
    return {name: int(seconds) for name, seconds in rows}


def generated():
    seconds, text, totals = stored_seconds(), head, [0] * 7
    for name in project.crates():
        numbers = [*counts(root / "crates" / name), seconds.get(name, 0)]
        totals = [a + b for a, b in zip(totals, numbers)]
        cells = " | ".join(str(n) if n else "" for n in numbers)
        text += f"| `{name}` | {project.purpose(name).rstrip('.')} | {cells} |\n"
    text += "| all | | " + " | ".join([*(f"{n:,}" for n in totals[:-1]), str(totals[-1])]) + " |\n"
    return {document: text + f"\nLines of proof for each line of code: {totals[3] / totals[1]:.1f}.\n"}


def main(words):
    if words not in (["--table"], ["--compare"]):
        raise Faults(__doc__)
    return project.write_or_compare(generated(), words == ["--compare"], "python3 tests/crates.py --table")


if __name__ == "__main__":
    project.run(main)
