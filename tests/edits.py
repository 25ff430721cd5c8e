"""Each wrong version is refused because a fact no longer holds, and not because a proof file no longer fits the code.

python3 tests/edits.py                  the gate's test. It reads what `rt ci` printed, in target/rt_ci.log
python3 tests/edits.py --try [--long]   tries each round, or each of the long tests', that has no log of the sources as
                                        they stand; each must be refused. The logs are kept in target/wrong-versions
python3 tests/edits.py --try ROUND ..   tries these anew, each named as CRATE/ROUND
python3 tests/edits.py --table          does as --try, judges every wrong version from its log, and writes the table,
                                        docs/WRONG-VERSIONS.md. It is run before a landing
python3 tests/edits.py --long           judges the rounds of the long tests from their logs; each wrong version is held
                                        to its row of the table
python3 tests/edits.py --selftest       judges the made-up logs of tests/judged

A file crates/NAME/must-fail/ROUND.edit is a round: one or more wrong versions, each under a line `wrong: LABEL` with
the rule that it breaks. They are tried at once and judged apart: no two of a round are in one function (or one
theorem), and each must be refused by an error on a fact in that function's own proof. Of a table of theorems each field
is one theorem. A premise of several theorems is tried with no other in its file. A wrong version of a definition, on
which many proofs rest, is alone in its round. The rounds in crates/NAME/must-fail-long are not in the gate.

What is checked when:

in each gate      `rt ci` tries each round of must-fail as a whole, and must refuse it, not only by a limit of the
                  prover. This script finds that in what `rt ci` printed. Of each round, long ones too: each old text
                  stands once in its file, each wrong version is in one place and has a rule, and the table has a row
                  for it. Where there is a log of the sources as they stand, each wrong version of it is judged too
before a landing  --table: each wrong version of each round is refused at a fact of its own function
the long tests    --try --long and --long: the same for the rounds of must-fail-long, and that the table has these
                  facts

A try is `rt check` in a copy of the crates outside of the checkout, with the edits of one round; a check is stopped
after a quarter of an hour. A goal is named after the code around it: where a wrong version has changed the name, the
function's answer to it takes the new name in the copy, and the crate is checked again. A wrong version that is then
not refused at a fact is tried once more without the others of its round. The first line of a log names what it was
of: the round, the code, definitions and proofs of the crate and of those below it, and the kit. A log of anything
else counts as none.
"""
import functools
import hashlib
import os
import pathlib
import queue
import re
import subprocess
import tempfile
from concurrent.futures import ThreadPoolExecutor

import project
from project import Faults, root

document = root / "docs/WRONG-VERSIONS.md"
printed = root / "target/rt_ci.log"
logs = root / "target/wrong-versions"
made_up = root / "tests/judged"
head = """# Wrong versions

The wrong versions of the code, the definitions and the theorems that were tried one by one: in which function or
theorem each is, which rule of the right version it breaks, and the fact at which the check refuses it.
docs/LONG-RUNS.md says which are tried when, and has those that change code and contract together.
`python3 tests/edits.py --table` writes this file from the logs of a check.
"""
PROOFS = ("Answers", "Invariants")  # the files of a function's proof
unfit = re.compile(
    r"has no `|has no field|is not in scope|is no name|is not a constructor|cannot be parsed|syntax|operand is missing"
    r"|expected the end|cannot continue|give the call less to do|replace that `_` with the term"
)
other_shape = re.compile(r"computed as far as they go, the two types are")  # in a function's proof: of another loop
follows = re.compile(r"was not admitted|which was rejected, w(?:as|ere) not checked")
error = re.compile(r"(?m)^(?:\./)?((?:src|specs|proofs)/\S+?):(\d+):\d+: error: (.*)$")
refused = re.compile(r"(?m)^logic=not-proved")
again = "\n======== again, with answers to the goals by their names now\n"
alone = "\n======== alone: {}\n"


class Wrong:
    """A wrong version: where it is, and how it was refused."""

    def __init__(self, edit_file, entry):
        self.crate, self.round, self.long = project.crate_of(edit_file), edit_file.stem, "long" in edit_file.parent.name
        self.label, self.rule, self.file = entry.label, entry.rule, entry.edits[0][0]
        self.faults, self.place, self.fact = [], None, None
        self.find(entry.edits)

    def name(self):
        return f"{self.crate}/{self.label}"

    def place_name(self):
        return "::".join(self.place or ())

    def find(self, edits):
        """Makes the edits one after the other, as rt does, and finds the one place in which they stand. A function's
        own proof may follow an edit of the function."""
        texts, places = {}, set()
        for file, old, new in edits:
            path = root / "crates" / self.crate / file
            text = texts.get(file, path.read_text() if path.exists() else "")
            if text.count(old) != 1:
                self.faults.append(f"in {file} this does not stand once: {old}")
                return
            if file == self.file:
                places.add(enclosing(text, text.index(old), self.crate, file))
            texts[file] = text.replace(old, new)
        self.place = places.pop()
        if places or not texts.keys() <= {self.file, *self.proofs()}:
            self.faults.append("its edits are in several functions, theorems or files")

    def proofs(self):
        """The files of its function's proof."""
        return [f"proofs/{'/'.join(self.place or ())}/{name}.antt" for name in PROOFS]

    def judge(self, log):
        """Finds the fact at which it was refused; None if there is none."""
        errors = [e for e in error.findall(log) if not follows.search(e[2])]
        if self.place is None:
            own = errors[:1]
            if not own:
                self.fact = first_open(log, self.crate)
                return
        elif self.file.startswith("proofs/"):
            own = [e for e in errors if e[0] == self.file and self.is_of_it(e)]
        else:
            own = [e for e in errors if e[0] in self.proofs()]
            if not own:
                self.fact = next(iter(open_goals(log, f"{self.crate}::{self.place_name()}")), None)
                return
        if not own or unfit.search(own[0][2]) or (self.file.startswith("src/") and other_shape.search(own[0][2])):
            return
        name = re.match(r"`[^`]*`", own[0][2])
        self.fact = (name[0] if name else "its statement") + (f" of `{own[0][0]}`" if self.place is None else "")

    def is_of_it(self, found):
        """Whether an error in a file of proofs is one of the theorem, or of that field of a table of theorems."""
        _, line, text = found
        theorem = self.place_name()
        if theorem == "module" or text.startswith(f"`{theorem}`"):
            return True
        path = root / "crates" / self.crate / self.file
        source = path.read_text().split("\n")[int(line) - 1] if path.exists() else ""
        return source.strip().startswith(f"{theorem} = ")


def open_goals(log, function):
    """The goals of a function that `search` alone was to prove, and did not. The notes on them stand right before the
    line on the function."""
    lines = log.split("\n")
    at = next((i for i, line in enumerate(lines) if re.match(rf"fn {function}: (?:not proved|no proof)", line)), 0)
    goals = re.findall(r"`search` did not prove (`[^`]*`)", lines[at])
    while at and re.match(r"note: src/|help: ", lines[at - 1]):
        at -= 1
        goals[:0] = re.findall(r"^note: src/\S+: it is not proved that .*?\((`[^`]*`)\)", lines[at])
    return goals


def first_open(log, crate):
    """The first goal of any function that `search` alone was to prove, and did not; None if there is none."""
    functions = re.findall(rf"(?m)^fn ({crate}::\S+): (?:not proved|no proof)", log)
    return next((f"{goal} of `{function}`" for function in functions for goal in open_goals(log, function)), None)


def enclosing(text, at, crate, file):
    """The function, theorem or field of a table in which a position stands, as its path; ("module",) for a premise of
    several theorems; None for a definition, or a declaration of the code."""
    if file.startswith("specs/"):
        return None
    if file.startswith("proofs/"):
        if text[text.rfind("\n", 0, at) + 1:at].lstrip().startswith("module "):
            return ("module",)
        named = re.finditer(r"(?m)^\s*(?:unfoldable |abbrev )?(?:pub )?([^\s:({]+) :", text)
        return ([match[1] for match in named if match.start() <= at][-1],)
    before = [f for f in project.functions_in(text, crate, project.module_of(file)) if f.start <= at]
    return before[-1].path() if before else None


# The tries, and their logs.

def round_of(edit_file):
    """A round's name: CRATE/ROUND. One of the gate and one of the long tests may have the same."""
    return f"{project.crate_of(edit_file)}/{edit_file.stem}"


def is_long(edit_file):
    return edit_file.parent.name != "must-fail"


def log_file(edit_file):
    return logs / edit_file.parent.name / f"{round_of(edit_file)}.log"


@functools.lru_cache(maxsize=None)
def kit():
    return subprocess.check_output(["rt", "version"])


@functools.lru_cache(maxsize=None)
def sum_of(crate):
    """A checksum of the kit, and of the code, definitions and proofs of a crate and of those below it."""
    every, found = project.crates(), hashlib.sha256(kit())
    for part in ("src", "specs", "proofs"):
        for path in sorted((root / "crates" / crate / part).rglob("*.*")):
            found.update(project.name_of(path).encode() + b"\n" + path.read_bytes())
    for name in every[crate]:
        found.update((sum_of(name) if name in every else name).encode())
    return found.hexdigest()


def what_of(edit_file):
    """The first line of a round's log."""
    text = edit_file.read_bytes() + sum_of(project.crate_of(edit_file)).encode()
    return f"of {project.name_of(edit_file)}: {hashlib.sha256(text).hexdigest()}"


def log_of(edit_file):
    """What was printed at the try of a round, with the sources as they stand; None if there was no such try."""
    path = log_file(edit_file)
    first, _, log = path.read_text().partition("\n") if path.exists() else ("", "", "")
    return log if first and first == what_of(edit_file) else None


def tried(entries, crate):
    """What the check prints of a crate in a copy, with the edits of some wrong versions; the copy stays as it was."""
    before = {}
    for entry in entries:
        for file, old, new in entry.edits:
            text = (crate / file).read_text() if (crate / file).exists() else ""
            if text.count(old) != 1:
                raise Faults(f"{crate.name}: {entry.label}: in {file} this does not stand once: {old}")
            before.setdefault(file, text)
            (crate / file).write_text(text.replace(old, new))
    printed = project.check(crate)[1]
    files = {file for file, _, _ in error.findall(printed) if re.fullmatch(r"proofs/.+/Answers\.antt", file)}
    texts = {file: (crate / file).read_text() for file in files if (crate / file).exists()}
    followed = {file: renamed(text, stale_in(printed, file)) for file, text in texts.items()}
    if followed != texts:
        before = {**texts, **before}
        for file, text in followed.items():
            (crate / file).write_text(text)
        printed = f"{printed}{again}{project.check(crate)[1]}"
    for file, text in before.items():
        (crate / file).write_text(text)
    return printed


def stale_in(printed, file):
    """The answers of a function's proof whose goals are gone, each with the goals of its kind that are asked for
    instead, the most similar first. These stand after the line on the function."""
    names = re.findall(rf"(?m)^\./{re.escape(file)}:\d+:\d+: error: `([^`]*)`: .*has no `\1`", printed)
    function = "::".join(pathlib.PurePath(file).parts[1:-1])
    helps = re.search(rf"(?ms)^fn \w+::{function}: (.*?)(?=^fn |\Z)", printed)
    lines = re.findall(r"(?m)^help: `Goals` has no `([^`]*)`; rattle asks for ([^;]*)", helps[1] if helps else "")
    asked = {name: re.findall("`([^`]*)`", goals) for name, goals in lines}
    return {name: [goal for goal in asked.get(name, ()) if goal.split("-")[0] == name.split("-")[0]] for name in names}


def renamed(text, stale):
    """A function's answers, each whose goal is gone under the name of the most similar one that has no answer."""
    answered = set(re.findall(r"(?m)^(?:abbrev )?(?:pub )?(\S+) :", text))
    for name, goals in stale.items():
        goal = next((goal for goal in goals if goal not in answered), None)
        if goal:
            answered.add(goal)
            text = re.sub(rf"(?<![\w-]){re.escape(name)}(?![\w-])", goal, text)
    return text


def try_round(edit_file, copy):
    """The log of a round: what is printed of all its wrong versions at once; then of each that is not refused at a fact
    there, as where the prover waits for the proof of a function that another one has broken."""
    crate, entries = copy / "crates" / project.crate_of(edit_file), project.wrong_versions(edit_file)
    log = tried(entries, crate)
    for entry in entries if len(entries) > 1 else ():
        wrong = Wrong(edit_file, entry)
        wrong.judge(shown(log, entry.label))
        if wrong.fact is None:
            log += f"{alone.format(entry.label)}{tried([entry], crate)}"
    return log


def try_rounds(edit_files):
    """Tries rounds, the lowest crates first, and keeps their logs. A check takes two processors, so there are half as
    many copies as processors."""
    order, whats = list(project.crates()), {file: what_of(file) for file in edit_files}
    many = min(max(os.cpu_count() // 2, 1), len(edit_files))
    with tempfile.TemporaryDirectory() as folder, ThreadPoolExecutor(many) as pool:
        free = queue.Queue()
        for number in range(many):
            copy = pathlib.Path(folder) / str(number)
            copy.mkdir()
            project.copy_crates(copy)
            free.put(copy)

        def work(edit_file):
            copy = free.get()
            try:
                log = try_round(edit_file, copy)
            finally:
                free.put(copy)
            log_file(edit_file).parent.mkdir(parents=True, exist_ok=True)
            log_file(edit_file).write_text(f"{whats[edit_file]}\n{log}")
            print(f"{round_of(edit_file)}: tried", flush=True)

        list(pool.map(work, sorted(edit_files, key=lambda file: order.index(project.crate_of(file)))))


def try_all(edit_files, anew):
    """Tries rounds, those with a log too if anew, and says which of all these were not refused."""
    left = [file for file in edit_files if anew or log_of(file) is None]
    if left:
        try_rounds(left)
    faults = [fault for file in edit_files for fault in faults_of_log(file)]
    summary = f"{len(left)} rounds tried, {len(edit_files) - len(left)} tried before, {len(faults)} faults"
    return project.finish(faults, summary, edit_files)


def shown(log, label):
    """The part of a round's log that shows a wrong version, after the answers have followed it."""
    parts = log.split(alone.format(label))
    return parts[-1].split(alone.partition("{")[0])[0].split(again)[-1]


def faults_of_log(edit_file):
    """Whether a part of a round's log does not end with the verdict that the crate is not proved."""
    for entry in project.wrong_versions(edit_file):
        if not refused.search(shown(log_of(edit_file) or "", entry.label)):
            yield f"{round_of(edit_file)}: {entry.label}: the check had another verdict than that it is not proved"


def rounds(long):
    """The rounds of the long tests, or all."""
    return [file for file in project.edit_files() if is_long(file) or not long]


def rounds_named(words):
    every = project.edit_files()
    if unknown := set(words) - set(map(round_of, every)):
        raise Faults(f"no rounds: {' '.join(sorted(unknown))}")
    return [file for file in every if round_of(file) in words]


# The table.

def rows():
    """The fact that the table has for each wrong version."""
    text = document.read_text() if document.exists() else ""
    return {name: fact for name, fact in re.findall(r"(?m)^\| .*? \| `(\w+/\w+)` \| .* \| (.*) \|$", text)}


def table(every):
    """The whole document, with a table for each crate."""
    lines, crate = [head.rstrip("\n")], None
    for wrong in sorted(every, key=lambda wrong: (wrong.crate, "/".join(wrong.place or ()), wrong.label)):
        if wrong.crate != crate:
            crate = wrong.crate
            header = "| in | wrong version | breaks the rule | refused at |"
            lines += ["", f"## `{crate}`", "", header, "|---|---|---|---|"]
        where = f"`{wrong.place_name() if wrong.place else wrong.file}`"
        lines.append(f"| {where} | `{wrong.name()}` | {wrong.rule} | {wrong.fact} |".replace("||", "\\|\\|"))
    return "\n".join(lines) + "\n"


def judged(edit_file, stored, long):
    """The wrong versions of a round, whether they were judged from a log, and the faults."""
    name, log = round_of(edit_file), log_of(edit_file)
    found = [Wrong(edit_file, entry) for entry in project.wrong_versions(edit_file)]
    places, faults = [(wrong.file, wrong.place) for wrong in found], []
    if len(set(places)) < len(places) or (len(found) > 1 and any(wrong.place is None for wrong in found)):
        faults.append(f"{name}: two wrong versions in one place, or one of a definition beside others")
    faults += [] if log is None else faults_of_log(edit_file)
    for wrong in found:
        faults += [f"{name}: {wrong.label}: {fault}" for fault in wrong.faults]
        if log is None:
            wrong.fact = stored.get(wrong.name())
        else:
            wrong.judge(shown(log, wrong.label))
        if wrong.fact is None:
            where = f"{name}: {wrong.label} ({wrong.place_name()})"
            none = f"has no row in {project.name_of(document)}: python3 tests/edits.py --table writes it"
            faults.append(f"{where} {none if log is None else 'is not refused at a fact'}")
        if long and log is not None and wrong.fact != stored.get(wrong.name()):
            faults.append(f"{name}: {wrong.label} is refused at {wrong.fact}, and {project.name_of(document)} says "
                          f"{stored.get(wrong.name())}")
        if not wrong.rule:
            faults.append(f"{name}: {wrong.label} does not say what rule it breaks")
    return found, log is not None, faults


def verdict(long):
    """Every wrong version, how many were judged from a log, and the faults."""
    stored, every, count, faults = rows(), [], 0, []
    for edit_file in rounds(long):
        found, has_log, bad = judged(edit_file, stored, long)
        every, count, faults = every + found, count + has_log * len(found), faults + bad
    names = [wrong.name() for wrong in every]
    faults += sorted({f"{name}: twice" for name in names if names.count(name) > 1})
    return every, count, faults


def generated():
    every, _, faults = verdict(False)
    if faults:
        raise Faults(*faults)
    return {document: table(every)}


# What `rt ci` printed.

def faults_of_gate(text):
    """The rounds of the gate that `rt ci` did not refuse, or only in a way that says little."""
    said = dict(re.findall(r"(?m)^rt: must-fail (\w+/\S+?)\.edit: (.*)$", text))
    for edit_file in (file for file in project.edit_files() if not is_long(file)):
        name = round_of(edit_file)
        if not re.match(r"refused, as it must be(?! \(only by a limit)", said.get(name, "")):
            yield f"must-fail {name}.edit: {said.get(name, 'rt ci does not name it')}"
    bad = re.search(r"(?m)^rt: ok\b.*, (\d+) bad\b", text)
    if bad:
        yield f"rt ci found {bad[1]} bad edits"


def gate():
    if not printed.exists():
        raise Faults(f"no {project.name_of(printed)}: bash tests/run leaves there what `rt ci` printed")
    every, count, faults = verdict(False)
    faults += faults_of_gate(printed.read_text())
    tried = sum(1 for file in project.edit_files() if not is_long(file))
    summary = (f"{tried} rounds refused by rt ci, {len(every)} wrong versions with a row in the table, {count} judged "
               f"from a log, {len(faults)} faults")
    return project.finish(faults, summary, tried and every)


# Made-up logs.

def selftest():
    """In tests/judged a log stands below `== FILE PLACE FACT`: a wrong version of that place in that file of the crate
    `small` must be found to be refused at that fact, or at `none`."""
    cases = re.findall(r"(?ms)^== (\S+) (\S+) (\S+)\n(.*?)\n*(?=^== |\Z)", made_up.read_text())
    faults = []
    for file, place, fact, log in cases:
        wrong = Wrong.__new__(Wrong)
        wrong.crate, wrong.file, wrong.fact = "small", file, None
        wrong.place = None if place == "none" else tuple(place.split("::"))
        wrong.judge(log)
        if (wrong.fact or "none").replace("`", "").replace(" ", "_") != fact:
            faults.append(f"in {file}, {place}: refused at {wrong.fact}, and not at {fact}")
    return project.finish(faults, f"{len(cases)} made-up logs judged, {len(faults)} faults", cases)


def main(words):
    if words[:1] == ["--try"]:
        named = words[1:] and words[1:] != ["--long"]
        edit_files = rounds_named(words[1:]) if named else rounds(bool(words[1:]))
        return try_all(edit_files, named)
    if words == ["--table"]:
        try_all(rounds(False), False)
        return project.write_or_compare(generated(), False, "")
    if words == ["--long"]:
        if left := [file for file in rounds(True) if log_of(file) is None]:
            raise Faults("no log of these rounds: python3 tests/edits.py --try --long makes it: "
                         + ", ".join(map(round_of, left)))
        _, count, faults = verdict(True)
        return project.finish(faults, f"{count} wrong versions judged, {len(faults)} faults", count)
    if words == ["--selftest"]:
        return selftest()
    if words:
        raise Faults(__doc__)
    return gate()


if __name__ == "__main__":
    project.run(main)
