"""What a change cost: two commits compared declaration by declaration, and the notes of docs/landings.

python3 tests/moved.py A B                prints the comparison of two commits
python3 tests/moved.py A B --write NAME   writes it to docs/landings/NAME.md, with the seconds of `rt ci --anew` on
                                          both commits, one after the other. Text outside of the two marks stays
python3 tests/moved.py --write            writes the comparison of every note anew; the seconds stay
python3 tests/moved.py --compare          compares instead, and names each note that has a `?` left to be written
python3 tests/moved.py --selftest         compares the made-up trees of tests/moved/trees: what is then said must be
                                          what that file expects

tests/declarations.py says what a declaration is, and when it has changed. One is looked for in its own file, then in
its crate, and last, with the same words, in all crates, where it may have become `pub`; where it is found elsewhere it
has moved. A limit: equal names in one file are paired by their order.
"""
import difflib
import os
import pathlib
import re
import subprocess
import tempfile
import textwrap
import time
from collections import Counter, defaultdict, namedtuple

import project
from declarations import declarations_of, is_of_function, with_contracts
from project import Faults, root

landings, trees = root / "docs/landings", root / "tests/moved/trees"
BEGIN, END = "<!-- tests/moved.py writes from here on -->", "<!-- tests/moved.py writes up to here -->"
TIME = "## The check's time\n"
ROWS = {
    "definition": "definitions (specs)", "local": "definitions in proofs", "contract": "contracts of functions",
    "body": "bodies of functions", "type": "types and constants of the code",
    "promise": "statements of acceptance and theory", "statement": "statements of other crates",
    "kept": "proofs, statement kept", "proof": "proofs, statement changed, new or gone"}
ELSEWHERE = {  # the first that fits a path; of code, definitions and proofs the lines that are in no declaration
    r"crates/\w+/(stdin|stdout|args|data)\b|tests/(logs|oracle)/|docs/.*\.svg$"
    r"|docs/(BELIEVED|CONTRACTS|COVERAGE|CRATES|WRONG-VERSIONS)\.md$": "generated and stored files",
    r"crates/\w+/must-fail|tests/versions/": "wrong versions",
    r"crates/\w+/src/": "code: `use` lines and comments",
    r"crates/\w+/specs/": "definitions: `use` lines, comments, telescopes",
    r"crates/\w+/proofs/": "proofs: `use` lines, comments, telescopes",
    r"tests/": "`tests`", r"oracle/": "`oracle`", r"bindings/": "`bindings`", r"docs/|[^/]*\.md$": "documents",
    r"": "other files"}
MOST = 6  # declarations that moved from one file to another, and are named

Change = namedtuple("Change", "row state before after what plus minus")


# What has changed between two trees, which are texts by their paths.

def home(part):
    """The file's name; of a function's proof, whose files are named like all others, with the function's."""
    path = pathlib.PurePath(part.file)
    return f"{path.parent.name}/{path.stem}" if is_of_function(part.file) else path.stem


def by_name(part):
    """A function's proof has names that other functions' proofs have too."""
    return None if is_of_function(part.file) else (part.kind, part.crate, part.name)


def by_words(part, without=()):
    words = [{**section.words, **dict.fromkeys(without)} for section in part.sections]
    return part.kind, part.name, by_name(part) is None and home(part), repr(words)


def by_own_words(part):
    return by_words(part, ("pub", "contract"))


KEYS = [lambda part: (part.kind, part.file, part.name, part.count),
        lambda part: (part.kind, part.crate, home(part), part.name), by_name, by_words, by_own_words]


def paired(before, after):
    """Each declaration before with that after it; None where there is none. A key that fits several pairs none."""
    for key in KEYS:
        old, new = defaultdict(list), defaultdict(list)
        for parts, by in ((before, old), (after, new)):
            for part in parts:
                by[key(part)].append(part)
        both = {k for k in old if k is not None and len(old[k]) == len(new.get(k, ())) == 1}
        yield from ((old[k][0], new[k][0]) for k in old if k in both)
        before, after = ([part for k in by if k not in both for part in by[k]] for by in (old, new))
    yield from ((part, None) for part in before)
    yield from ((None, part) for part in after)


def counted(old, new):
    """The lines added and removed."""
    same = sum(block.size for block in difflib.SequenceMatcher(None, old, new, False).get_matching_blocks())
    return len(new) - same, len(old) - same


def differing(old, new):
    """The parts in which the words of two sections differ, by their names."""
    return [word for word in {**old.words, **new.words} if old.words.get(word) != new.words.get(word)]


def changes_of(before, after):
    """The changes of a declaration, one for each section. A proof's row depends on the section before: the
    statement."""
    statement = ""
    for i, section in enumerate((after or before).sections):
        old, new = (part and part.sections[i] for part in (before, after))
        what = differing(old, new) if old and new else []
        state = "gone" if not new else "new" if not old else "changed" if what else "stayed"
        plus, minus = counted(old.lines if old else [], new.lines if new else []) if state != "stayed" else (0, 0)
        row = "kept" if section.row == "proof" and statement == "stayed" else section.row
        statement = state
        named = " and ".join(word or "words" for word in what) if what != [""] else ""
        yield Change(row, state, before, after, named, plus, minus)


class Comparison:
    """The changes of declarations between two trees; and the files and lines elsewhere, by groups. There a line that
    moved within its file is not counted, and neither is a file that moved as it is; a copy of one that stays is."""

    def __init__(self, before, after):
        read = {item: declarations_of(*item) for tree in (before, after) for item in tree.items()}
        parts = [[part for item in sorted(tree.items()) for part in read[item][0]] for tree in (before, after)]
        pairs = paired(*(list(with_contracts(of)) for of in parts))
        self.changes = [change for old, new in pairs for change in changes_of(old, new)]
        self.elsewhere = {title: [0, 0, 0] for title in ELSEWHERE.values()}
        gone, new = before.keys() - after.keys(), after.keys() - before.keys()
        moved = {before[path] for path in gone} & {after[path] for path in new}
        for path in sorted(before.keys() | after.keys()):
            texts = before.get(path), after.get(path)
            if texts[0] == texts[1] or None in texts and moved & set(texts):
                continue
            old, new = (Counter(read[path, text][1] if text is not None else ()) for text in texts)
            if old != new:
                title = next(title for pattern, title in ELSEWHERE.items() if re.match(pattern, path))
                lines = 1, (new - old).total(), (old - new).total()
                self.elsewhere[title] = [a + b for a, b in zip(self.elsewhere[title], lines)]

    def of(self, row, state):
        return [change for change in self.changes if (change.row, change.state) == (row, state)]

    def sums(self, row):
        """How many stayed, changed, are new and are gone; and the lines added and removed."""
        lines = [(change.plus, change.minus) for change in self.changes if change.row == row]
        counts = [len(self.of(row, state)) for state in ("stayed", "changed", "new", "gone")]
        return [*counts, *(sum(column) for column in zip((0, 0), *lines))]

    def moves(self):
        """What moved to another file and stayed as it was: names by the two files."""
        names = defaultdict(dict)
        for change in self.changes:
            if change.before and change.after and change.before.file != change.after.file:
                of = names[change.before.file, change.after.file]
                of[change.after.name] = of.get(change.after.name, True) and change.state == "stayed"
        same = {files: sorted(name for name, stayed in of.items() if stayed) for files, of in sorted(names.items())}
        return {files: of for files, of in same.items() if of}


# The comparison in words.

def cells(*values):
    return "| " + " | ".join(str(value) for value in values) + " |\n"


def table(titles, rows):
    """A table of numbers, with their sums in the last row."""
    numbers = [*rows.items(), ("all", [sum(column) for column in zip(*rows.values())])]
    head = cells(*titles) + "|---|" + "---:|" * (len(titles) - 1) + "\n"
    return head + "".join(cells(title, *(f"{n:,}" if n else "" for n in row)) for title, row in numbers) + "\n"


def wrapped(line):
    return textwrap.fill(line, 120, subsequent_indent="  ", break_long_words=False, break_on_hyphens=False) + "\n"


def listed(title, changes):
    """A list of changes by file: each with its name, what of it has changed, and its lines."""
    files = defaultdict(list)
    for change in sorted(changes, key=lambda change: (change.after or change.before).name):
        part, old = change.after or change.before, change.before
        came = f" (before: `{old.file}`)" if old and old.file != part.file else ""
        lines = [f"+{change.plus}"] * bool(change.plus) + [f"−{change.minus}"] * bool(change.minus)
        files[f"`{part.file}`{came}"].append(" ".join(filter(None, (f"`{part.name}`", change.what, *lines))))
    lines = "".join(wrapped(f"- {file}: {', '.join(files[file])}") for file in sorted(files))
    return f"{title}:\n\n{lines}\n" if files else ""


def lists_of(comparison, row):
    """What changed, is new and is gone. New and gone statements of other crates are listed with their proofs."""
    titles = {"changed": "Both changed" if row == "proof" else "Changed", "new": "New", "gone": "Gone"}
    states = ["changed"] if row == "statement" else titles
    return "".join(listed(titles[state], comparison.of(row, state)) for state in states)


def words_for(comparison):
    """The comparison as it stands in a note, without the commits and the seconds."""
    text = table(("what", "stayed", "changed", "new", "gone", "lines +", "lines −"),
                 {title: comparison.sums(row) for row, title in ROWS.items()})
    for row, title in ROWS.items():
        lists = lists_of(comparison, row)
        text += f"## {title.capitalize()}\n\n{lists}" if lists else ""
    moves = comparison.moves()
    text += "## Moved to another file, unchanged\n\n" if moves else ""
    for (old, new), names in moves.items():
        which = ", ".join(f"`{name}`" for name in names) if len(names) <= MOST else f"{len(names)} declarations"
        text += wrapped(f"- `{old}` → `{new}`: {which}")
    text += "\n" if moves else ""
    rest = {title: lines for title, lines in comparison.elsewhere.items() if any(lines)}
    return text + ("## Elsewhere\n\n" + table(("what", "files", "lines +", "lines −"), rest) if rest else "")


# The commits and the seconds.

def git(*words, **more):
    return subprocess.run(["git", *words], cwd=root, check=True, stdout=subprocess.PIPE, **more).stdout


def commit_of(revision):
    command = ["git", "rev-parse", "--verify", "--quiet", f"{revision}^{{commit}}"]
    found = subprocess.run(command, cwd=root, text=True, stdout=subprocess.PIPE)
    if found.returncode:
        raise Faults(f"no commit {revision} is in this repository")
    return found.stdout.strip()


def tree_of(commit):
    """The files of a commit: their texts by their paths."""
    files = [line.split(b"\t", 1) for line in git("ls-tree", "-r", "-z", commit).split(b"\0") if b" blob " in line]
    contents = git("cat-file", "--batch", input=b"".join(head.split()[2] + b"\n" for head, _ in files))
    tree, at = {}, 0
    for _, path in files:
        begin = contents.index(b"\n", at) + 1
        at = begin + int(contents[at:begin].split()[2]) + 1
        tree[path.decode()] = contents[begin:at - 1].decode(errors="replace")
    return tree


def compared(before, after):
    """What a note says of two commits, up to the seconds."""
    subjects = [git("log", "-1", "--format=%s", commit).decode().strip() for commit in (before, after)]
    return (wrapped(f"- before: `{before[:12]}` {subjects[0]}") + wrapped(f"- after: `{after[:12]}` {subjects[1]}")
            + "\nLines are those of the declarations, without comments. What only moved or has a new layout stayed.\n"
            "A contract and a body, a statement and its proof are counted apart.\n\n"
            + words_for(Comparison(tree_of(before), tree_of(after))))


def seconds_of(commit):
    """Of `rt ci --anew` on a commit: the seconds by the clock, and how many crates it proved."""
    with tempfile.TemporaryDirectory() as folder:
        subprocess.run(["tar", "-x", "-C", folder], input=git("archive", commit), check=True)
        names = re.findall(r"(?m)^(\w+)[\w ]*:", (pathlib.Path(folder) / "crates.txt").read_text())
        begun = time.monotonic()
        command = ["rt", "ci", "--anew"]
        done = subprocess.run(command, cwd=folder, text=True, stdout=subprocess.PIPE, stderr=subprocess.STDOUT)
        clock = round(time.monotonic() - begun)
    proved = re.findall(r"(?m)^rt: (\w+) proved$", done.stdout)
    if done.returncode or sorted(proved) != sorted(names):
        raise Faults(*done.stdout.splitlines()[-20:], f"rt ci --anew on {commit[:12]}: exit status {done.returncode}, "
                     f"{len(proved)} of {len(names)} crates proved")
    return clock, len(names)


def measured(before, after):
    """The seconds of two commits as they stand in a note."""
    of, kit = [seconds_of(before), seconds_of(after)], subprocess.check_output(["rt", "version"], text=True).strip()
    titles = "seconds of `rt ci --anew`", "crates"
    return (f"{TIME}\n{cells('', 'before', 'after')}|---|---:|---:|\n" + "".join(map(cells, titles, *of)) + "\n"
            + wrapped(f"With `{kit}` on one machine with {os.cpu_count()} processors; one commit after the other."))


# The notes.

def parts_of(path):
    """A note's text before the first mark, between the two and after the second."""
    parts = re.split(f"{re.escape(BEGIN)}\n|{re.escape(END)}\n", path.read_text())
    if len(parts) != 3:
        raise Faults("the two marks of tests/moved.py are not there once each")
    return parts


def note(first, inside, last):
    return f"{first}{BEGIN}\n{inside}{END}\n{last}"


def made_anew(path):
    """A note with the comparison of the two commits that it names, and its own seconds."""
    first, inside, last = parts_of(path)
    commits = re.findall(r"(?m)^- (?:before|after): `(\w+)`", inside)
    if len(commits) != 2 or TIME not in inside:
        raise Faults("its two commits or its seconds are not there")
    return note(first, compared(*map(commit_of, commits)) + inside[inside.index(TIME):], last)


def measured_now(path, before, after):
    """A note with the seconds measured now. A new one has a `?`, where words are written by hand."""
    first, _, last = parts_of(path) if path.exists() else (f"# {path.stem}\n\n?\n\n", "", "")
    return note(first, compared(before, after) + measured(before, after), last)


def notes(compare):
    """Every note, written anew or compared."""
    paths, faults, files = sorted(landings.glob("*.md")), [], {}
    for path in paths:
        try:
            files[path] = made_anew(path)
        except Faults as missing:
            faults += [f"{project.name_of(path)}: {line}" for line in missing.lines]
        if re.search(r"(?m)^\?$", path.read_text()):
            faults.append(f"{project.name_of(path)}: a `?` is left, where words are to be written")
    changed = [project.name_of(path) for path in (project.differing if compare else project.write)(files)]
    if compare:
        faults += [f"{name} differs: python3 tests/moved.py --write writes it" for name in changed]
    done = "compared" if compare else f"made, {len(changed)} of them changed"
    return project.finish(faults, f"notes of landings: {len(paths)} {done}, {len(faults)} faults", paths)


def selftest():
    """In tests/moved/trees a file's text stands below `== before PATH`, `== after PATH` or `== both PATH`; what is then
    said below `== expected words`."""
    texts = re.findall(r"(?ms)^== (\w+) (\S+)\n(.*?)\n*(?=^== |\Z)", trees.read_text())
    before, after = ({path: text for side, path, text in texts if side in (own, "both")} for own in ("before", "after"))
    wanted = next(text for side, _, text in texts if side == "expected").splitlines()
    found = words_for(Comparison(before, after)).rstrip("\n").splitlines()
    faults = list(difflib.unified_diff(wanted, found, "expected", "found", n=0, lineterm=""))
    verdict = f"{len(wanted)} lines expected, {'others' if faults else 'these'} found"
    return project.finish(faults, f"made-up trees of {len(before)} and {len(after)} files: {verdict}", wanted)


def main(words):
    if words in (["--compare"], ["--write"]):
        return notes(words == ["--compare"])
    if words == ["--selftest"]:
        return selftest()
    if len(words) != 2 and (len(words) != 4 or words[2] != "--write" or not re.fullmatch(r"[\w-]+", words[3])):
        raise Faults(__doc__)
    before, after = map(commit_of, words[:2])
    if len(words) == 2:
        print(compared(before, after), end="")
        return 0
    path = landings / f"{words[3]}.md"
    return project.write_or_compare({path: measured_now(path, before, after)}, False, "")


if __name__ == "__main__":
    project.run(main)
