"""docs/CONTRACTS.md, "What is asked of a caller": each public function with a `requires`, why it has one, and who meets
it.

python3 tests/contracts.py           every public contract is an equation; no call that a host makes has a `requires`;
                                     an exported call has the signature and the contract of the function of its name in
                                     the library, of which more is promised; each row of the table has a reason
python3 tests/contracts.py --table   writes the table. Reasons stay; that of a new function is `?`, to write by hand

A host's calls are the exported functions and those of README.md, "The calls on one screen". `rt check` proves at each
call that what is asked is met; the callers are listed, so that a reader sees where.
"""
import re

import project
from declarations import code_words
from project import Faults, root

document = root / "docs/CONTRACTS.md"
title = "## What is asked of a caller\n"
header = "| function | asks | why | met by |\n|---|---|---|---|\n"
prints = "show"  # a crate whose functions only print, for the programs
library = "fahireky"  # the crate of the calls that another exports
most = 6  # callers of one module that are named


def asks(function):
    """What it requires, as a reader would write it."""
    plain = [re.sub(r"\b(\w+)\.(?:now|old)\b", r"\1", clause) for clause in function.all_of("requires")]
    return "; ".join(f"`{clause}`" for clause in plain)


class Calls:
    """What each function calls: functions by their whole paths, and methods by their names."""

    def __init__(self, every):
        self.every, self.paths, self.methods = every, {}, {}
        texts = {project.place_of(path): path.read_text() for path in project.code_files()}
        for caller in every:
            text = texts[caller.crate, caller.module]
            written = re.findall(r"(?<![\w.:])((?:\w+::)*\w+)(?:::<[^()]*>)?\(", caller.body)
            steps = [tuple(caller.owner if step == "Self" else step for step in path.split("::")) for path in written]
            self.paths[caller] = {project.resolved(path, caller.crate, caller.module, text) for path in steps}
            self.methods[caller] = set(re.findall(r"\.(\w+)\(", caller.body))

    def has(self, caller, function):
        """Whether a function calls another. A crate with a method of that name of its own calls that one."""
        if (function.crate, *function.path()) in self.paths[caller]:
            return caller != function
        if not function.owner or function.name not in self.methods[caller]:
            return False
        own = {other.crate for other in self.every if other.owner and other.name == function.name}
        return caller != function and (caller.crate == function.crate or caller.crate not in own)

    def callers(self, function):
        """The functions that call it, by their modules."""
        by = {}
        for caller in self.every:
            if self.has(caller, function):
                by.setdefault("::".join((caller.crate, *caller.module)), []).append(f"`{caller.name}`")
        few = [f"`{where}`: {', '.join(names) if len(names) <= most else f'{len(names)} functions'}"
               for where, names in by.items()]
        return "; ".join(few) or "nobody"


def calls_on_screen():
    """The calls of README.md's screen, by their paths; `c` there is a client, and a name alone is of the module before
    it in its row."""
    screen = (root / "README.md").read_text().split("## The calls on one screen")[1].split("\n## ")[0]
    for row in re.findall(r"(?m)^\| (`.*?) \|", screen):
        before = ""
        for path, name in re.findall(r"((?:\w+(?:::|\.))*)(\w+)\(", row):
            before = path.replace("c.", "Client::") if path else before
            yield before + name


def faults_of(every, asking):
    """What is not as the text above the table says."""
    for function in every:
        if function.public and function.crate != prints and not any("≡" in c for c in function.all_of("ensures")):
            yield f"{function.full_name()}: its contract is no equation"
    on_screen = set()
    for call in calls_on_screen():
        found = [f for f in every if f.full_name() == call or f.full_name().endswith(f"::{call}")]
        on_screen.update(found)
        if len(found) != 1:
            yield f"README.md, the calls on one screen: {len(found)} functions are `{call}`"
    if not on_screen:
        yield "README.md has no calls on one screen"
    for function in asking:
        if function.exported or function in on_screen:
            yield f"{function.full_name()}: a call that a host makes asks something"
    yield from faults_of_exports(every)
    written = sum(len(re.findall(r"(?m)^\s*requires\b", path.read_text())) for path in project.code_files())
    if sum(len(function.all_of("requires")) for function in every) != written:
        yield "the code has a `requires` that this script does not understand"


def signature(function):
    """What stands between a function's name and its first clause or its body, in words."""
    path = next(path for path in project.code_files(function.crate) if project.place_of(path)[1] == function.module)
    text = re.sub(r"//.*", "", path.read_text()[function.start:])
    return code_words(re.split(r"\b(?:requires|ensures)\b|\{", text.split(function.name, 1)[1])[0])


def faults_of_exports(every):
    """An exported call that is not as the library has it, or one of the library's that is not exported."""
    own = {function.name: function for function in every if function.crate == library}
    exported = {function.name: function for function in every if function.exported}
    if own.keys() != exported.keys() or not own:
        yield f"not both exported and in {library}: {', '.join(sorted(own.keys() ^ exported.keys())) or 'no call'}"
    for name in sorted(own.keys() & exported.keys()):
        if (own[name].clauses, signature(own[name])) != (exported[name].clauses, signature(exported[name])):
            yield f"{exported[name].full_name()}: its signature or its contract is not that of {own[name].full_name()}"


def table_of(text):
    """The places where the rows of the table begin and end."""
    start = text.index(header, text.index(title)) + len(header)
    return start, start + re.match(r"(?:\|.*\n)*", text[start:]).end()


def reasons():
    text = document.read_text()
    start, end = table_of(text)
    return dict(re.findall(r"(?m)^\| `([\w:]+)` \| .*? \| ([^|]*) \| [^|]*\|$", text[start:end]))


def asking_of(every):
    return [function for function in every if function.public and function.all_of("requires")]


def generated():
    every, why, text = list(project.functions()), reasons(), document.read_text()
    start, end = table_of(text)
    calls, rows = Calls(every), ""
    for function in asking_of(every):
        name = function.full_name()
        rows += f"| `{name}` | {asks(function)} | {why.get(name, '?')} | {calls.callers(function)} |\n"
    return {document: text[:start] + rows + text[end:]}


def main(words):
    if words == ["--table"]:
        project.write_or_compare(generated(), False, "")
    elif words:
        raise Faults(__doc__)
    every, why = list(project.functions()), reasons()
    asking = asking_of(every)
    faults = list(faults_of(every, asking))
    unsaid = [function.full_name() for function in asking if why.get(function.full_name(), "?").strip() in ("", "?")]
    faults += [f"docs/CONTRACTS.md does not say why {name} asks something of its caller" for name in unsaid]
    summary = f"{len(asking)} public functions ask something of their caller, {len(faults)} faults"
    return project.finish(faults, summary, asking)


if __name__ == "__main__":
    project.run(main)
