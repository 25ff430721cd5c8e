"""docs/BELIEVED.md: the definitions that the promises are stated with, and their lines.

python3 tests/believed.py              writes it, and the counts in README.md
python3 tests/believed.py --compare    compares both
python3 tests/believed.py --why NAME   says how a definition of that name is reached, from a statement on

A promise is a statement of crates/acceptance/proofs: the type of a public name, or a public record. A file there whose
first line begins "What meets the premise" promises nothing. A definition is needed where a statement or a needed
definition names it; what only a proof names is not. A bound name hides a definition of that name. Of a record or an
enum of the code (`specs.declared`) its declaration in crates/NAME/src is needed. A name that means nothing is an error.
"""
import re
from collections import namedtuple

import project
from project import Faults, root

document, readme = root / "docs/BELIEVED.md", root / "README.md"
totals = re.compile(r"[\d,]+ definitions,\s[\d,]+\slines\sof\s[\d,]+\sfiles")
OPEN, CLOSE = ("(", "{"), (")", "}")
WORDS = {"→", "=", ":", ";", ",", "record", "in", "Type", "_", "."}
BUILT_IN = {"tt", "Unit", "Empty", "¬", "⊥", "◌×◌"}
CONSTRUCTORS = {"zero", "suc", "true", "false", "[]", "◌∷◌", "none", "some", "refl"}  # the kit's
Token = namedtuple("Token", "text line")
Kit = namedtuple("Kit", "module name")


def wrong(path, line, what):
    raise Faults(f"{project.name_of(path)}:{line}: {what}")


def column(text):
    return len(text) - len(text.lstrip())


def is_code(text):
    return text.strip() and not text.lstrip().startswith("--")


# The reading of a file into declarations.

class Definition:
    """A declaration: the words of its type, its members (of a record or a data type), its clauses, and their lines."""

    def __init__(self, file, name, kind, public, outer):
        self.file, self.name, self.kind, self.public, self.outer = file, name, kind, public, outer
        self.type, self.members, self.clauses = [], [], []
        self.lines, self.clause_lines = set(), set()

    def __str__(self):
        return f"{project.name_of(self.file.path)}: {self.name}"


LIBRARY = ("Option", "Result")  # types that every module has from std


class Declared:
    """A record, an enum or a constant of the code, by its path from the crate on, and those that it names."""

    def __init__(self, path):
        self.name, self.needs = path[-1], set()
        crate, module = path[0], path[1:-1]
        for self.path in project.code_files(crate):
            text = self.path.read_text()
            m = re.search(rf"(?ms)^(?:pub )?(?:struct {self.name};|(?:struct|enum) {self.name}\b.*?^\}}|const {self.name}: .*?;$)", text)
            if m and project.place_of(self.path) == (crate, module):
                break
        else:
            raise Faults(f"crates/{crate} declares no {'::'.join(path)}")
        first = text.count("\n", 0, m.start()) + 1
        self.lines = set(range(first, first + m[0].count("\n") + 1))
        for line in m[0].split("\n")[1:-1] or m[0].split(": ", 1)[1:]:
            of = re.match(r"\s*(?:(?:pub )?\w+: (.*)|\w+\((.*)\)|\w+,$|//)|(.*;)$", line)
            if not of:
                wrong(self.path, first, f"a field or a variant expected: {line}")
            for kind in re.findall(r"(?<![\w:])(?:\w+::)*[A-Z]\w*", of[1] or of[2] or of[3] or ""):
                if kind not in LIBRARY:
                    self.needs.add(project.resolved(kind.split("::"), crate, module, text))

    def __str__(self):
        return f"{project.name_of(self.path)}: {self.name}"


class File:
    """An antt file: its imports, and its definitions by their names and their constructors'."""

    def __init__(self, path):
        self.path, self.source = path, path.read_text().split("\n")
        self.imports, self.aliases, self.known = {}, {}, {}
        self.block(0, len(self.source), 0, [])
        self.definitions = sorted(set(self.known.values()), key=lambda d: min(d.lines))

    def words(self, first, last):
        """The words of some lines, without comments."""
        return [Token(m[0], i + 1) for i in range(first, last)
                for m in re.finditer(r"--.*|[(){},;]|[^\s(){},;]+", self.source[i]) if not m[0].startswith("--")]

    def block(self, first, last, indent, outer):
        """Each item begins at the block's column, and goes on over deeper lines and closing brackets."""
        code = [i for i in range(first, last) if is_code(self.source[i])]
        starts = [i for i in code if column(self.source[i]) == indent and self.source[i].lstrip()[0] not in CLOSE]
        for i, j in zip(starts, starts[1:] + [last]):
            while not is_code(self.source[j - 1]):
                j -= 1
            text = self.source[i].strip()
            if text.startswith("module "):
                end = next(k for k in range(i, j) if self.source[k].endswith(" where")) + 1
                inner = next(k for k in range(end, j) if is_code(self.source[k]))
                module = (range(i + 1, end + 1), self.words(i, end)[2:-1])
                self.block(end, j, column(self.source[inner]), outer + [module])
            elif text.startswith(("use ", "pub use ")):
                self.use(text.removeprefix("pub "), i + 1)
            elif not re.match(r"(?:pub )?(?:mod|ruleset) |infix|unfolding ", text):
                self.item(self.words(i, j), set(range(i + 1, j + 1)), outer)

    def use(self, text, line):
        m = re.fullmatch(r"use ([^\s{}]+?)(?:\.\{(.*)\}| as (\S+))", text)
        if not m:
            wrong(self.path, line, "a use expected")
        if m[3]:
            self.aliases[m[3]] = m[1]
        for name in filter(None, (m[2] or "").split(", ")):
            self.imports[name.split(" as ")[-1]] = (m[1], name.split(" as ")[0])

    def item(self, words, lines, outer):
        flags = set()
        while words[0].text in ("pub", "abbrev", "unfoldable"):
            flags.add(words.pop(0).text)
        made = words[0].text in ("data", "record")
        colon, equals = self.level(words, ":"), self.level(words, "=")
        if not made and (colon is None or equals is not None and equals < colon):
            return self.clause(words, equals, lines)
        name = words[made].text
        proof = "proofs" in self.path.relative_to(root / "crates").parts
        theorem = flags == {"pub"} or proof and not flags  # a definition of specs/ is abbrev or unfoldable
        kind = words[0].text if made else "theorem" if theorem else "function"
        d = Definition(self, name, kind, "pub" in flags, outer)
        self.known[name] = d
        d.lines.update(lines)
        if not made:
            d.type = words[1:]
            return
        where = self.level(words, "where")
        if where is None:
            wrong(self.path, words[0].line, "a `where` expected")
        d.type = words[2:where]
        d.members = [m[1:] if m[0].text == "pub" else m for m in self.parts(words[where + 1:])]
        if d.kind == "data":
            self.known.update({m[0].text: d for m in d.members})

    def parts(self, words):
        """What stands after a `where`: a part begins with each line at the least column."""
        least, out = min((column(self.source[t.line - 1]) for t in words), default=0), []
        for k, t in enumerate(words):
            starts = k == 0 or words[k - 1].line != t.line
            if starts and column(self.source[t.line - 1]) == least and t.text not in CLOSE:
                out.append([])
            out[-1].append(t)
        return out

    def clause(self, words, equals, lines):
        if equals is None:
            wrong(self.path, words[0].line, "a declaration or a clause expected")
        left, depth, name = words[:equals], 0, words[0].text
        for t in left:
            depth += (t.text in OPEN) - (t.text in CLOSE)
            if depth == 0 and f"◌{t.text}◌" in self.known:
                name = f"◌{t.text}◌"
        if name not in self.known:
            wrong(self.path, words[0].line, f"a clause of {name}, which has no type")
        self.known[name].lines.update(lines)
        self.known[name].clause_lines.update(lines)
        self.known[name].clauses.append((left, words[equals + 1:]))

    def closing(self, words, at):
        depth = 0
        for i in range(at, len(words)):
            depth += (words[i].text in OPEN) - (words[i].text in CLOSE)
            if depth == 0:
                return i
        wrong(self.path, words[at].line, "a bracket is not closed")

    def level(self, words, wanted):
        """The first place of a word outside of brackets, or None."""
        i = 0
        while i < len(words):
            if words[i].text == wanted:
                return i
            i = (self.closing(words, i) if words[i].text in OPEN else i) + 1
        return None


# What a declaration names.

files, declared, functions = {}, {}, set()


def file(path):
    if path not in files:
        files[path] = File(path)
    return files[path]


def meaning(module, name):
    """The definition that a name of a module is."""
    m = re.fullmatch(r"Rattle\.(\w+)\.(specs|proofs)\.(.*)", module)
    if not m or m[1] not in project.crates():
        return Kit(module, name)
    crate, folder, rest = m.groups()
    steps = rest.split(".")
    if steps[0] == "declared":
        return of_code((crate, *(step for step in steps[1:] if step != "TheVariants")))
    if (folder, steps[0]) == ("specs", "contracts") and is_function(crate, tuple(steps[1:])):
        return Kit(module, name)  # a function's contract, as the checker makes it of the code
    path = root.joinpath("crates", crate, folder, *steps[:-1], f"{steps[-1]}.antt")
    if not path.exists():
        return None
    f = file(path)
    return meaning(*f.imports[name]) if name in f.imports and name not in f.known else f.known.get(name)


def is_function(crate, path):
    """Whether a crate's code has a function of this path, in a module or of a type."""
    if not functions:
        functions.update((function.crate, function.path()) for function in project.functions())
    return (crate, path) in functions


def of_code(path):
    if path not in declared:
        declared[path] = Declared(path)
    return declared[path]


class Names:
    """What a definition's words name, with the names bound around them."""

    def __init__(self, definition):
        self.file, self.found = definition.file, set()

    def resolve(self, word):
        f = self.file
        for name in (word, f"◌{word}◌"):
            if name in f.known:
                return f.known[name]
            if name in f.imports:
                return meaning(*f.imports[name])
            if "." in name and name.split(".")[0] in f.aliases:
                alias, own = name.split(".", 1)
                return meaning(f.aliases[alias], own)
            if name in BUILT_IN:
                return Kit("", name)
        type_ = self.resolve(word.split(".")[0]) if "." in word[1:-1] else None
        return type_ if isinstance(type_, Declared) or getattr(type_, "kind", "") == "data" else None

    def is_constructor(self, word, means):
        if isinstance(means, Kit):
            return word in CONSTRUCTORS or f"◌{word}◌" in CONSTRUCTORS or not means.module
        own = word.split(".")[-1]
        return isinstance(means, Declared) or getattr(means, "kind", "") == "data" and own != means.name

    def pattern(self, words, bound):
        for t in words:
            if t.text in OPEN + CLOSE or t.text in WORDS or re.match(r"[0-9]", t.text):
                continue
            means = self.resolve(t.text)
            if means is not None and self.is_constructor(t.text, means):
                self.found.add(means)
            else:
                bound.add(t.text)

    def expression(self, words, bound):
        """Adds the names bound to the end of these words to bound."""
        i = 0
        while i < len(words):
            t = words[i].text
            if t in OPEN:
                end = self.file.closing(words, i)
                follows = words[end + 1].text if end + 1 < len(words) else ""
                if follows == "←":
                    self.pattern(words[i + 1:end], bound)
                else:
                    self.group(words[i + 1:end], bound, t == "{", i > 0 and words[i - 1].text == "record")
                i = end
            elif t == "λ":
                i = self.binders(words, i + 1, bound)
            elif t == "let" or i + 1 < len(words) and words[i + 1].text == "←":
                i += t == "let"
                bound.add(words[i].text)
            elif t == "do":
                self.found.update(d for d in map(self.resolve, ("◌>>=◌", "◌>>◌")) if d is not None)
            elif t not in WORDS and t != "←" and not re.match(r"[0-9]|\.\S", t):
                self.name(words[i], bound)
            i += 1

    def clause(self, left, right, bound):
        """A clause without the name that it is of, with its local definitions."""
        where = self.file.level(right, "where")
        parts = self.file.parts(right[where + 1:]) if where is not None else []
        self.pattern(left, bound)
        bound.update(part[0].text for part in parts)
        for part in parts:
            colon, equals = self.file.level(part, ":"), self.file.level(part, "=")
            if equals is None or colon is not None and colon < equals:
                self.expression(part[1:], set(bound))
            else:
                self.clause(part[1:equals], part[equals + 1:], set(bound))
        self.expression(right[:where], bound)

    def name(self, word, bound):
        """A name, with the fields after it that are taken of it."""
        text = self.without_fields(word.text)
        if text in bound:
            return
        means = self.resolve(text)
        if means is None:
            wrong(self.file.path, word.line, f"{text} means nothing here")
        self.found.add(means)

    def without_fields(self, word):
        """A word up to its first dot, or up to its second if it begins with the alias of a module."""
        first, *others = re.split(r"(?<=[^.])\.(?=[^.])", word)
        return f"{first}.{others[0]}" if others and first in self.file.aliases else first

    def group(self, words, bound, braces, record):
        colon, equals = self.file.level(words, ":"), self.file.level(words, "=")
        if record:
            while equals is not None:
                end = self.file.level(words, ";")
                self.expression(words[equals + 1:end], set(bound))
                words = words[end + 1:] if end is not None else []
                equals = self.file.level(words, "=")
        elif braces and equals is not None:
            self.expression(words[equals + 1:], set(bound))
        elif colon is not None:
            self.expression(words[colon + 1:], set(bound))
            bound.update(t.text for t in words[:colon])
        elif braces and all(self.resolve(t.text) is None and not t.text.isdigit() for t in words):
            bound.update(t.text for t in words)
        else:
            self.expression(words, set(bound))

    def binders(self, words, i, bound):
        """The names after a λ, to its dot."""
        while True:
            if words[i].text in OPEN:
                end = self.file.closing(words, i)
                self.group(words[i + 1:end], bound, False, False)
                i = end
                if words[i + 1].text == ".":
                    return i + 1
            else:
                bound.add(words[i].text.rstrip("."))
                if words[i].text.endswith("."):
                    return i
            i += 1


def named(d, clauses):
    """The definitions that a definition names, in its clauses or in its type and members alone."""
    if isinstance(d, Kit):
        return set()
    if isinstance(d, Declared):
        return {of_code(need) for need in d.needs}
    names, bound = Names(d), set()
    for _, head in d.outer:
        names.expression(head, bound)
    whole = set(bound)
    names.expression(d.type, whole)
    for m in d.members:
        colon = d.file.level(m, ":")
        names.expression(m[colon + 1:], set(whole))
        if d.kind == "record":
            whole.update(t.text for t in m[:colon])
    for left, right in d.clauses if clauses else []:
        own = {d.name, d.name.strip("◌")}
        names.clause([t for t in left if t.text not in own], right, set(bound))
    return names.found - {d}


# The promises, and what they need.

def promises():
    """The files of acceptance that promise something, each with its statements; a file of `mod` lines has none."""
    for path in sorted((root / "crates/acceptance/proofs").rglob("*.antt")):
        if file(path).definitions and not path.read_text().startswith("-- What meets the premise"):
            f = file(path)
            yield f, [d for d in f.definitions if d.public and d.kind in ("theorem", "record", "data")]


def promise_of(f):
    """The name of a file of acceptance."""
    return f.path.relative_to(root / "crates/acceptance/proofs").with_suffix("").as_posix()


def cited():
    """The definitions that the code's contracts cite, and what those need."""
    names = set()
    for path in project.code_files():
        text = path.read_text()
        for module, some, alias in re.findall(r"(?m)^ghost use (Rattle\.[^\s{}]+?)(?:\.\{(.*)\}| as (\S+));", text):
            own = re.findall(rf"(?<![\w.]){re.escape(alias)}\.([^\s(){{}},;.]+)", text) if alias else some.split(", ")
            names.update(filter(None, (meaning(module, name) for name in own)))
    return names | set(needed(names, True))


def needed(of, clauses=False):
    """The definitions that some need, each with the one that named it. Those given are read by their types and members,
    or by their clauses too; a theorem that a type names by its type; all others whole."""
    why, left = {}, list(of)
    while left:
        d = left.pop()
        for n in named(d, (clauses or d not in of) and getattr(d, "kind", "") != "theorem"):
            if n not in why and n not in of:
                why[n] = d
                left.append(n)
    return why


# The document.

def path_of(d):
    return d.path if isinstance(d, Declared) else d.file.path


def lines_of(ds):
    """The lines of some definitions of a file, and of the modules that they stand in, without comments."""
    source, lines = path_of(ds[0]).read_text().split("\n"), set()
    for d in ds:
        lines |= d.lines - (d.clause_lines if getattr(d, "kind", "") == "theorem" else set())
        lines.update(line for head, _ in getattr(d, "outer", ()) for line in head)
    return sum(1 for line in lines if is_code(source[line - 1]))


def files_of(ds):
    """The definitions of each file, in its order."""
    by = {}
    for d in sorted(ds, key=lambda d: (str(path_of(d)), min(d.lines))):
        by.setdefault(path_of(d), []).append(d)
    return by


def shown(ds):
    return ", ".join(f"`{d.name}`" for d in ds)


def which(own, every):
    """Some definitions of a file, in few words."""
    rest = [d for d in every if d not in own]
    if not rest:
        return "all"
    return f"all but {shown(rest)}" if len(rest) < len(own) / 2 else shown(own)


def rows(ds, reached):
    """A table, and its totals."""
    out = ["", "| file | definitions | their lines | lines of the file | which | for |", "|---|---:|---:|---:|---|---|"]
    counts = [0, 0, 0]
    for path, own in files_of(ds).items():
        of = " ".join(promise for promise, why in reached.items() if any(d in why for d in own))
        n, whole = lines_of(own), len(path.read_text().splitlines())
        names = which(own, file(path).definitions) if path.suffix == ".antt" else shown(own)
        counts = [counts[0] + len(own), counts[1] + n, counts[2] + 1]
        out.append(f"| `{project.name_of(path)}` | {len(own)} | {n} | {whole} | {names} | {of} |")
    return out, "{:,} definitions, {:,} lines of {:,} files".format(*counts)


def promised(every):
    out = ["", "| file | what | statements | their lines |", "|---|---|---:|---:|"]
    for f, statements in every:
        first = next(i for i, line in enumerate(f.source) if is_code(line))
        what = re.split(r"\.(?: |$)", " ".join(line[3:] for line in f.source[:first]))[0]
        out.append(f"| `{project.name_of(f.path)}` | {what} | {len(statements)} | {lines_of(statements)} |")
    return out


def written(every):
    """The document, and the totals of its parts."""
    reached = {promise_of(f): needed(statements) for f, statements in every}
    stated = {s for _, statements in every for s in statements}
    all_needed = set().union(*reached.values()) - stated
    kit = sorted(d for d in all_needed if isinstance(d, Kit))
    code = {d for d in all_needed if isinstance(d, Declared)}
    rest = all_needed - code - set(kit)
    paper = {d for d in rest if path_of(d).is_relative_to(root / "crates/paper/specs")}
    contracts = cited()
    does = {d for d in rest - paper if d in contracts}
    tables = [rows(ds, reached) for ds in (paper, rest - paper - does, does, code)]
    modules = {}
    for k in kit:
        modules.setdefault(k.module or "antt itself", []).append(f"`{k.name}`")
    text = head.split("@")
    lines = [text[0].strip(), *promised(every)]
    for part, (table, count) in zip(text[1:], tables):
        lines += ["", part.strip().replace("TOTAL", count), *table]
    lines += ["", text[5].strip(), ""] + [f"- {module}: {', '.join(names)}" for module, names in modules.items()]
    return "\n".join(lines) + "\n", [count for _, count in tables[:3]]


head = """# What is believed

The promises are the statements of `crates/acceptance`; no proof can say whether they are the right ones. This file
lists the definitions that one reads to know what they say. `tests/believed.py` writes it: it follows the names in the
statements through the definitions that they need. Lines are those of types and clauses, without comments. What no
statement needs, or only a proof uses, is not here; nor are the files of acceptance that show values which meet a
premise.

@## Documents 01 and 02

TOTAL. They are believed to say what the documents say: each stands under the sentence
that it renders, and `tests/definitions.py` runs them on the Rust's answers.

@## What is said of the code

TOTAL. No contract of the code cites them. They are believed to say what they are
named for: how a client is driven and what a wire answers, how an answer is read as document 01's, what order and
bound mean, and the old check.

@## What the code does

TOTAL. The code's contracts cite them, or they are parts of what these cite: that the
code does what they say is proved, and not believed. They are read to understand what a promise is about.

@## The code's records, enums and constants

TOTAL. Their declarations.

@## The kit's

The names of the kit that all of these use.
"""


def generated():
    text, counts = written(list(promises()))
    before, left = readme.read_text(), iter(counts)
    if len(totals.findall(before)) != len(counts):
        raise Faults(f"README.md has {len(totals.findall(before))} counts of definitions, and not {len(counts)}")
    return {document: text, readme: totals.sub(lambda found: same_layout(found[0], next(left)), before)}


def same_layout(found, count):
    """A count, with a line's end where the one found has it."""
    return found if " ".join(found.split()) == count else count


def tell(name):
    for f, statements in promises():
        why = needed(statements)
        for d in why:
            if d.name == name:
                chain = [d]
                while chain[-1] in why:
                    chain.append(why[chain[-1]])
                print(f"{promise_of(f)}: " + ", named by ".join(map(str, chain)))
    return 0


def main(words):
    if words[:1] == ["--why"] and len(words) == 2:
        return tell(words[1])
    if words not in ([], ["--compare"]):
        raise Faults(__doc__)
    return project.write_or_compare(generated(), bool(words), "python3 tests/believed.py")


if __name__ == "__main__":
    project.run(main)
