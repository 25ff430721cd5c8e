"""The declarations of a file of code, definitions or proofs, each in sections. It is imported, and does nothing when it
is run.

A declaration is a function, a type or a constant of the code, or a name of specs/ or proofs/ with its type and clauses.
It has sections: a function its contract (signature, `requires`, `ensures`) and its body, a theorem its statement and
its proof, any other one. Sections are compared by their words, so comments and layout make no difference.

In proofs/ a record, a data type, a ruleset, an `abbrev`, an `unfoldable` and what gives a Type is a definition; but a
record of acceptance is a statement. What stands in `module _ (..) where` is a declaration, and the telescope is a part
of its statement; what stands in a `where` of a clause is a part of that clause. `pub`, `abbrev` and `unfoldable` are
parts of their own. A function's proof only names the contract, which therefore is a part of its statement. Its files
are proofs/F/Answers.antt and Invariants.antt; commits of an older kit have one, proofs/F/Proof.antt, and `_` in the
names of operators where `◌` stands now.
"""
import itertools
import pathlib
import re
from collections import Counter, namedtuple

import project
from project import Faults

PROMISED, FLAGS = ("acceptance", "theory"), ("pub", "abbrev", "unfoldable")
PROOFS = ("Answers", "Invariants", "Proof")  # the files of a function's proof
Section = namedtuple("Section", "row lines words")  # the words by what they are of, so that it can be said what changed
Part = namedtuple("Part", "kind crate file name count sections")  # the count tells equal names of a file apart


def lines_of(text):
    return [line.strip() for line in text.split("\n") if line.strip()]


def code_words(text):
    """The words of code. A comma before a bracket that closes is layout."""
    return re.findall(r"\w+|[^\w\s]", re.sub(r",(\s*[)\]}])", r"\1", text))


def antt_words(text):
    """The words of antt. A semicolon before a bracket that closes is layout."""
    return re.findall(r"[(){},;]|[^\s(){},;]+", re.sub(r"[,;](\s*[)}])", r"\1", text))


# Code.

def end_of_body(code, at):
    """The place of the bracket that closes a function's body."""
    depth = 1
    for m in re.compile(r"\"(?:\\.|[^\"\\])*\"|'(?:\\.|[^'\\])'|[{}]").finditer(code, at):
        depth += {"{": 1, "}": -1}.get(m[0], 0)
        if depth == 0:
            return m.start()
    raise Faults(f"a function has no end: {code[at:at + 60]}")


def clauses_of(function, word):
    """The words of the clauses of a contract that begin with a word; the name of a clause that has one comes first."""
    named = [(clause.name, antt_words(clause.text)) for clause in function.clauses if clause.word == word]
    return [[f"{name}:", *words] if name else words for name, words in named]


def code_declarations(path, text, others):
    """The functions, types and constants of a code file. Adds the lines that are in none to the others."""
    code, spans = re.sub(r"[ \t]*//.*", "", text), []
    for function in project.functions_in(code, path.split("/")[1], project.module_of(path.split("/", 2)[2])):
        marks = re.search(r"(?m)(?:^ *#\[.*\]\n)+\Z", code[:function.start])
        start = marks.start() if marks else function.start
        body = len(code) - len(project.contract_and_body(code[function.start:])[1])
        end, head = end_of_body(code, body), code[start:body - 1]
        signature = re.split(r"\b(?:requires|ensures) (?:\w+ )?\{", head)[0]
        clauses = {word: clauses_of(function, word) for word in ("requires", "ensures")}
        spans.append((start, end + 1))
        yield "function", "::".join(filter(None, (function.owner, function.name))), (
            Section("contract", lines_of(head), {"signature": code_words(signature), **clauses}),
            Section("body", lines_of(code[body:end]), {"": code_words(code[body:end])}))
    declared = r"(?ms)(?:^#\[[^\n]*\]\n)*^(?:pub(?:\(\w+\))? )?(?:struct|enum|const|static|type) (\w+).*?[;}]$"
    for m in re.finditer(declared, code):
        spans.append(m.span())
        yield "type", m[1], (Section("type", lines_of(m[0]), {"": code_words(m[0])}),)
    for start, end in sorted(spans, reverse=True):
        code = code[:start] + code[end:]
    others += lines_of(code) + re.findall(r"//.*", text)


# Definitions and proofs.

def outside(words):
    """The words that are outside of brackets."""
    depth = 0
    for word in words:
        depth += (word in "({") - (word in ")}")
        if depth == 0:
            yield word


class Declaration:
    """A name of an antt file while its lines are gathered: those of its type, and those of its clauses. The words of
    its type are without the flags."""

    def __init__(self, flags, word, name, head, words, telescope):
        self.flags, self.word, self.name, self.head, self.words = flags, word, name, head, words
        self.telescope, self.clauses = telescope, []

    def sections(self, crate, folder):
        clauses = antt_words(" ".join(self.clauses))
        around = {**{flag: flag in self.flags for flag in FLAGS}, "telescope": self.telescope}
        row = "promise" if crate in PROMISED else "statement"
        if folder == "proofs" and not self.word and self.flags <= {"pub"} and self.words[-2:-1] != ["Type"]:
            return Section(row, self.head, {"": self.words, **around}), Section("proof", self.clauses, {"": clauses})
        promised = (crate, folder) == ("acceptance", "proofs") and self.word in ("record", "data")
        row = row if promised else "definition" if folder == "specs" else "local"
        return (Section(row, self.head + self.clauses, {"": self.words + clauses, **around}),)


class Antt:
    """The declarations of an antt file. An item begins at its block's column, and goes on over deeper lines."""

    def __init__(self, text, others):
        self.others, self.found, self.unfolding = others, [], []
        bare = [re.sub(r"(?<![^\s(){},;])--.*", "", line).rstrip() for line in text.split("\n")]
        others += [line[len(code):].strip() for line, code in zip(text.split("\n"), bare) if line[len(code):].strip()]
        self.block([line for line in bare if line], [])

    def block(self, lines, telescope):
        column = len(lines[0]) - len(lines[0].lstrip()) if lines else 0
        starts = [i for i, line in enumerate(lines) if not line[:column].strip() and line[column] not in " )}"]
        for i, j in zip(starts, starts[1:] + [len(lines)]):
            self.item(lines[i:j], telescope)

    def item(self, lines, telescope):
        words, own, flags = antt_words(" ".join(lines)), lines_of("\n".join(lines)), set()
        while words[0] in FLAGS:
            flags.add(words.pop(0))
        if words[0] == "module":
            end = next(i for i, line in enumerate(lines, 1) if antt_words(line)[-1] == "where")
            self.others += own[:end]
            self.block(lines[end:], telescope + antt_words(" ".join(lines[:end])))
        elif words[0] in ("use", "mod"):
            self.others += own
        elif words[0] == "unfolding":
            self.unfolding += own
        elif words[0] in ("data", "record", "ruleset"):
            self.found.append(Declaration(flags, words[0], words[1], own, words, telescope))
        elif words[0].startswith("infix"):
            self.found.append(Declaration(flags, "infix", f"{words[0]} {words[-1]}", own, words, telescope))
        elif self.has_type(words):
            self.found.append(Declaration(flags, "", words[0], own, words, telescope))
        else:
            self.declared(words).clauses += self.unfolding + own
            self.unfolding = []

    def has_type(self, words):
        """Whether a colon comes before an equals sign, outside of brackets: a declaration, not a clause."""
        return next((word == ":" for word in outside(words) if word in (":", "=")), False)

    def declared(self, words):
        """The declaration of a clause: the latest whose name is its first word, or an operator on its left side and
        outside of brackets."""
        left = itertools.takewhile(lambda word: word != "=", outside(words))
        names = {words[0], *(f"{place}{word}{place}" for word in left for place in "_◌")}
        for declaration in reversed(self.found):
            if declaration.name in names:
                return declaration
        raise Faults(f"a clause of {words[0]}, which has no type")


def antt_declarations(path, text, others):
    """The names of an antt file. Adds the lines that are in none to the others."""
    _, crate, folder, _ = path.split("/", 3)
    for declaration in Antt(text, others).found:
        sections = declaration.sections(crate, folder)
        yield "theorem" if len(sections) == 2 else "definition", declaration.name, sections


def declarations_of(path, text):
    """The declarations of a file, whose path from the root on is given; and its other lines."""
    others, found, met = [], [], Counter()
    read = re.fullmatch(r"crates/\w+/(?:src/.*\.(rt)|(?:specs|proofs)/.*\.antt)", path)
    if not read:
        return [], lines_of(text)
    try:
        for kind, name, sections in (code_declarations if read[1] else antt_declarations)(path, text, others):
            met[kind, name] += 1
            found.append(Part(kind, path.split("/")[1], path, name, met[kind, name], sections))
    except Faults as faults:
        raise Faults(*(f"{path}: {line}" for line in faults.lines)) from None
    return found, others


# A function's contract and its proof.

def is_of_function(file):
    """Whether a file is one of a function's proof, by its path."""
    path = pathlib.PurePath(file)
    return path.stem in PROOFS and path.suffix == ".antt" and "proofs" in path.parts[2:-2]


def proofs_of(function):
    """The files of a function's proof that may be there."""
    module = project.module_of(function.file.split("/", 2)[2])
    folder = "/".join(("crates", function.crate, "proofs", *module, *function.name.split("::")))
    return [f"{folder}/{name}.antt" for name in PROOFS]


def with_contracts(parts):
    """The declarations of a tree, where the public ones of a function's proof have the contract in their statements."""
    contracts = {file: part.sections[0].words for part in parts if part.kind == "function" for file in proofs_of(part)}
    for part in parts:
        if part.file in contracts and part.kind == "theorem" and part.sections[0].words["pub"]:
            statement, proof = part.sections
            words = {**statement.words, "contract": contracts[part.file]}
            part = part._replace(sections=(statement._replace(words=words), proof))
        yield part
