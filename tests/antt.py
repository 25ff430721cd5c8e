"""A reader and an evaluator of the antt that crates/paper/specs is written in.

python3 tests/antt.py            evaluates the proved table of document 01's examples, in crates/acceptance/proofs: the
                                 two sides of each equation must be equal. Then faults are put into the reader, one at
                                 a time, and each must make some row fail
python3 tests/antt.py --faults   the same, and says at which row each of these faults shows

Each definition becomes a Python function, by need: an argument is evaluated when a clause looks at it, and once. Types
are skipped, but a proposition has its truth value. Each clause is a branch, and so is each arm of a `cond`, of a call
of CASES, and of `&&` and `||`; `taken` is the set of those taken so far. Text that is not understood is an error with
its file and line.

A number is an int, true and false are bools, a record is a dict by its fields, and a constructor is a tuple of its name
and its arguments.
"""
import pathlib
import re
import sys
import threading
from collections import ChainMap, namedtuple
from types import SimpleNamespace

import project
from project import Faults, root


class NotUnderstood(Faults):
    """Text that this reader cannot read: where, and what was expected."""


def deep(function, *arguments):
    """Calls a function on a stack of its own: the definitions recur as deep as their lists are long."""
    result = []

    def call():
        try:
            result.append((function(*arguments), None))
        except BaseException as raised:
            result.append((None, raised))

    limit, size = sys.getrecursionlimit(), threading.stack_size(512 << 20)
    sys.setrecursionlimit(10 ** 7)
    thread = threading.Thread(target=call)
    thread.start()
    thread.join()
    sys.setrecursionlimit(limit)
    threading.stack_size(size)
    value, raised = result[0]
    if raised:
        raise raised
    return value


class Thunk:
    """An argument that is not evaluated yet."""
    __slots__ = ("make", "value")

    def __init__(self, make):
        self.make = make

    def get(self):
        if self.make is not None:
            self.value = self.make()
            self.make = None
        return self.value


def force(x):
    return x.get() if x.__class__ is Thunk else x


Fun = namedtuple("Fun", "n call given", defaults=((),))  # a function of n arguments, some of them given


def apply(f, *args):
    while args:
        need = f.n - len(f.given)
        if len(args) < need:
            return Fun(f.n, f.call, f.given + args)
        f, args = f.call(*f.given, *args[:need]), args[need:]
    return f


NIL = ("[]",)


def listed(items, tail=NIL):
    for x in reversed(items):
        tail = ("∷", x, tail)
    return tail


def items(xs, most=-1):
    out = []
    while xs[0] == "∷" and len(out) != most:
        out.append(xs[1])
        xs = force(xs[2])
    return out


def plain(v):
    """A whole value, its lists as Python's."""
    v = force(v)
    if isinstance(v, dict):
        return {k: plain(x) for k, x in v.items()}
    if isinstance(v, tuple):
        return [plain(x) for x in items(v)] if v[0] in ("[]", "∷") else (v[0], *map(plain, v[1:]))
    return v


def drop(n, xs):
    while n and xs[0] == "∷":
        n, xs = n - 1, force(xs[2])
    return xs


def get(xs, n, default):
    xs = drop(n, xs)
    return force(xs[1] if xs[0] == "∷" else default)


def mapped(f, xs):
    return listed([Thunk(lambda x=x: apply(f, x)) for x in items(xs)])


compared = []  # the two sides of each equation so far, as whole values


def equal(a, b):
    compared.append((plain(a), plain(b)))
    return compared[-1][0] == compared[-1][1]


# What the paper takes from the kit: the meaning of each name as a Python expression, where $0 is the first argument
# evaluated and ~0 as it is; or a constructor and the number of its arguments; or None for a type. The native numbers:
# `-` stops at 0, n / 0 is 0, n % 0 is n.
NAT = {
    "ℕ": None, "zero": "0", "suc": "($0 + 1)", "◌+◌": "($0 + $1)", "◌-◌": "max($0 - $1, 0)", "◌*◌": "($0 * $1)",
    "◌/◌": "over($0, $1)", "◌%◌": "left($0, $1)", "◌^◌": "($0 ** $1)", "◌≤◌": "($0 <= $1)", "◌<◌": "($0 < $1)"}
BOOL = {
    "Bool": None, "true": "True", "false": "False", "not": "(not $0)", "◌&&◌": "&&", "◌||◌": "||", "cond": "cond"}
SAME = {"beq": "($0 == $1)"}
LIST = {
    "List": None, "[]": ("[]", 0), "◌∷◌": ("∷", 2), "◌++◌": "force(listed(items($0), ~1))", "map": "mapped($0, $1)"}
OPTION = {"Option": None, "none": ("none", 0), "some": ("some", 1)}
PATH = {"◌≡◌": "equal($0, $1)", "refl": None}
BITS = {"bit_xor": "($0 ^ $1)"}
DEC = {"leb": "($0 <= $1)", "ltb": "($0 < $1)", "eqb": "($0 == $1)"}
LISTS = {
    "length": "len(items($0))", "get_or": "get($0, $1, ~2)", "take": "listed(items($1, $0))", "drop": "drop($0, $1)",
    "replicate": "listed([~1] * $0)"}

# The kit's modules, each with its names.
KIT = {
    "Prim.Native.Nat": NAT, "mathlib.Core.Bool": BOOL, "mathlib.Core.List": LIST, "mathlib.Core.Option": OPTION,
    "mathlib.Core.Path": PATH, "lib.Dec": DEC, "lib.ListN": LISTS, "Rattle.std.specs.Bool": SAME,
    "Rattle.std.specs.Int.Bits": BITS, "Rattle.std.proofs.Math.Option": OPTION,
    "Rattle.std.specs.Prelude": ChainMap(NAT, BOOL, LIST, PATH, DEC, LISTS)}
BUILT_IN = {",": (",", 2), "tt": ("tt", 0), "Unit": "True", "¬": "(not $0)", "◌×◌": "($0 and $1)"}
FIXITY = {
    "◌+◌": ("l", 65), "◌-◌": ("l", 65), "◌*◌": ("l", 70), "◌/◌": ("l", 70), "◌%◌": ("l", 70), "◌^◌": ("r", 75),
    "◌≤◌": ("n", 50), "◌<◌": ("n", 50), "◌&&◌": ("l", 35), "◌||◌": ("l", 30), "◌∷◌": ("r", 67), "◌++◌": ("l", 65),
    "◌≡◌": ("n", 50), "◌×◌": ("r", 2)}
WORLD = {
    "Thunk": Thunk, "Fun": Fun, "force": force, "apply": apply, "plain": plain, "items": items, "listed": listed,
    "drop": drop, "get": get, "mapped": mapped, "equal": equal, "over": lambda a, b: a // b if b else 0,
    "left": lambda a, b: a % b if b else a}

# Definitions of the paper that only choose between their arguments: the places of these, and what each is taken at; and
# those that go on by their first argument, a test.
CASES = {
    "Hearing.on_some": {1: "none", 2: "some"}, "Answers.unless_echo": {1: "an echo", 2: "no echo"},
    "Frame.on_reading": {1: "short", 2: "too long", 3: "bad check", 4: "whole"},
    "Client.on_left": {1: "idle", 2: "ready", 3: "waiting"}}
TESTS = {"Flash.refuse_if"}

# kind: number, name, app (a: what, b: to what), field (a: of what, b: its name), lambda (a: binders, b: body), record
# (a: fields).
Expr = namedtuple("Expr", "kind a b line text", defaults=(None, 0, ""))
Branch = namedtuple("Branch", "definition text line")


def is_constructor(meaning):
    return isinstance(meaning, tuple) and meaning[0] not in ("def", "type", "var")


class Reader:
    """The expressions of one declaration."""

    def __init__(self, file, tokens):
        self.file, self.tokens, self.at, self.blocks = file, tokens, 0, []

    def wrong(self, what):
        line = self.tokens[min(self.at, len(self.tokens) - 1)].line
        raise NotUnderstood(f"{project.name_of(self.file.path)}:{line}: {what}")

    def peek(self):
        """The next token's text; none at the end of a block's statement."""
        t = self.tokens[self.at] if self.at < len(self.tokens) else None
        return None if t is None or self.blocks and t.first and t.column <= self.blocks[-1] else t.text

    def next(self, wanted=None):
        text = self.peek()
        if text is None or wanted not in (None, text):
            self.wrong(f"{wanted or 'more'} expected")
        self.at += 1
        return text

    def made(self, begin, kind, a, b=None):
        return Expr(kind, a, b, self.tokens[begin].line, self.file.text_of(self.tokens[begin:self.at]))

    def expr(self, least=0):
        begin, left = self.at, self.application()
        while f"◌{self.peek()}◌" in self.file.fixity:
            name = f"◌{self.peek()}◌"
            side, level = self.file.fixity[name]
            if level < least:
                break
            self.at += 1
            op = self.made(self.at - 1, "name", name)
            right = self.expr(level if side == "r" else level + 1)
            left = self.made(begin, "app", op, [left, right])
        return left

    def application(self):
        begin, head, args = self.at, self.atom(), []
        if head is None:
            self.wrong("an expression expected")
        so_far = lambda: self.made(begin, "app", head, args) if args else head
        while True:
            word = self.peek()
            if word == "{" and head.text == "Unit":
                for part in "{0}":
                    self.next(part)
            else:
                arg = self.atom()
                if arg is None:
                    return so_far()
                args.append(arg)

    def atom(self):
        """A value with its fields, each after a dot with no space around it; None where there is no value."""
        begin, e = self.at, self.value()
        while e is not None and self.is_field():
            for name in self.next()[1:].split("."):
                e = self.made(begin, "field", e, name)
        return e

    def is_field(self):
        """Whether the next token is fields of what ends right before it."""
        text = self.peek()
        return bool(text and re.fullmatch(r"(\.[^\s.]+)+", text)) and self.tokens[self.at - 1].end == self.tokens[
            self.at].start

    def value(self):
        begin, word = self.at, self.peek()
        if word in (None, ")", "}", ",", ";", "{", "=", "←") or f"◌{word}◌" in self.file.fixity:
            return None
        self.at += 1
        if word == "(":
            self.blocks.append(-1)
            inner = self.expr()
            if self.peek() == ",":
                self.at += 1
                inner = self.made(begin, "app", self.made(begin, "name", ","), [inner, self.expr()])
            self.next(")")
            self.blocks.pop()
            return inner
        if word == "λ":
            names = []
            while not (names and names[-1].endswith(".")):
                names.append(self.next())
                if names[-1] in "(){},;":
                    self.wrong("a name expected")
            return self.made(begin, "lambda", [("var", n.rstrip(".")) for n in names], self.expr())
        if word == "do":
            return self.block()
        if word == "record":
            fields = {}
            self.next("{")
            while self.peek() != "}":
                name = self.next()
                self.next("=")
                fields[name] = self.expr()
                if self.peek() != "}":
                    self.next(";")
            self.next("}")
            return self.made(begin, "record", fields)
        if re.fullmatch(r"0x[0-9A-F]+|[0-9]+", word):
            return self.made(begin, "number", int(word, 0))
        return self.named(begin, word)

    def named(self, begin, word):
        """A name, or fields of what a name stands for. A name's own dot is one after an alias of a module, or after the
        type of a constructor."""
        name, *fields = word.split(".")
        if fields and f"{name}.{fields[0]}" in self.file.scope:
            name = f"{name}.{fields.pop(0)}"
        e = self.made(begin, "name", name)._replace(text=name)
        for field in fields:
            e = Expr("field", e, field, e.line, f"{e.text}.{field}")
        return e

    def block(self):
        statements, column = [], self.tokens[self.at].column
        while self.at < len(self.tokens) and self.tokens[self.at].first and self.tokens[self.at].column == column:
            self.tokens[self.at].first = False
            self.blocks.append(column)
            e, binder = self.expr(), None
            if self.peek() == "←":
                self.at += 1
                e, binder = self.expr(), self.file.pattern(e)
            statements.append((binder, e))
            self.blocks.pop()
        if not statements or statements[-1][0]:
            self.wrong("a block ends in an expression")
        result = statements.pop()[1]
        for binder, e in reversed(statements):
            rest = Expr("lambda", [binder], result, e.line, e.text) if binder else result
            result = Expr("app", Expr("name", "◌>>=◌" if binder else "◌>>◌", None, e.line), [e, rest], e.line, e.text)
        return result


class File:
    """One file: what its names mean, and the clauses of its definitions. `module` is its place in the paper, as
    ("walk", "Count") for specs/walk/Count.antt; a file that is no part of the paper has none."""

    def __init__(self, paper, path, module=None):
        self.paper, self.path, self.module, self.name, self.source = paper, path, module, path.stem, path.read_text()
        self.scope, self.fixity, self.types, self.clauses = dict(BUILT_IN), {"◌×◌": FIXITY["◌×◌"]}, {}, {}
        self.tables, self.proved = {}, set()
        tokens, start = [], 0
        for number, text in enumerate(self.source.split("\n"), 1):
            first = True
            for m in re.finditer(r"--.*|[(){},;]|[^\s(){},;]+", text):
                if not m[0].startswith("--"):
                    tokens.append(SimpleNamespace(text=m[0], start=start + m.start(), end=start + m.end(), line=number,
                                                  column=m.start(), first=first))
                    first = False
            start += len(text) + 1
        starts = [i for i, t in enumerate(tokens) if t.first and t.column == 0 and t.text != "}"] + [len(tokens)]
        for i, j in zip(starts, starts[1:]):
            self.declaration(tokens[i:j])

    def text_of(self, tokens):
        return re.sub(r"\s+", " ", self.source[tokens[0].start:tokens[-1].end])

    def declaration(self, tokens):
        read, text, words = Reader(self, tokens), self.text_of(tokens), [t.text for t in tokens]
        while words[0] in ("unfoldable", "abbrev", "pub"):
            words = words[1:]
        if words[0] == "mod":
            self.paper.modules.append((*self.module, words[1]))
        elif words[0] == "unfolding":
            return
        elif words[0] == "use":
            self.use(read, text.removeprefix("pub "))
        elif words[0] in ("infixl", "infixr"):
            self.fixity[words[2]] = (words[0][-1], int(words[1]))
        elif words[0] in ("data", "record"):
            self.data(read, words[0], tokens)
        elif len(words) < len(tokens) and ":" in words:
            self.types[words[0]] = text.split(" : ", 1)[1]
            self.scope[words[0]] = ("def", f"{self.name}.{words[0]}")
        else:
            left = read.expr()
            read.next("=")
            name, patterns = (left.a.a, left.b) if left.kind == "app" else (left.a, [])
            if name not in self.types:
                read.wrong(f"a clause of {name}, which has no type")
            if self.types[name] == "Type 0":
                self.scope[name] = None
                return
            if self.types[name] in self.tables:
                self.proved.add(self.types[name])  # the proof of a table of propositions is not evaluated
                return
            self.clauses.setdefault(name, []).append((left, [self.pattern(p) for p in patterns], read.expr()))
            if read.at != len(tokens):
                read.wrong("an end expected")

    def use(self, read, text):
        m = re.fullmatch(r"use ([^\s{}]+?)(?:\.\{(.*)\}| as (\w+))", text)
        if not m:
            read.wrong("a use expected")
        module, names, alias = m.groups()
        known, fixity = KIT.get(module), FIXITY
        part = re.fullmatch(r"Rattle\.paper\.specs\.(.*)", module)
        if part:
            other = self.paper.file(tuple(part[1].split(".")))
            known, fixity = other.scope, other.fixity
        elif known is None and re.match(r"Rattle\.\w+\.proofs\.", module):
            return  # theorems, which no value is made of
        if known is None:
            read.wrong(f"no module {module} is known")
        for name in names.split(", ") if names else []:
            if name not in known:
                read.wrong(f"no {name} is known in {module}")
            self.scope[name] = known[name]
            # A type brings its constructors, by its name and theirs.
            self.scope.update({own: known[own] for own in known if own.startswith(f"{name}.")})
            if name in fixity:
                self.fixity[name] = fixity[name]
        if alias:
            self.scope.update({f"{alias}.{name}": meaning for name, meaning in known.items()})

    def data(self, read, kind, tokens):
        head = self.text_of([t for t in tokens if t.line == tokens[0].line])
        name, parameters = head.split()[2], re.findall(r"\((\S+) : [^()]*\)", head)
        self.scope[name] = ("type", name)
        columns = [i for i, t in enumerate(tokens) if t.first and t.column == 2] + [len(tokens)]
        members = [tokens[i + (kind == "record"):j] for i, j in zip(columns, columns[1:])]
        if any(m[1].text != ":" for m in members):
            read.wrong("constructors or fields expected")
        if kind == "data":
            for m in members:
                flat = re.sub(r"\([^()]*\)", "", self.text_of(m))
                made = (f"{self.name}.{m[0].text}", flat.count("→"))
                self.scope.update({m[0].text: made, f"{name}.{m[0].text}": made})
        elif parameters:
            # A record of propositions: it holds where all of them do.
            whole = [Reader(self, m[2:]).expr() for m in members]
            while len(whole) > 1:
                whole[:2] = [Expr("app", Expr("name", "◌×◌"), whole[:2], whole[1].line, whole[1].text)]
            left = Expr("name", name, None, tokens[0].line, " ".join([name, *parameters]))
            self.scope[name] = ("def", f"{self.name}.{name}")
            self.clauses[name] = [(left, [("var", p) for p in parameters], whole[0])]
        elif any(self.is_proposition(m[2:]) for m in members):
            # A table of propositions: each is a definition of its own.
            self.tables[name] = [m[0].text for m in members]
            for m in members:
                left = Expr("name", m[0].text, None, m[0].line, f"{name}.{m[0].text}")
                self.clauses[left.text] = [(left, [], Reader(self, m[2:]).expr())]
        else:
            self.paper.records.add(frozenset(m[0].text for m in members))

    def is_proposition(self, tokens):
        """Whether a type is an equation, or names a definition whose values are propositions."""
        return any(t.text == "≡" or self.types.get(t.text, "").endswith("→ Type 0") for t in tokens)

    def pattern(self, e):
        """A variable, what a value is, suc of a pattern, or a constructor with patterns."""
        name, args = (e.a.a, e.b) if e.kind == "app" else (e.a, [])
        meaning = self.scope.get(name)
        if meaning in ("True", "False", "0") and not args:
            return ("is", meaning)
        if name == "suc" and len(args) == 1:
            return ("suc", self.pattern(args[0]))
        if is_constructor(meaning) and meaning[1] == len(args):
            return ("con", meaning[0], [self.pattern(p) for p in args])
        if e.kind != "name" or is_constructor(meaning):
            raise NotUnderstood(f"{project.name_of(self.path)}:{e.line}: a pattern expected: {e.text}")
        return ("var", name)


class Paper:
    """All files of a folder, in the order of its Lib.antt, and if given one beside it that is stated over them:
    `self["Client.request"]` is a definition as a Python function, by the names of its file and its own."""

    def __init__(self, folder, beside=None):
        self.folder, self.files, self.modules, self.records = pathlib.Path(folder), {}, [], set()
        self.branches, self.taken, self.fresh, self.python, self.arity, lines = [], set(), 0, {}, {}, []
        File(self, self.folder / "Lib.antt", ())
        files = [self.file(module) for module in self.modules]  # a file's own `mod` lines add to the list
        if len({file.name for file in files}) < len(files):
            raise NotUnderstood(f"{project.name_of(self.folder)}: two files of one name")
        self.beside = File(self, beside) if beside else None
        files += [self.beside] if beside else []
        for file in files:
            for name, type_ in file.types.items():
                if type_ != "Type 0" and name not in file.clauses and type_ not in file.proved:
                    raise NotUnderstood(f"{project.name_of(file.path)}: {name} has no clause")
            for name, clauses in file.clauses.items():
                key = f"{file.name}.{name}"
                self.python[key], self.arity[key] = f"d{len(self.python)}", len(clauses[0][1])
        for file in files:
            for name in file.clauses:
                lines += self.definition(file, name)
        self.world = dict(WORLD, took=self.taken.add)
        exec(compile("\n".join(lines), "paper", "exec"), self.world)

    def file(self, module):
        if module not in self.files:
            path = self.folder.joinpath(*module[:-1], f"{module[-1]}.antt")
            self.files[module] = File(self, path, module)
        return self.files[module]

    def path_of(self, name):
        """The path of the file of this name."""
        return next(project.name_of(file.path) for file in self.files.values() if file.name == name)

    def __getitem__(self, key):
        return self.world[self.python[key]]

    def variable(self):
        self.fresh += 1
        return f"v{self.fresh}"

    def mark(self, text, e):
        """Python that takes a branch and goes on: `took` gives nothing."""
        self.branches.append(Branch(self.current, text, e.line))
        return f"took({len(self.branches) - 1}) or "

    def wrong(self, e, what):
        raise NotUnderstood(f"{project.name_of(self.here.path)}:{e.line}: {what}: {e.text or e.a}")

    def definition(self, file, name):
        self.current, self.here = f"{file.name}.{name}", file
        arguments = [f"a{i}" for i in range(self.arity[self.current])]
        lines = [f"def {self.python[self.current]}({', '.join(arguments)}):"]
        for left, patterns, right in file.clauses[name]:
            if len(patterns) != len(arguments):
                self.wrong(left, "a clause with other arguments")
            took, scope, depth = self.mark(left.text, left), {}, 1
            for argument, pattern in zip(arguments, patterns):
                depth = self.match(argument, pattern, scope, lines, depth)
            lines.append("  " * depth + f"return {took}{self.value(right, scope)}")
        return lines + [f"  raise AssertionError({f'no clause of {name} fits'!r})"]

    def match(self, at, pattern, scope, lines, depth):
        """Python that goes deeper where the value fits the pattern."""
        kind, what = pattern[:2]
        if kind == "var":
            scope[what] = at
            return depth
        lines.append("  " * depth + f"if {at}.__class__ is Thunk: {at} = {at}.get()")
        tests = {"is": f"if {at} == {what}:", "suc": f"if {at} > 0:", "con": f"if {at}[0] == {what!r}:"}
        lines.append("  " * depth + tests[kind])
        inside = [(f"{at}[{i}]", p) for i, p in enumerate(pattern[-1], 1)] if kind == "con" else []
        parts = [(f"{at} - 1", what)] if kind == "suc" else inside
        depth += 1
        for value, part in parts:
            inner = self.variable()
            lines.append("  " * depth + f"{inner} = {value}")
            depth = self.match(inner, part, scope, lines, depth)
        return depth

    def meaning(self, e, scope):
        if e.a in scope:
            return ("var", scope[e.a])
        if e.a not in self.here.scope:
            self.wrong(e, "no such name")
        return self.here.scope[e.a]

    def argument(self, e, scope):
        """Python for a value that may wait."""
        head = e.a if e.kind == "app" else e
        meaning = self.meaning(head, scope) if head.kind == "name" else None
        if e.kind == "name" and isinstance(meaning, tuple) and meaning[0] == "var":
            return meaning[1]
        known = e.kind in ("number", "lambda", "record") or meaning in ("True", "False", "0") or is_constructor(meaning)
        return self.value(e, scope) if known else f"Thunk(lambda: {self.value(e, scope)})"

    def value(self, e, scope):
        """Python for a value as far as its constructor."""
        if e.kind == "number":
            return str(e.a)
        if e.kind == "field":
            if not e.b.isdigit() and not any(e.b in fields for fields in self.records):
                self.wrong(e, "no record has this field")
            return f"force({self.value(e.a, scope)}[{int(e.b) + 1 if e.b.isdigit() else repr(e.b)}])"
        if e.kind == "record":
            if frozenset(e.a) not in self.records:
                self.wrong(e, "no record has these fields")
            return "{" + ", ".join(f"{k!r}: {self.argument(x, scope)}" for k, x in e.a.items()) + "}"
        if e.kind == "lambda":
            return self.function(e, scope)
        head, args = (e.a, e.b) if e.kind == "app" else (e, [])
        if head.kind != "name":
            return self.applied(self.value(head, scope), args, scope)
        meaning = self.meaning(head, scope)
        if isinstance(meaning, str):
            return self.of_kit(e, meaning, args, scope)
        if meaning is None:
            self.wrong(e, "a type is no value")
        what, key = meaning
        if what == "var":
            return self.applied(f"({key}.get() if {key}.__class__ is Thunk else {key})", args, scope)
        if what == "type":
            return f"('type', {key!r})"
        if what == "def":
            return self.called(key, head, args, scope)
        if len(args) != key:
            self.wrong(e, "a constructor with other arguments")
        return "(" + ", ".join([repr(what), *(self.argument(x, scope) for x in args)]) + ",)"

    def applied(self, function, args, scope):
        return f"apply({function}, {', '.join(self.argument(x, scope) for x in args)})" if args else function

    def called(self, key, head, args, scope):
        n, function, arms = self.arity[key], self.python[key], CASES.get(key, {})
        if len(args) < n:
            return self.applied(f"Fun({n}, {function})", args, scope)
        given = []
        for i, x in enumerate(args[:n]):
            if i in arms:
                by = args[0].text if args[0].kind == "name" else f"({args[0].text})"
                took = self.mark(f"{head.a} {by}: {arms[i]}", x)
                waits = f"Thunk(lambda: {took}{self.value(x, scope)})" if x.kind != "lambda" else None
                given.append(waits or self.function(x, scope, took))
            elif i == 0 and key in TESTS:
                given.append(f"Thunk(lambda: {self.truth(x, scope, f'{x.text}: holds', f'{x.text}: fails')})")
            else:
                given.append(self.argument(x, scope))
        return self.applied(f"{function}({', '.join(given)})", args[n:], scope)

    def truth(self, e, scope, yes, no):
        yes, no = self.mark(yes, e), self.mark(no, e)
        return f"(({yes}True) if {self.value(e, scope)} else ({no}False))"

    def function(self, e, scope, took=""):
        names, inner = [self.variable() for _ in e.a], dict(scope)
        for name, pattern in zip(names, e.a):
            inner[pattern[1]] = name
        if all(pattern[0] == "var" for pattern in e.a):
            return f"Fun({len(names)}, lambda {', '.join(names)}: {took}{self.value(e.b, inner)})"
        kind, pair, parts = e.a[0]
        if (kind, pair) != ("con", ",") or any(p[0] != "var" for p in parts):
            self.wrong(e, "a binder expected")
        pair = Expr("lambda", parts, e.b, e.line, e.text)
        return f"Fun(1, lambda {names[0]}: apply({self.function(pair, scope)}, *force({names[0]})[1:]))"

    def of_kit(self, e, meaning, args, scope):
        if meaning == "cond" and len(args) == 3:
            test = self.value(args[0], scope)
            yes = self.mark(f"{args[0].text}: holds", e) + self.value(args[1], scope)
            no = self.mark(f"{args[0].text}: fails", e) + self.value(args[2], scope)
            return f"(({yes}) if {test} else ({no}))"
        if meaning in ("&&", "||") and len(args) == 2:
            ways = {"&&": ("the first fails", "both hold", "only the second fails"),
                    "||": ("the first holds", "only the second holds", "both fail")}
            short, yes, no = (f"{e.text}: {way}" for way in ways[meaning])
            stop = f"({self.mark(short, e)}{meaning == '||'})"
            right, left = self.truth(args[1], scope, yes, no), self.value(args[0], scope)
            return f"({right} if {left} else {stop})" if meaning == "&&" else f"({stop} if {left} else {right})"
        if len(args) != len(set(re.findall(r"[$~]\d", meaning))):
            self.wrong(e, "a name of the kit with other arguments")
        made = {"$": self.value, "~": self.argument}
        return re.sub(r"([$~])(\d)", lambda m: made[m[1]](args[int(m[2])], scope), meaning)


def shorten(paper):
    """`sum_under` goes through 2^d prefixes. Where d is over 9 it stops where `forked` is 0: no prefix that extends one
    which at most one id matches is matched by more."""
    whole, forked = paper["Count.sum_under"], paper["Count.forked"]

    def short(d, q, f):
        d, f = force(d), force(f)
        return 0 if d > 9 and f.call is forked and apply(f, q) == 0 else whole(d, q, f)
    paper.world[paper.python["Count.sum_under"]] = short


# The reader on the proved table.

specs, examples = root / "crates/paper/specs", root / "crates/acceptance/proofs/Examples.antt"

# Faults of the reader: where, which name, and what it would be instead. The table does not try `bit_xor`, since both
# sides of a row have the same check: tests/definitions.py does. Neither tries a `-` that goes below 0: where they have
# one, as in the count of a `replicate`, it makes no difference.
FAULTS = {
    "`+` subtracts": (NAT, "◌+◌", "max($0 - $1, 0)"),
    "`-` takes the first from the second": (NAT, "◌-◌", "max($1 - $0, 0)"),
    "`*` adds": (NAT, "◌*◌", "($0 + $1)"),
    "`/` rounds up": (NAT, "◌/◌", "-(-$0 // $1)"),
    "`%` divides": (NAT, "◌%◌", "over($0, $1)"),
    "`^` multiplies": (NAT, "◌^◌", "($0 * $1)"),
    "`suc` does nothing": (NAT, "suc", "$0"),
    "`not` does nothing": (BOOL, "not", "$0"),
    "`&&` is `||`": (BOOL, "◌&&◌", "||"),
    "`||` is `&&`": (BOOL, "◌||◌", "&&"),
    "`cond` takes the other arm": (BOOL, "cond", "($2 if $0 else $1)"),
    "`beq` is false": (SAME, "beq", "($0 != $0 and $1)"),
    "`++` in the other order": (LIST, "◌++◌", "force(listed(items($1), ~0))"),
    "`map` drops the last": (LIST, "map", "listed(items(mapped($0, $1))[:-1])"),
    "`leb` is strict": (DEC, "leb", "($0 < $1)"),
    "`ltb` is not strict": (DEC, "ltb", "($0 <= $1)"),
    "`eqb` is true": (DEC, "eqb", "($0 == $0 or $1)"),
    "`length` is one more": (LISTS, "length", "(len(items($0)) + 1)"),
    "`get_or` gives the next": (LISTS, "get_or", "get($0, $1 + 1, ~2)"),
    "`take` takes one more": (LISTS, "take", "listed(items($1, $0 + 1))"),
    "`drop` drops one more": (LISTS, "drop", "drop($0 + 1, $1)"),
    "`replicate` makes one more": (LISTS, "replicate", "listed([~1] * ($0 + 1))"),
    "`∷` groups to the left": (FIXITY, "◌∷◌", ("l", 67)),
    "`*` binds weaker than `+`": (FIXITY, "◌*◌", ("l", 60)),
    "an equation is not evaluated": (PATH, "◌≡◌", "(True or $0 or $1)"),
    "of two propositions one is evaluated": (BUILT_IN, "◌×◌", "($0 or $1)"),
    "all values are equal": (globals(), "plain", lambda v: None),
}


class Table:
    """The proved table, evaluated: `rows` and `equations` count what was."""

    def __init__(self):
        self.paper = Paper(specs, examples)
        self.file = self.paper.beside
        self.rows = self.equations = 0
        shorten(self.paper)

    def stated(self, e):
        """The number of equations that a proposition states, those of a definition that it names included."""
        head, args = (e.a, e.b) if e.kind == "app" else (e, [])
        if head.a == "◌×◌":
            return sum(map(self.stated, args))
        return 1 if head.a == "◌≡◌" else self.stated(self.file.clauses[head.a][0][2])

    def false_rows(self):
        """The rows that are not equations of equal values, each with the reason."""
        values = set()
        for table in self.file.proved:
            for row in self.file.tables[table]:
                key, before = f"{table}.{row}", len(compared)
                try:
                    holds = self.paper[f"{self.file.name}.{key}"]()
                except (AssertionError, KeyError, TypeError, ValueError, IndexError) as e:
                    yield f"{row}: the reader gives no value: {e!r}"
                    continue
                sides, stated = compared[before:], self.stated(self.file.clauses[key][0][2])
                self.rows, self.equations = self.rows + 1, self.equations + len(sides)
                values.update(repr(right) for _, right in sides)
                unequal = [f"{row}: {left} on the left, {right} on the right" for left, right in sides if left != right]
                yield from unequal
                if not unequal and (holds is not True or len(sides) != stated):
                    yield f"{row}: {len(sides)} of {stated} equations evaluated, and the row's value is {holds}"
        if len(values) < 2:
            yield "the right sides of all rows are one value"


def shows(fault):
    """The row at which a fault of the reader shows; None if it does not."""
    place, name, wrong = FAULTS[fault]
    right, place[name] = place[name], wrong
    try:
        return next(Table().false_rows(), None)
    finally:
        place[name] = right


def test(words):
    if words not in ([], ["--faults"]):
        raise Faults(__doc__)
    table, hidden = Table(), []
    faults = list(table.false_rows())
    for fault in FAULTS:
        where = shows(fault)
        if where is None:
            hidden.append(f"put into the reader, this does not show: {fault}")
        elif words:
            print(f"{fault}: {where[:100]}")
    summary = (f"{table.rows} rows of the proved table with {table.equations} equations, {len(faults)} false; "
               f"{len(FAULTS)} faults put into the reader, {len(FAULTS) - len(hidden)} found")
    return project.finish(faults + hidden, summary, table.equations)


if __name__ == "__main__":
    project.run(lambda words: deep(test, words))
