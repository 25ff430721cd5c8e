"""The paper's definitions, crates/paper/specs, run as text on the Rust's stored answers.

python3 tests/definitions.py           compares every answer; each branch of each definition must be taken
python3 tests/definitions.py --table   the same, and writes docs/COVERAGE.md

The Rust's answers are those of tests/oracle. Where documents 01 and 02 go beyond the Rust, or a definition is no part
of a client, there are the logs of tests/logs and the cases below, each beside its sentence. tests/antt.py, which
reads and runs the definitions, is tested on a table of examples that is proved.
"""
import struct

import project
from antt import NIL, Fun, Paper, apply, deep, force, listed, plain, shorten
from bench import CRC_MISMATCH, ERASE, INFO, OK, SELECT, VERIFY, WRITE, bits_of, check, frame
from project import Faults, root

stored = root / "tests/oracle"
NAMES = {1: "Io", 2: "Device", 3: "FirmwareTooLarge", 4: "CrcMismatch", 5: "BadInfo", 6: "Incompatible", 7: "NoDevice",
         8: "SeveralDevices", 9: "NoSuchUid", 10: "AmbiguousUid", 11: "NotAddressable", 12: "DuplicateUid",
         23: "Unaddressed"}

# The operations by their codes in tests/oracle: in words, the definition, and its arguments from the line's bytes.
STARTS = {
    1: (lambda a: f"select of {a[0]} bits of {a[1:].hex()}", "start_select", lambda a: (listed(a[1:]), a[0])),
    2: (lambda a: "deselect", "start_deselect", lambda a: ()),
    3: (lambda a: "attach", "start_attach", lambda a: (("none",),)),
    4: (lambda a: f"attach under {a.hex() or 'the empty prefix'}", "start_attach", lambda a: (("some", listed(a)),)),
    5: (lambda a: f"discover under {a.hex() or 'the empty prefix'}", "start_discover", lambda a: (listed(a),)),
    6: (lambda a: "info", "start_info", lambda a: ()),
    7: (lambda a: "erase", "start_erase", lambda a: ()),
    8: (lambda a: f"flash of {len(a)} bytes", "start_flash", lambda a: (listed(a),)),
    9: (lambda a: "reset", "start_reset", lambda a: (a[0] == 1, a[1] == 1)),
    10: (lambda a: "set_baud", "start_set_baud", lambda a: (a[2], a[0] == 1, a[1] == 1)),
}

# The branches that no call can take, and why.
LEFT = "a client does not wait for the answer to a request that is left: `handed_out` goes on at once"
UNREACHED = {
    "Client.cleared (leave d) id": LEFT,
    "Client.reading (leave d) image bytes": LEFT,
    "Client.place (leave d) bytes": LEFT,
    "Count.test n || some_below n test: only the second holds":
        "an id alone under a prefix of its bits is alone under each longer one, which is tried first",
}


def number(n):
    return f" {n:08x}"


class Player:
    """A client of the definitions, told what the Rust was told; `out` has the lines of tests/oracle that it gives."""

    def __init__(self, paper):
        self.paper, self.client, self.kept = paper, paper["Client.fresh"](), b""

    def call(self, name, *arguments):
        return self.paper[f"Client.{name}"](*arguments)

    def start(self, code, a):
        name, given = STARTS[code][1], STARTS[code][2](list(a))
        self.out, self.image, self.refusal = [], listed(list(a)), None
        told = self.call(name, self.client, *given)
        self.client = force(told["client"])
        if plain(told["says"]) != ("Client.onward", ("none",)) or force(told["rest"]) != 0:
            raise AssertionError(f"a start that is not granted as it should be: {plain(told['says'])}")
        self.ask()

    def ask(self):
        """The next request, in a buffer whose rest must stay as it is."""
        _, q, _ = force(self.client["left"])
        answer = self.paper["Talk.AnswerTo"](q)
        asked = self.call("request", self.client, self.image, listed([0xC3] * 1036))
        says, buffer = plain(asked["says"]), plain(asked["buffer"])
        self.client, self.awaited = force(asked["client"]), answer is not True
        granted = "Client.granted" if self.awaited else "Client.closing"
        if says[0] != granted or buffer[says[1]:] != [0xC3] * (1036 - says[1]):
            raise AssertionError(f"a request that is not granted as it should be: {says}")
        self.out.append("> " + bytes(buffer[:says[1]]).hex())
        if self.awaited and answer != ("type", "Heard" if buffer[1] == SELECT else "Answered"):
            raise AssertionError(f"a request of command {buffer[1]} that wants {answer}")
        if not self.awaited:
            self.ended(number(0))

    def record(self, record):
        if record[:len(self.kept)] != self.kept:
            raise AssertionError("a record that does not begin with the rest")
        bytes_ = listed(list(record))
        told = self.call("record'", self.client, self.image, bytes_)
        self.kept = bytes(plain(self.paper["Answers.rest"](bytes_, told["rest"])))
        self.told(told)

    def told(self, told):
        says, self.client = force(told["says"]), force(told["client"])
        place = f"@{number(force(told['rest']))}"
        if says[0] == "Client.refused":
            self.refusal = plain(says)[1:]
            self.out += [place] if self.refusal[0] == 23 else []
            return self.ended(number(self.refusal[0]))
        self.out.append(place)
        progress = plain(says[1])
        if progress[0] == "some":
            self.out.append(f"%{number(progress[1][1])}{number(progress[1][2])}")
        if says[0] == "Client.onward":
            return self.ask()
        name, *given = plain(says[2])
        if name == "Talk.found":
            self.out += [f"i {bytes(i).hex()}" for i in given[0]]
            self.ended(" found")
        elif name == "Talk.heard":
            kind, *ident = given[0]
            self.ended(" " + kind.split(".")[1] + "".join(f" {bytes(i).hex()}" for i in ident))
        elif name == "Talk.knows":
            self.ended("".join(number(n) for n in given[0].values()))
        else:
            if name == "Talk.attached" and given[0] != plain(self.client["id"]):
                raise AssertionError("an id is attached that the client has not")
            self.ended(number(0))

    def ended(self, how):
        ident, seed = plain(self.client["id"]), force(self.client["seed"])
        self.out += [f"={how}", f"s{number(seed)} {bytes(ident[1]).hex() if ident[0] == 'some' else ''}"]

    def play(self, lines):
        """An operation, its records, and at its end what a refusal carries and the rest."""
        operation = bytes.fromhex(lines[0])
        self.start(operation[0], operation[1:])
        for line in map(bytes.fromhex, lines[1:]):
            if line[0] == 0:
                self.record(line[1:])
            else:
                told = self.call("link_failed", self.client)
                self.kept = self.kept[force(told["rest"]):]
                self.told(told)
        more = []
        if self.refusal and self.refusal[0] != 23:
            more.append("c" + "".join(number(n) for n in self.refusal[1]))
        if self.awaited and not (self.refusal and self.refusal[0] == 1):
            more.append(f"r {self.kept.hex()}")
        return self.out, more


def said(lines, out):
    """An operation in words, and how it ended."""
    operation = bytes.fromhex(lines[0])
    how = next(line for line in out if line.startswith("="))[2:]
    if how == "found":
        how = f"{sum(line.startswith('i ') for line in out)} ids"
    elif how[0] == "0":
        how = NAMES.get(int(how, 16), "success") if len(how) == 8 else "success"
    return f"{STARTS[operation[0]][0](operation[1:])}, {how}"


def blocks(name):
    """The operations of tests/oracle/NAME.in, and their answers in NAME.out: each as its lines."""
    parts = [part.split("\n") for part in (stored / f"{name}.in").read_text().strip("\n").split("\n\n")]
    answers, answer = [], []
    for line in (stored / f"{name}.out").read_text().splitlines():
        if line[0] == ">" and answer and answer[-1][0] in "scr":
            answers.append(answer)
            answer = []
        answer.append(line)
    answers.append(answer)
    if len(parts) != len(answers):
        raise Faults(f"tests/oracle/{name}: {len(parts)} operations and {len(answers)} answers")
    return zip(parts, answers)


def honest(ids, asked, records):
    """Whether pods of these ids, all of one length, were heard: silence, the reply of the one that matches, or a
    clash."""
    def heard(bits):
        matching = [i for i in ids if bits_of(i)[:len(bits)] == bits]
        return b"" if not matching else frame(SELECT, OK, matching[0]) if len(matching) == 1 else b"\0"
    return len(set(map(len, ids))) <= 1 and all(heard(bits) == record for bits, record in zip(asked, records))


def walked(paper, lines, out):
    """A discovery of the Rust as a walk over what it heard; and over an honest wire its count."""
    records = [bytes.fromhex(line)[1:] for line in lines[1:]]
    requests = [bytes.fromhex(line[2:]) for line in out if line.startswith(">")]
    asked = [bits_of(request[12:])[:request[11]] for request in requests]
    prefix, heard = listed(asked[0]), [paper["Hearing.hear"](listed(list(record))) for record in records]
    ids = [bytes.fromhex(line[2:]) for line in out if line.startswith("i ")]
    end = next(line for line in out if line.startswith("="))[2:]
    wanted = ("Walk.done", [list(i) for i in ids]) if end == "found" else ("Walk.stopped", int(end, 16))
    walk = paper["Walk.run"](Fun(2, lambda k, p: heard[force(k)]), 0, paper["Walk.discover"](prefix))
    yield "the walk", plain(walk), (",", wanted, len(asked))
    if end == "found" and honest(ids, asked, records):
        size, pods = len(ids[0]) if ids else 0, listed([listed(list(i)) for i in ids])
        yield "pods", paper["Count.Pods"](size, pods), True
        answers = [plain(paper["Count.honest"](pods, k, listed(bits))) for k, bits in enumerate(asked)]
        yield "the honest wire", answers, list(map(plain, heard))
        yield "the count", paper["Count.selects"](pods, size, prefix), len(asked)
        yield "the bound", len(asked) <= paper["Count.limit"](prefix), True


# The examples: a generator gives the name of each, and then pairs of what the definitions give and what they should.

def of_the_rust(paper):
    for k, (lines, out) in enumerate(blocks("runs"), 1):
        yield f"run {k}: {said(lines, out)}"
        yield "the run", Player(paper).play(lines)[0], out
        if lines[0].startswith("05"):
            yield from walked(paper, lines, out)
    player, client, k = None, 0, 0
    for lines, out in blocks("clients"):
        if lines[0] == "fresh":
            lines, player, client, k = lines[1:], Player(paper), client + 1, 0
        k += 1
        yield f"client {client}, operation {k}: {said(lines, out)}"
        played, more = player.play(lines)
        yield "the operation", played + more, out
    for k, line in enumerate((stored / "texts").read_text().splitlines(), 1):
        kind, given, answer = line.split(" ")
        bytes_ = list(bytes.fromhex(given.lstrip("+")))
        if kind == "read":
            yield f"text {k}: reading {f'`{bytes(bytes_).decode()}`' if bytes_ else 'the empty text'}"
            wanted = ("none",) if answer == "-" else ("some", list(bytes.fromhex(answer[1:])))
            yield "the id", plain(paper["Text.parse_uid"](listed(bytes_))), wanted
        else:
            yield f"text {k}: writing {given[1:] or 'the empty id'}"
            wanted = list(bytes.fromhex(answer))
            yield "the text", plain(paper["Text.uid_hex"](listed(bytes_), len(wanted))), ("Text.wrote", wanted)


def of_logs(paper):
    for log in sorted((root / "tests/logs").glob("*.in")):
        yield f"log {log.stem}"
        output = bytes(plain(paper["Log.output"](listed(list(log.read_bytes())))))
        yield "the output", output, log.with_suffix(".out").read_bytes()


def info(capacity=4, erase_size=4, compat=0xFFFFFFFF, max_payload=4):
    return struct.pack("<IHHHBBIH", capacity, erase_size, 3, 7, 1, 2, compat, max_payload)


def of_the_paper(paper):
    """Sentences of documents 01 and 02 where they go beyond the Rust, and their examples. The first string of each case
    is the sentence."""
    def ends(sentence, operation, records, n, carries=()):
        player = Player(paper)
        player.play([operation.hex(), *("00" + r.hex() for r in records)])
        return [f"\"{sentence}\"", ("the refusal", player.refusal, (n, list(carries)))]

    def unchanged(sentence, client, answers, n, carries=()):
        """Calls that are refused: what they answer, the client as it was, and the whole record or buffer left."""
        left = lambda a: force(a["rest"]) == 0 if "rest" in a else plain(a["buffer"]) == [7] * 11
        got = [(plain(a["says"]), force(a["client"]) is client, left(a)) for a in answers]
        return [f"\"{sentence}\"", ("the calls", got, [(("Client.refused", n, list(carries)), True, True)] * len(got))]

    def equal(sentence, *pairs):
        return [f"\"{sentence}\"", *(("the value", a, b) for a, b in pairs)]

    def call(name, *arguments):
        return paper[f"Client.{name}"](*arguments)

    def of(name, *arguments):
        return plain(paper[name](*arguments))

    def ok(command, payload=b""):
        return frame(command, OK, payload)

    seven, long = listed([7] * 11), listed([0] * 17)
    idle = call("fresh")
    ready = force(call("start_flash", idle, listed([1] * 5))["client"])
    waiting = force(call("request", ready, listed([1] * 5), listed([0] * 12))["client"])
    six, five = listed([1] * 6), listed([1] * 5)
    yield unchanged("a start while an operation runs", ready, [
        call("start_info", ready), call("start_discover", ready, long)], 21)
    yield unchanged("a start while an operation runs (a request is out)", waiting, [
        call("start_deselect", waiting)], 21)
    yield unchanged("asking with none running", idle, [call("request", idle, NIL, seven)], 21)
    yield unchanged("asking .. with a request unanswered", waiting, [call("request", waiting, six, seven)], 21)
    yield unchanged("a record or link failure with no request out", idle, [
        call("record'", idle, NIL, six), call("link_failed", idle)], 21)
    yield unchanged("a record or link failure with no request out (one is ready)", ready, [
        call("record'", ready, six, six), call("link_failed", ready)], 21)
    yield unchanged("image length differs from the one at the start", ready, [call("request", ready, six, seven)], 20)
    yield unchanged("image length differs from the one at the start (a record)", waiting, [
        call("record'", waiting, six, six)], 20)
    yield unchanged("request or text buffer too short", ready, [call("request", ready, five, seven)], 16, [12])
    yield unchanged("a count over 128 .. is 13", idle, [call("start_select", idle, listed([0] * 16), 129)], 13)
    yield unchanged("a count .. over 8 times the bytes given is 13", idle, [
        call("start_select", idle, listed([0]), 9)], 13)
    yield unchanged("prefix or id given over 16 bytes", idle, [
        call("start_select", idle, long, 1), call("start_attach", idle, ("some", long)),
        call("start_discover", idle, long)], 13)
    yield ends("An id over 16 bytes gives refusal 14", b"\x01\x00", [ok(SELECT, bytes(17))], 14)
    deselected = Player(paper).play(["02", "00" + ok(SELECT, bytes(17)).hex()])
    yield equal("except in a deselect, whose record is ignored",
                (deselected[0][1:], ["@ 0000001d", "= 00000000", "s 00000001 "]))
    yield ends("the 17th in a row for one offset gives 17", b"\x08\x01", [
        ok(INFO, info()), ok(ERASE), *[frame(WRITE, CRC_MISMATCH, b"")] * 17], 17)
    yield ends("under two bytes is 18", b"\x08", [ok(INFO, info()), ok(ERASE), ok(VERIFY, b"\x01")], 18)
    yield ends("capacity rounded up to erase_size is above 2^32 - 1", b"\x07", [ok(INFO, info(0xFFFFFFFF, 2))], 19)
    yield equal("0, e, 2e... below capacity",
                *((of("Answers.below", 2, c, 3), wanted) for c, wanted in ((3, []), (4, [3]), (8, [3, 5, 7]))))
    first = paper["Flash.prepare"](1 << 32)
    stop = apply(force(first[2]), {"reply": ("Answers.ok", listed(list(info()))), "image": NIL})
    yield equal("lengths from 2^32 on report 4,294,967,295", (plain(stop), ("Talk.stop", 3, [0xFFFFFFFF, 4])))
    checked = frame(1, 2, b"abc", flags=3, address=0x87654321)
    fields = {"command": 1, "status": 2, "flags": 3, "address": 0x87654321, "payload": list(b"abc")}
    short = (bytes(30), checked[:9], checked[:8] + b"\x00\x04", checked[:14])

    def read(data):
        return of("Frame.read", listed(list(data)))

    yield equal("No A5, or fewer than 10 bytes from it: short. Then a length over 1,024: too long. Then bytes missing: "
                "short", *((read(data), ("Frame.short",)) for data in short),
                (read(checked[:8] + b"\x01\x04"), ("Frame.too_long",)))
    yield equal("A wrong check: bad check, fields still read. Else whole",
                (read(b"\0\0" + checked + b"\0"), ("Frame.whole", 2, fields)),
                (read(checked[:-1] + b"\0"), ("Frame.bad_check", 0, fields)))
    old = frame(1, 2, b"abc", flags=3, address=0x87654321, check_of=check)
    yield equal("the check covers bytes 1 up to the end of the payload",
                (of("Frame.frame_bytes", {**fields, "payload": listed(fields["payload"])}), list(checked)),
                (read(old), ("Frame.bad_check", 0, fields)))
    ids = [[1, 0], [1], [], [0, 2], [1, 0, 0]]
    yield equal("sort by bytes, a shorter id before one that it begins",
                (of("Walk.sort", listed([listed(i) for i in ids])), sorted(ids)))
    yield equal("Writing an id's text gives 13, then 16, with nothing written",
                (of("Text.uid_hex", long, 0), ("Text.refuses13",)),
                (of("Text.uid_hex", listed([0]), 1), ("Text.refuses16", 2)))
    yield equal("The Rust also takes \"+f\"", (of("Text.parse_uid", listed(list(b"+f"))), ("none",)))
    yield equal("answer (1 byte, 00 for success), count of those ids (1), Selects handed out (2, high first)",
                *((bytes(of("Log.last_line", 0, 3, k)), b"0003%04x\n" % k) for k in (255, 256, 33412)))

    def pods(size, ids):
        return of("Count.Pods", size, listed([listed(i) for i in ids]))

    others = (1, [[i] for i in range(65)]), (1, [[1], [2], [1]]), (1, [[1], []]), (1, [[256]]), (17, [[0] * 17])
    yield equal("distinct and of equal length", (pods(1, [[i] for i in range(64)]), True),
                (pods(16, [[255] * 16]), True), *((pods(*given), False) for given in others))
    yield equal("ends after at most 132 + 260 × (128 − p) Selects",
                *((of("Count.limit", listed([True] * p)), wanted) for p, wanted in ((0, 33412), (128, 132))))


HEAD = """# What the examples take of the paper's definitions

Written by `tests/definitions.py --table`, which runs the text of `crates/paper/specs` on the Rust's stored answers
(`tests/oracle`) and on other examples: the stored logs (`tests/logs`), and cases beside sentences of documents 01 and
02 where they go beyond the Rust. Each answer is compared. A branch is a clause, an arm of a choice (`cond`,
`refuse_if`, `on_some`, `on_reading`, `on_left`, `unless_echo`), or a way that `&&` or `||` comes out; it counts where
its value is wanted, and once for an example.

`sum_under` is run as it stands to a depth of 9; above, its sum leaves out what extends a prefix that at most one id
matches, which adds 0.

{} definitions with {} branches; {} answers of the Rust take {} of them, {} other examples the other {}, and no
call can take {}."""


class Tally:
    """For each branch: how many of the Rust's answers take it, how many others, and the first."""

    def __init__(self, paper):
        self.paper, self.faults, self.examples = paper, [], [0, 0]
        self.counts, self.first = [[0, 0] for _ in paper.branches], [""] * len(paper.branches)

    def add(self, other, name):
        self.examples[other] += 1
        for b in self.paper.taken:
            self.counts[b][other] += 1
            self.first[b] = self.first[b] or name
        self.paper.taken.clear()

    def compare(self, name, what, got, wanted):
        if got != wanted:
            if isinstance(got, list) and isinstance(wanted, list):
                at = next((i for i, (a, b) in enumerate(zip(got, wanted)) if a != b), min(len(got), len(wanted)))
                got, wanted, what = got[at:at + 1], wanted[at:at + 1], f"{what}, line {at + 1}"
            self.faults.append(f"{name}: {what}: the definitions give {got}, and not {wanted}")

    def all(self):
        for other, examples in ((0, of_the_rust), (1, of_logs)):
            name = None
            for item in self.guarded(examples(self.paper), lambda: name):
                if isinstance(item, str):
                    if name:
                        self.add(other, name)
                    name = item
                else:
                    self.compare(name, *item)
            self.add(other, name)
        for name, *pairs in self.guarded(of_the_paper(self.paper), lambda: "document 01"):
            for pair in pairs:
                self.compare(name, *pair)
            self.add(1, name)

    def guarded(self, examples, name):
        try:
            yield from examples
        except (AssertionError, KeyError, TypeError, ValueError, IndexError) as e:
            self.faults.append(f"{name()}: the definitions give no answer of the kind: {e!r}")

    def untaken(self):
        """The branches that no example takes must be those that are said to be out of reach."""
        left = dict(UNREACHED)
        for b, counts in zip(self.paper.branches, self.counts):
            file = b.definition.split(".")[0]
            if not any(counts) and left.pop(f"{file}.{b.text}", None) is None:
                where = f"{self.paper.path_of(file)}:{b.line}"
                yield f"{where}: no example takes a branch of {b.definition}: {b.text}"
        for branch in left:
            yield f"{branch} is said to be out of reach, and is taken or is not there"

    def table(self):
        branches, definitions = len(self.counts), len({b.definition for b in self.paper.branches})
        rust = sum(1 for c in self.counts if c[0])
        rows = [HEAD.format(definitions, branches, self.examples[0], rust, self.examples[1],
                            branches - rust - len(UNREACHED), len(UNREACHED))]
        file = definition = None
        for b, (rust, others), first in zip(self.paper.branches, self.counts, self.first):
            name, own = b.definition.split(".", 1)
            if name != file:
                rows += ["", f"## {name}", "", "| definition | branch | the Rust's | others | first |",
                         "|---|---|---|---|---|"]
            first = first or "none: " + UNREACHED.get(f"{name}.{b.text}", "")
            text = b.text.replace("|", "\\|")
            named = f"`{own}`" if b.definition != definition else ""
            rows.append(f"| {named} | `{text}` | {rust} | {others} | {first} |")
            file, definition = name, b.definition
        return "\n".join(rows) + "\n"


def tallied():
    """Every example run and compared."""
    paper = Paper(root / "crates/paper/specs")
    shorten(paper)
    tally = Tally(paper)
    tally.all()
    tally.faults += [] if tally.faults else list(tally.untaken())
    return tally


def generated():
    tally = deep(tallied)
    if tally.faults:
        raise Faults(*(fault[:2000] for fault in tally.faults))
    return {root / "docs/COVERAGE.md": tally.table()}


def main(words):
    if words == ["--table"]:
        return project.write_or_compare(generated(), False, "")
    if words:
        raise Faults(__doc__)
    tally = deep(tallied)
    faults = [fault[:2000] for fault in tally.faults]
    summary = (f"{tally.examples[0]} answers of the Rust and {tally.examples[1]} other examples, "
               f"{len(tally.paper.branches)} branches, {len(faults)} faults")
    return project.finish(faults, summary, tally.examples[0])


if __name__ == "__main__":
    project.run(main)
