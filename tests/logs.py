"""Bench logs, and what the program bench_log must print for them, by an implementation of documents 01 and 02 that
shares no code with the Rattle crates.

python3 tests/logs.py --make      writes tests/logs/NAME.in and NAME.out, and one of them to crates/bench_log, where
                                  `rt ci` runs the program on it
python3 tests/logs.py --compare   runs the program, which `rt ci` has built, on each log, and on one too long to be
                                  stored; compares what it prints, and the stored logs, with what is computed here
"""
import struct
import subprocess

import project
from bench import OK, REQUEST, SELECT, UNSUPPORTED, bits_of, check, frame, frame_check
from project import root

folder = root / "tests/logs"
crate, given = root / "crates/bench_log", "three_ids"


# Hearing.

def hear(record):
    """What a Select hears: ('nothing',), ('one', id), ('unaddressed',) or ('garble',)."""
    at, replies = 0, []
    while at < len(record):
        if record[at] != 0xA5 or len(record) - at < 10:
            return ("garble",)
        n = struct.unpack_from("<H", record, at + 8)[0]
        if n > 1024 or len(record) - at < 12 + n:
            return ("garble",)
        body = record[at:at + 10 + n]
        if struct.unpack_from("<H", record, at + 10 + n)[0] != frame_check(body):
            return ("garble",)
        if body[2] != REQUEST:
            replies.append((body[2], body[10:]))
        at += 12 + n
    if not replies:
        return ("nothing",)
    if len(replies) == 1 and replies[0][0] == OK:
        return ("one", replies[0][1])
    if len(replies) == 1 and replies[0][0] == UNSUPPORTED:
        return ("unaddressed",)
    return ("garble",)


# The discovery, as a generator: it yields the bits that it selects, and is sent what is heard.

class Stop(Exception):
    pass


def select(bits):
    heard = yield bits
    if heard[0] == "one" and len(heard[1]) > 16:
        raise Stop(14)
    return heard


def confirm(prefix, ident):
    bits = bits_of(ident)
    if bits[:len(prefix)] != prefix:
        return False
    if len(bits) == len(prefix):
        return True
    following = bits[len(prefix)]
    mine = yield from select(prefix + [following])
    other = yield from select(prefix + [1 - following])
    return mine == ("one", ident) and other == ("nothing",)


def walk(prefix, ids, heard):
    if heard[0] == "nothing":
        return
    if heard[0] == "unaddressed":
        raise Stop(23)
    if heard[0] == "one" and (yield from confirm(prefix, heard[1])):
        if len(ids) == 64:
            raise Stop(15)
        ids.append(heard[1])
        return
    if len(prefix) >= 128:
        raise Stop(12)
    zeros = yield from select(prefix + [0])
    yield from walk(prefix + [0], ids, zeros)
    ones = ("garble",) if zeros == ("nothing",) else (yield from select(prefix + [1]))
    yield from walk(prefix + [1], ids, ones)


def discover(prefix):
    ids = []
    heard = yield from select(bits_of(prefix))
    yield from walk(bits_of(prefix), ids, heard)
    yield [0] * 129
    return sorted(ids)


# The bench log program.

def unhex(line):
    if len(line) % 2 or any(c not in b"0123456789abcdefABCDEF" for c in line):
        raise Stop(22)
    return bytes.fromhex(line.decode())


def records(lines):
    """The record of each Select; Stop(1) or Stop(22) where there is none."""
    joined = b""
    for line in lines:
        if line == b"":
            yield joined
            joined = b""
        else:
            joined += unhex(line)
            if len(joined) > 4096:
                raise Stop(22)
    raise Stop(1)


def output(data):
    lines = data.split(b"\n")
    if lines[-1] == b"":
        lines.pop()
    selects, ids, answer = 0, [], 0
    try:
        if not lines:
            raise Stop(22)
        first = unhex(lines[0])
        if first[:1] != b"\x01":
            raise Stop(22)
        if len(first) > 17:
            raise Stop(13)
        heard, talk, rest = None, discover(first[1:]), records(lines[1:])
        while True:
            try:
                talk.send(heard)
            except StopIteration as end:
                ids = end.value
                break
            selects += 1
            heard = hear(next(rest))
    except Stop as stop:
        answer = stop.args[0]
    text = "".join(i.hex() + "\n" for i in ids)
    return (text + bytes([answer, len(ids), selects >> 8, selects & 255]).hex() + "\n").encode()


# Logs of pods that answer honestly, and of wires that do not.

def log(prefix, wire):
    """The log of a discovery over a wire: a function from a Select's number and bits to a list of frames or other
    bytes."""
    lines, heard, talk, k = [b"01" + prefix.hex().encode()], None, discover(prefix), 0
    try:
        while True:
            bits = talk.send(heard)
            pieces = wire(k, bits)
            lines += [p.hex().encode() for p in pieces if p] + [b""]
            heard, k = hear(b"".join(pieces)), k + 1
    except (StopIteration, Stop):
        return b"\n".join(lines) + b"\n"


def reply(ident):
    return frame(SELECT, OK, ident)


def pods(*idents, echo=False):
    def wire(k, bits):
        own = [frame(SELECT, REQUEST, bytes([(k + 1) % 256, len(bits)]))] if echo else []
        matching = [i for i in idents if bits_of(i)[:len(bits)] == bits]
        if len(matching) == 1:
            return own + [reply(matching[0])]
        return own + ([b"\xff\x00\xff"] if matching else [])
    return wire


def always(*pieces):
    return lambda k, bits: list(pieces)


def many(n, size):
    return [(i * 2654435761 % 2 ** 32).to_bytes(4, "little").ljust(size, b"\x5a") for i in range(n)]


def logs():
    three = [b"\x01\x02\x03", b"\x01\x02\x83", b"\x80\x00\x01"]
    found = log(b"", pods(*three))
    yield "three_ids", found
    yield "three_ids_with_echoes", log(b"", pods(*three, echo=True))
    yield "upper_case", found.upper()
    yield "no_last_lf", b"01\n\nA5"
    yield "crlf", found.replace(b"\n", b"\r\n")
    yield "two_ids_00_01", log(b"", pods(b"\x00", b"\x01"))
    yield "two_ids_01_03", log(b"", pods(b"\x01", b"\x03"))
    yield "two_ids_7f_ff", log(b"", pods(b"\x7f", b"\xff"))
    yield "prefix_00_of_00_01", log(b"\x00", pods(b"\x00", b"\x01"))
    yield "the_empty_id", log(b"", pods(b""))
    yield "no_pods", b"01\n\n\n"
    yield "prefix_of_16_bytes", log(bytes(range(16)), pods(bytes(range(16))))
    yield "prefix_of_17_bytes", b"01" + b"00" * 17 + b"\n\n\n"
    yield "prefix_of_5000_bytes", b"01" + b"00" * 5000 + b"\n"
    yield "prefix_of_17_bytes_with_a_bad_digit", b"01" + b"00" * 17 + b"g0\n"
    yield "prefix_of_17_bytes_and_a_half", b"01" + b"00" * 17 + b"0\n"
    yield "prefix_of_5000_bytes_without_lf", b"01" + b"00" * 5000
    yield "prefix_of_5000_bytes_with_a_bad_digit", b"01" + b"00" * 5000 + b"g0\n"
    yield "prefix_of_5000_bytes_and_a_half", b"01" + b"00" * 5000 + b"0"
    yield "first_line_02_of_5000_bytes", b"02" + b"00" * 5000 + b"\n"
    yield "prefix_in_upper_case", b"01AB\n\n\n"
    yield "the_last_record_missing", found[:-1]
    yield "sixty_four_ids", log(b"", pods(*many(64, 16)))
    yield "sixty_five_ids", log(b"", pods(*many(65, 16)))
    yield "garble_down_to_128_bits", log(b"", always(b"\x00"))
    yield "an_id_and_one_that_it_begins", log(b"", pods(b"\x00", b"\x00\xff"))
    yield "the_shorter_id_lost", log(b"", pods(b"\x00", b"\x00\x00"))
    yield "unaddressed", log(b"", always(frame(SELECT, UNSUPPORTED, b"")))
    yield "an_id_of_17_bytes", log(b"", always(reply(bytes(17))))
    yield "an_id_of_17_bytes_with_noise", log(b"", always(reply(bytes(17)), b"\x00"))
    yield "a_reply_with_the_old_check", b"01\n" + frame(SELECT, OK, b"", check_of=check).hex().encode() + b"\n\n"
    yield "two_clean_replies", log(b"\x00" * 16, always(reply(b"\x01"), reply(b"\x02")))
    yield "a_long_frame", log(b"\x00" * 16, always(frame(SELECT, OK, bytes(1024))))
    yield "empty_input", b""
    yield "an_empty_first_line", b"\n01\n"
    yield "first_line_02", b"02\n\n\n"
    yield "first_line_odd", b"010\n\n\n"
    yield "first_line_bad", b"01x0\n\n\n"
    yield "first_line_alone", b"01"
    yield "first_line_alone_with_lf", b"01\n"
    yield "record_missing", b"01\n\n"
    yield "record_without_its_end", b"01\na5\n"
    yield "second_record_bad", b"01\n\nxx"
    yield "record_odd", b"01\na50\n\n"
    yield "record_odd_at_the_end", b"01\n\na"
    yield "record_bad_then_missing", b"01\nzz\n"
    yield "a_line_with_a_space", b"01\na5 00\n\n"
    yield "record_of_4096_bytes", b"01\n" + b"00" * 4096 + b"\n\n\n"
    yield "record_of_4097_bytes", b"01\n" + b"00" * 4097 + b"\n\n\n"
    yield "record_of_4096_bytes_in_lines", b"01\n" + (b"00" * 64 + b"\n") * 64 + b"\n\n"
    yield "record_of_4097_bytes_in_lines", b"01\n" + (b"00" * 64 + b"\n") * 64 + b"00\n\n\n"
    yield "record_of_4097_bytes_without_lf", b"01\n" + b"00" * 4097
    yield "record_over_and_odd", b"01\n" + b"00" * 4097 + b"0\n\n"
    yield "lines_after_the_end", b"01\n\n\nzz\n01\nnothing of this is read\n"


def long_log():
    """A log of over 31,000 Selects: 64 ids that part in their first six bits, each made to fail its confirmation down
    to its last bit."""
    idents = [bytes([i]) + bytes(15) for i in range(64)]
    spelt, asked = [(bits_of(i), reply(i)) for i in idents], set()

    def wire(k, bits):
        matching = [answer for own, answer in spelt if own[:len(bits)] == bits]
        if len(matching) == 1:
            return matching
        if not matching and tuple(bits) in asked:
            return []
        asked.add(tuple(bits))
        return [b"\x00"]
    return log(b"", wire)


# The stored logs, and the program.

def generated():
    """The stored logs; any other file in their folder should not be there."""
    files = {path: None for path in folder.iterdir()} if folder.exists() else {}
    for name, data in logs():
        files[folder / f"{name}.in"], files[folder / f"{name}.out"] = data, output(data)
        if name == given:
            files[crate / "stdin"], files[crate / "stdout"] = data, output(data)
    assert crate / "stdin" in files
    return files


def faults_of_run(program, name, data):
    """What is wrong with what the program prints for a log."""
    done, wanted = subprocess.run([program], input=data, stdout=subprocess.PIPE), output(data)
    if done.returncode != 0:
        yield f"{name}: the program ended with status {done.returncode}"
    if done.stdout != wanted:
        yield f"{name}: the program wrote {done.stdout[:80]!r}, and not {wanted[:80]!r}"


def main(words):
    if words == ["--make"]:
        return project.write_or_compare(generated(), False, "")
    if words != ["--compare"]:
        raise project.Faults(__doc__)
    program = project.program("bench_log")
    assert output(b"01\n\n\n") == b"00000002\n"
    every, data = list(logs()), long_log()
    stored = project.differing(generated())
    faults = [f"{project.name_of(path)} differs: python3 tests/logs.py --make writes it" for path in stored]
    for name, log_data in [*every, ("the long log", data)]:
        faults += faults_of_run(program, name, log_data)
    end = output(data)[-9:].decode().strip()
    return project.finish(faults, f"{len(every) + 1} logs, {len(faults)} faults; the long log has {len(data):,} bytes "
                          f"and ends {end}", every)


if __name__ == "__main__":
    project.run(main)
