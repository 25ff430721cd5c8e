"""What crates/examples and crates/flash_example must print, computed without the Rattle crates.

python3 tests/vectors.py             writes it to their stdout files
python3 tests/vectors.py --compare   compares it with these files
"""
import struct

import project
from bench import ERASE, INFO, OK, REQUEST, SELECT, UNSUPPORTED, VERIFY, WRITE, check, frame


def example(name, command, status, payload, heard):
    return f"{name}: {frame(command, status, payload).hex()}\n  heard: {heard}\n"


def examples():
    return (
        f"check of 123456789: {check(b'123456789'):04x}\n"
        + example("Info request", INFO, REQUEST, b"", "nothing")
        + example("Select reply, Ok", SELECT, OK, b"abc", "one 616263")
        + example("Select reply, Ok, of the empty id", SELECT, OK, b"", "one ")
        + example("Select reply, Unsupported", SELECT, UNSUPPORTED, b"", "unaddressed")
        + example("Write of one byte, padded", WRITE, REQUEST, b"a\xff\xff\xff", "nothing")
        + example("reply of another status", SELECT, 7, b"", "garble")
    )


def flash():
    """An image of 5 bytes in a capacity of 6, erased by 4 and written by 4: it is accepted, though 8 bytes are sent."""
    image, capacity, erase_size, chunk = b"abcde", 6, 4, 4
    padded = image + b"\xff" * (-len(image) % 4)
    assert len(image) <= capacity < len(padded)
    lines = [frame(INFO, REQUEST, b"").hex()]
    for at in range(0, capacity, erase_size):
        lines.append(frame(ERASE, REQUEST, struct.pack("<H", erase_size), address=at).hex())
        lines.append(f"  done {at + erase_size} of {capacity}")
    for at in range(0, len(padded), chunk):
        last = at + chunk >= len(padded)
        lines.append(frame(WRITE, REQUEST, padded[at:at + chunk], flags=int(last), address=at).hex())
        lines.append(f"  done {at // chunk + 1} of {len(padded) // chunk}")
    lines.append(frame(VERIFY, REQUEST, b"", address=len(image)).hex())
    return "\n".join(lines) + "\nflashed: boot version 1\n"


def generated():
    printed = {"examples": examples(), "flash_example": flash()}
    return {project.root / "crates" / crate / "stdout": text for crate, text in printed.items()}


def main(words):
    if words not in ([], ["--compare"]):
        raise project.Faults(__doc__)
    return project.write_or_compare(generated(), bool(words), "python3 tests/vectors.py")


if __name__ == "__main__":
    project.run(main)
