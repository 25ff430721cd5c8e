"""The bench frame in Python, for the scripts in this folder: written from documents 01 and 02, with no Rattle code of
this project. It is imported, and does nothing when it is run.
"""
import binascii
import struct

INFO, ERASE, WRITE, VERIFY, RESET, SELECT = range(6)  # commands
REQUEST, OK, UNSUPPORTED, CRC_MISMATCH = range(4)  # statuses


def check(data):
    """The check of a frame or an image, CRC-16/IBM-3740: polynomial 1021, from FFFF on, no reflection, no final
    change."""
    return binascii.crc_hqx(data, 0xFFFF)


def frame_check(body):
    """The check of a frame whose bytes up to the end of its payload are given: it "covers bytes 1 up to the end of the
    payload"."""
    return check(body[1:])


def frame(command, status, payload, flags=0, address=0, check_of=frame_check):
    """A whole frame: its head of ten bytes, its payload and its check."""
    body = struct.pack("<BBBBIH", 0xA5, command, status, flags, address, len(payload)) + payload
    return body + struct.pack("<H", check_of(body))


def bits_of(data):
    """The bits of some bytes, the lowest of each byte first."""
    return [bool(byte >> k & 1) for byte in data for k in range(8)]


assert check(b"123456789") == 0x29B1  # the value that the catalogue of CRCs has for CRC-16/IBM-3740
assert frame(SELECT, OK, b"").hex() == "a50501000000000000006d28"  # with A5 in the check it would end 6fce
