#!/usr/bin/env python3
"""What lapshear has to list of a line, by the model that tools/lapsrun_expected.py has of a line and a receiver.

    lapshear_expected.py line          writes the octets of a line with frames of every kind, as hexadecimal digits
    lapshear_expected.py list WORD...  writes the listing of the line on standard input for these arguments

A line is taken apart at its flags as a whole; nothing here is fed in stretches.
"""
import re
import sys

from lapsrun_expected import FLAG, Receiver, Scrambler, fcs32, stuff

NAMES = "joined,stretch,place,report,number,sapi,count,information"


def frame(octets):
    return bytes([FLAG]) + stuff(octets + fcs32(octets)) + bytes([FLAG])


def line():
    """Frames that are good, and frames that no sender of this repository writes."""
    ip = b"\x04\x03\x00\x21"
    text = bytes.fromhex("017d5e")  # no flag before it: nobody hears it
    text += frame(ip + b"\x7e\x7d\xdd\x07")
    text += frame(b"\x04\x03\xfe\x01" + bytes(range(256)))
    text += bytes([FLAG]) * 3 + bytes.fromhex("7ddd7e")  # filling, and rate adaptation by itself
    text += bytes([FLAG]) + bytes.fromhex("04 03 7ddd 00 7ddd7ddd 57 aa") + stuff(fcs32(b"\x04\x03\x00\x57\xaa")) + bytes([FLAG])
    text += bytes.fromhex("7e 04030021 7d5e 7ddd 7d7e")  # broken off
    text += bytes.fromhex("7e 7d7e 7d7d7e 04030021 7d00 11 7e")  # a lone escape, and escapes that stand for nothing
    text += bytes.fromhex("7e 04030021 0000 00 7e")  # seven octets
    text += bytes([FLAG]) + ip + b"\x07" + stuff(bytes(255 - o for o in fcs32(ip + b"\x07"))) + bytes([FLAG])  # spoiled
    text += frame(b"\xff\x03\x00\x21\x01") + frame(b"\x04\x00\x00\x21\x01") + frame(b"\x04\x03\x00\x22\x01")
    text += frame(ip + bytes(1600)) + frame(ip + bytes(1601)) + frame(ip)
    text += bytes.fromhex("7e 04030021 aabb")  # not ended
    return Scrambler().pass_bits(text, True)


def information(raw):
    """A good frame's information, from the octets between its flags."""
    read = {b"\x7d\x5d": b"\x7d", b"\x7d\x5e": b"\x7e", b"\x7d\xdd": b""}
    return re.sub(rb"\x7d.", lambda pair: read[pair.group()], raw, flags=re.S)[4:-4]


def listing(octets, joined, stretch):
    joined = min(joined, len(octets))
    heard = Scrambler().pass_bits(octets[joined:], False)
    flags = [i for i, o in enumerate(heard) if o == FLAG]
    for begin, end in zip(flags, flags[1:]):
        raw = heard[begin + 1 : end]
        report = Receiver.read(raw)
        if report is None:
            continue
        letter, number, sapi, count = report
        if letter == "D":
            yield f"{joined},{stretch},{joined + end},D,0,{sapi:04x},{count},{information(raw).hex()}"
        else:
            yield f"{joined},{stretch},{joined + end},F,{number},-,{count},-"


def number(word):
    return int(word) if re.fullmatch(r"0|[1-9][0-9]*", word) and int(word) <= 65535 else None


def main():
    if sys.argv[1] == "line":
        print(line().hex())
        return
    print(NAMES)
    text = sys.stdin.read().strip()
    if not re.fullmatch(r"(?:[0-9a-f]{2})*", text):
        print("?,,,,,,,")
        return
    octets, joined = bytes.fromhex(text), None
    for word in sys.argv[2:]:
        n = number(word)
        if n is None:
            print("?,,,,,,,")
            joined = None
        elif joined is None:
            joined = n
        else:
            for row in listing(octets, joined, n):
                print(row)
            joined = None


main()
