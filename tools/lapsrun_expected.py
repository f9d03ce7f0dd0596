#!/usr/bin/env python3
"""The listing that lapsrun has to write for a script, by a model of its own.

    lapsrun_expected.py SCRIPT...      writes the listing of each script to standard output
    lapsrun_expected.py --self-test    holds the model to figures that are known from elsewhere

The model works on single bits and on whole frames and takes its check octets from zlib, so that it shares no method
with the program.
"""
import re
import sys
import zlib

FLAG, ESCAPE, ADAPT = 0x7E, 0x7D, 0xDD
SERVED = {0x0021, 0x0057, 0xFE01}
LONGEST, STRETCH, DELIVERY, SCRIPT = 1600, 8192, 1600, 16384
NAMES = "call,answer,line,report,number,sapi,count"
UNFIT = "?,31,,-,-,-,-"


def fcs32(octets):
    """The check octets that are owed, least octet first."""
    return zlib.crc32(bytes(octets)).to_bytes(4, "little")


def stuff(octets):
    out = bytearray()
    for o in octets:
        out += {FLAG: b"\x7d\x5e", ESCAPE: b"\x7d\x5d"}.get(o, bytes([o]))
    return bytes(out)


class Scrambler:
    """x^43 + 1 from zeros, bit by bit, the bit worth 128 first; one direction of one line."""

    def __init__(self, register=None):
        self.line = list(register or [0] * 43)

    def pass_bits(self, octets, sending):
        out = bytearray()
        for o in octets:
            made = 0
            for k in range(7, -1, -1):
                given = o >> k & 1
                other = given ^ self.line[-43]
                self.line.append(other if sending else given)
                made = made << 1 | other
            out.append(made)
        self.line = self.line[-43:]
        return bytes(out)


class Sender:
    def __init__(self):
        self.code = Scrambler()
        self.frame = None  # octets from the address on, while a frame is open

    def call(self, letter, value):
        """None where the state does not allow the call, else (refusal or 0, line octets)."""
        if (letter in "ON") != (self.frame is None):
            return None
        after = self.frame
        if letter == "O":
            if value not in SERVED:
                return 2, b""
            after = b"\x04\x03" + value.to_bytes(2, "big")
            octets = bytes([FLAG]) + stuff(after)
        elif letter == "N":
            octets = bytes([FLAG]) * value
        elif letter == "I":
            if len(self.frame) - 4 + len(value) > LONGEST:
                return 3, b""
            after = self.frame + value
            octets = stuff(value)
        elif letter == "R":
            octets = bytes([ESCAPE, ADAPT]) * value
        else:
            after = None
            owed = fcs32(self.frame)
            if letter == "C":
                octets = stuff(owed) + bytes([FLAG])
            elif letter == "S":
                octets = stuff(bytes(255 - o for o in owed)) + bytes([FLAG])
            else:
                octets = bytes([ESCAPE, FLAG])
        if len(octets) > STRETCH:
            return 4, b""
        self.frame = after
        return 0, self.code.pass_bits(octets, True)


class Receiver:
    """Keeps the raw octets since the last flag, and reads them once a flag ends them."""

    def __init__(self):
        self.code = Scrambler()
        self.raw = None  # hunting

    def hear(self, octets):
        reports = []
        for o in self.code.pass_bits(octets, False):
            if o != FLAG:
                if self.raw is not None:
                    self.raw.append(o)
                continue
            if self.raw is not None:
                report = self.read(bytes(self.raw))
                if report:
                    reports.append(report)
            self.raw = bytearray()
        return reports

    @staticmethod
    def read(raw):
        """(letter, number, SAPI or None, count) of what lies between two flags, or None of nothing."""
        got, i, cause = bytearray(), 0, None
        while i < len(raw) and cause is None:
            if raw[i] != ESCAPE:
                o, step = raw[i], 1
            elif i + 1 == len(raw):
                cause = 11
                break
            else:
                o, step = {0x5D: ESCAPE, 0x5E: FLAG, ADAPT: None}.get(raw[i + 1], -1), 2
            if o == -1:
                cause = 12
            elif o is not None:
                if len(got) == 4 + LONGEST + 4:
                    cause = 13
                else:
                    got.append(o)
            i += step
        if cause is not None:
            return "F", cause, None, len(got)
        if not got:
            return None
        sapi = int.from_bytes(got[2:4], "big")
        for number, wrong in (
            (14, len(got) < 8),
            (15, fcs32(got[:-4]) != got[-4:]),
            (16, got[0] != 0x04),
            (17, got[1:2] != b"\x03"),
            (18, sapi not in SERVED),
            (19, len(got) - 8 > DELIVERY),
        ):
            if wrong:
                return "F", number, None, len(got)
        return "D", 0, sapi, len(got) - 8


def parse(line):
    """(letter, value) of a fit line without its end, else None."""
    if m := re.fullmatch(rb"O,([0-9a-f]{4})", line):
        return "O", int(m[1], 16)
    if m := re.fullmatch(rb"I,((?:[0-9a-f]{2})*)", line):
        return "I", bytes.fromhex(m[1].decode())
    if m := re.fullmatch(rb"([RN]),(0|[1-9][0-9]{0,4})", line):
        return (m[1].decode(), int(m[2])) if int(m[2]) <= 65535 else None
    if m := re.fullmatch(rb"([CXS]),", line):
        return m[1].decode(), None
    return None


def listing(script):
    rows = [NAMES]
    if len(script) > SCRIPT or not script.startswith(b"call,value\n"):
        return rows + [UNFIT]
    *lines, unended = script.split(b"\n")[1:]
    sender, receiver = Sender(), Receiver()
    for line in lines:
        fit = parse(line)
        done = fit and sender.call(*fit)
        if not done:
            rows.append(UNFIT)
            continue
        answer, octets = done
        reports = receiver.hear(octets)
        assert len(reports) <= 1
        fields = "-,-,-,-"
        for kind, number, sapi, count in reports:
            fields = f"{kind},{number},{'-' if sapi is None else f'{sapi:04x}'},{count}"
        rows.append(f"{fit[0]},{answer},{octets.hex()},{fields}")
    if unended:
        rows.append(UNFIT)
    return rows


def self_test():
    worked = b"call,value\nO,0021\nI,7e\nR,1\nX,\n"
    assert listing(worked) == [
        NAMES,
        "O,0,7e04030021,-,-,-,-",
        "I,0,729e,-,-,-,-",
        "R,0,fdbd,-,-,-,-",
        "X,0,7950,F,11,-,5",
    ]
    sent = bytes.fromhex("7e040300217d5e7ddd7d7e")
    line = bytes.fromhex("7e04030021729efdbd7950")
    assert Scrambler().pass_bits(sent, True) == line
    assert Scrambler().pass_bits(line, False) == sent
    assert Scrambler([1] * 43).pass_bits(line, False)[:7] == bytes.fromhex("81fbfcffde9d5e")
    assert fcs32(b"123456789") == bytes.fromhex("2639f4cb")
    assert fcs32(bytes.fromhex("0403002107")) == bytes.fromhex("737eec33")
    assert bytes(255 - o for o in fcs32(bytes.fromhex("0403002127"))) == bytes.fromhex("44a17df7")
    assert Receiver.read(b"\x7d") == ("F", 11, None, 0)
    assert Receiver.read(b"\x7d\x7d") == ("F", 12, None, 0)
    assert Receiver.read(b"\x7d\xdd") is None
    assert Receiver.read(bytes(7)) == ("F", 14, None, 7)
    assert Receiver.read(bytes(1609)) == ("F", 13, None, 1608)


if __name__ == "__main__":
    if sys.argv[1:] == ["--self-test"]:
        self_test()
    else:
        for name in sys.argv[1:]:
            with open(name, "rb") as file:
                sys.stdout.write("".join(row + "\n" for row in listing(file.read())))
