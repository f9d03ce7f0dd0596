#!/usr/bin/env python3
"""Writes crates/lapscheck/stdin and crates/lapscheck/stdout.

The answers are worked out here apart from the program: FCS-32 by zlib, FCS-16 (CRC-16/X-25) bit by bit, the scrambler
x^43 + 1 over a list of bits. Run it from the repository's top; with --check it only says whether the files are as it
would write them.
"""
import sys
import zlib

NAMES = "code,octets,fcs16,fcs32,line,back"
REFUSED = "?,,,,,"
MOST = 4096


def fcs16(octets):
    register = 0xFFFF
    for octet in octets:
        for place in range(8):
            feedback = (register ^ (octet >> place)) & 1
            register >>= 1
            if feedback:
                register ^= 0x8408
    return (register ^ 0xFFFF).to_bytes(2, "little")


def fcs32(octets):
    return zlib.crc32(octets).to_bytes(4, "little")


def straight(octets):
    return octets


def mirrored(octets):
    return bytes(int(f"{octet:08b}"[::-1], 2) for octet in octets)


def bits(octets):
    return [octet >> place & 1 for octet in octets for place in range(7, -1, -1)]


def packed(line):
    return bytes(int("".join(map(str, line[i : i + 8])), 2) for i in range(0, len(line), 8))


def scrambler(octets):
    line = [0] * 43
    for bit in bits(octets):
        line.append(bit ^ line[-43])
    return packed(line[43:])


def descrambled(octets):
    line = [0] * 43 + bits(octets)
    return packed([line[i] ^ line[i - 43] for i in range(43, len(line))])


def pile(octets):
    return mirrored(scrambler(octets))


CODES = {
    "straight": (straight, straight),
    "mirrored": (mirrored, mirrored),
    "scrambler": (scrambler, descrambled),
    "pile": (pile, lambda line: descrambled(mirrored(line))),
}


def answer(line):
    name, space, digits = line.partition(" ")
    if not space or name not in CODES or len(digits) % 2:
        return REFUSED
    if any(digit not in "0123456789abcdef" for digit in digits):
        return REFUSED
    octets = bytes.fromhex(digits)
    if len(octets) > MOST:
        return REFUSED
    send, receive = CODES[name]
    sent = send(octets)
    back = receive(sent)
    assert back == octets
    fields = [octets, fcs16(octets), fcs32(octets), sent, back]
    return ",".join([name] + [field.hex() for field in fields])


def requests():
    """The lines of the input; the last has no newline."""
    vectors = [
        b"",
        b"123456789",
        b"\x00",
        b"\xff",
        b"\x7e",
        bytes.fromhex("7e04"),
        bytes.fromhex("ff03c021"),
        bytes.fromhex("7e04030021" "7d5e7ddd7d7e"),
        bytes.fromhex("7e04030021" "729efdbd7950"),
        bytes(range(256)),
        bytes(40),
    ]
    for octets in vectors:
        for name in CODES:
            yield f"{name} {octets.hex()}"
    yield "scrambler " + bytes(i * 7 % 251 for i in range(1600)).hex()
    # the longest requests, and one octet more
    for name in ["pile", "scrambler"]:
        yield f"{name} " + bytes(i % 256 for i in range(MOST)).hex()
        yield f"{name} " + bytes(i % 256 for i in range(MOST + 1)).hex()
    # no request
    yield ""
    yield " "
    yield "straight"
    yield "straight7e04"
    yield "straight  7e04"
    yield " straight 7e04"
    yield "straight 7e04 "
    yield "straight 7e04\r"
    yield "straight\t7e04"
    yield "Straight 7e04"
    yield "straigh 7e04"
    yield "straights 7e04"
    yield "plain 7e04"
    yield "7e04"
    yield "straight 7e0"
    yield "straight 7"
    yield "straight 7E04"
    yield "straight 7g04"
    yield "straight 7/04"
    yield "straight 7:04"
    yield "straight 7`04"
    yield "straight 0x7e"
    yield "straight 7e,04"
    yield "mirrored 7e 04"
    yield "scrambler -1"
    yield "pile ?"
    yield "pile \u00e9\u00e9"
    yield "straight " + "0" * 8193
    yield "scrambler " + "0" * 8193
    yield "pile " + "00" * 6000
    yield "x" * 20000
    # a request again, so that a long line has left nothing behind
    yield "pile 7e04"
    # not ended by a newline
    yield "straight 7e04"


def files():
    lines = list(requests())
    rows = [NAMES] + [answer(line) for line in lines[:-1]] + [REFUSED]
    return {
        "crates/lapscheck/stdin": "\n".join(lines).encode(),
        "crates/lapscheck/stdout": ("\n".join(rows) + "\n").encode(),
    }


def main():
    assert fcs16(b"123456789").hex() == "6e90"
    assert fcs32(b"123456789").hex() == "2639f4cb"
    assert scrambler(bytes.fromhex("7e040300217d5e7ddd7d7e")).hex() == "7e04030021729efdbd7950"
    good = True
    for path, content in files().items():
        if "--check" in sys.argv:
            with open(path, "rb") as file:
                good = good and file.read() == content
        else:
            with open(path, "wb") as file:
                file.write(content)
    if not good:
        sys.exit("the files are not those that this script writes")


if __name__ == "__main__":
    main()
