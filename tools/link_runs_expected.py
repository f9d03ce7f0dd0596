#!/usr/bin/env python3
"""What link_runs has to write, worked out apart from the program: frames by hand, line codes over lists of bits, FCS-32 by
zlib, FCS-16 bit by bit (the last three as in tools/lapscheck_expected.py). What is reported is what the calls entitle to.

    link_runs_expected.py > crates/link_runs/stdout
"""
from lapscheck_expected import bits, fcs16, fcs32, mirrored, packed

ROOM = 24


def stuff(octets):
    return b"".join({0x7E: b"\x7d\x5e", 0x7D: b"\x7d\x5d"}.get(o, bytes([o])) for o in octets)


def scrambled(octets, register):
    line = [register >> place & 1 for place in range(42, -1, -1)]
    for bit in bits(octets):
        line.append(bit ^ line[-43])
    return packed(line[43:])


def run(name, width, code):
    owed = {2: fcs16, 4: fcs32}[width]
    print(f"{name}, {width} check octets")
    text, answers, reports = b"", [], []

    def wrote(octets, report=None):
        nonlocal text
        assert len(octets) <= ROOM
        answers.append(str(len(octets)))
        text += octets
        if report:
            reports.append(f"at {len(text) - 1}: {report}")

    ip, ip6, mac = b"\x04\x03\x00\x21", b"\x04\x03\x00\x57", b"\x04\x03\xfe\x01"
    information = b"\x7e\x7d\xdd\x00\xff"
    wrote(b"\x7e" * 2)
    answers.append("refused:2")
    wrote(b"\x7e" + ip)
    wrote(bytes.fromhex("7d5e7d5ddd"))
    wrote(b"\x7d\xdd" * 3)
    answers.append("refused:4")  # 26 octets
    wrote(b"\x00\xff")
    answers.append("not-allowed")
    wrote(stuff(owed(ip + information)) + b"\x7e", f"0021 {information.hex()}")
    wrote(b"\x7e" + ip6)
    wrote(b"\x60")
    wrote(b"\x7d\x7e", "fault 11, 5")
    wrote(b"\x7e" + mac)
    wrote(stuff(bytes(255 - o for o in owed(mac))) + b"\x7e", f"fault 15, {4 + width}")
    print("answers", *answers)
    print("line", code(text).hex())
    print(*reports, sep="\n")


def main():
    kinds = {
        "straight": lambda octets: octets,
        "mirrored": mirrored,
        "two scramblers": lambda octets: scrambled(scrambled(octets, 1), 2),
        "two kinds that mean the same": lambda octets: scrambled(octets, 0x123456789AB),
    }
    for name, code in kinds.items():
        for width in (2, 4):
            run(name, width, code)
    print("straight, 4 check octets")
    print("refused:1")
    print("delivery of two octets: fault 19, 9, bbbb")


main()
