#!/usr/bin/env python3
"""What a recording and a debugger's own log show of the debug module interface, found by ways of their own: nothing here is taken from the program or its definitions.

    operations.py wire STREAM ANSWERS      by pins and clocks: the TAP's diagram of IEEE 1149.1 as pairs of next states
    operations.py openocd LOG              by the scans that OpenOCD logs at its debug level 3
    operations.py sniffed LINES            the lines `dmi read` and `dmi write` of `./jtag sniff`

Each prints an operation a line: `r AA` or `w AA VVVVVVVV`, where the scan was not answered busy or failed.
"""

import re
import sys

# Where TMS 0 and TMS 1 lead from each state.
NEXT = {
    "reset": ("idle", "reset"),
    "idle": ("idle", "select-dr"),
    "select-dr": ("capture-dr", "select-ir"),
    "capture-dr": ("shift-dr", "exit1-dr"),
    "shift-dr": ("shift-dr", "exit1-dr"),
    "exit1-dr": ("pause-dr", "update-dr"),
    "pause-dr": ("pause-dr", "exit2-dr"),
    "exit2-dr": ("shift-dr", "update-dr"),
    "update-dr": ("idle", "select-dr"),
    "select-ir": ("capture-ir", "reset"),
    "capture-ir": ("shift-ir", "exit1-ir"),
    "shift-ir": ("shift-ir", "exit1-ir"),
    "exit1-ir": ("pause-ir", "update-ir"),
    "pause-ir": ("pause-ir", "exit2-ir"),
    "exit2-ir": ("shift-ir", "update-ir"),
    "update-ir": ("idle", "select-dr"),
}
DMI = 0x11
IDCODE = 0x01
WIDTH = 41


def operation(word):
    """The operation that these 41 bits ask for: address, data, op, from the highest."""
    kind, data, place = word & 3, word >> 2 & 0xFFFFFFFF, word >> 34
    return {1: f"r {place:02x}", 2: f"w {place:02x} {data:08x}"}.get(kind)


def of_wire(stream, answers):
    """The operations of a recording, from whole scans: the bits of TDI, and beside each the answer that was asked for in its low phase."""
    state, code, clock, held = "reset", IDCODE, 0, False
    bits, seen, asked = [], [], None
    answers = iter(answers.decode())
    for sign in stream.split(b"Q")[0].decode():
        if sign == "R":
            asked = next(answers)
        elif sign in "rstu":
            held = sign in "tu"
        elif sign in "01234567":
            pins = int(sign)
            rises, falls = not clock and pins & 4, clock and not pins & 4
            clock = pins & 4
            if rises and not held:
                if state in ("shift-dr", "shift-ir"):
                    bits.append(pins & 1)
                    seen.append(asked)
                state = NEXT[state][bool(pins & 2)]
                if state.startswith("capture"):
                    bits, seen = [], []
            elif falls:
                asked = None
                if state == "update-ir":
                    # What was captured, 1 and four zeros, moves out ahead of the given bits.
                    code = sum(bit << place for place, bit in enumerate(([1, 0, 0, 0, 0] + bits)[-5:]))
                elif state == "update-dr" and code == DMI and len(bits) == WIDTH and seen[:2] == ["0", "0"]:
                    found = operation(sum(bit << place for place, bit in enumerate(bits)))
                    if found:
                        yield found
        if held:
            state = "reset"
        if state == "reset":
            code = IDCODE


# `41b w 00000001 @10 -> + 00000000 @00`: op, data and address that were given, and the status that was captured.
SCAN = re.compile(r"\b41b ([rw]) ([0-9a-f]{8}) @([0-9a-f]{2,}) -> ([+bF?]) ")


def of_log(text):
    for kind, data, place, status in SCAN.findall(text):
        if status == "+":
            yield f"r {int(place, 16):02x}" if kind == "r" else f"w {int(place, 16):02x} {data}"


def of_lines(text):
    for kind, place, data in re.findall(r"^dmi (read|write) 0x(..)(?: 0x(.{8}))?$", text, re.M):
        yield f"r {place}" if kind == "read" else f"w {place} {data}"


def main():
    kind, names = sys.argv[1], sys.argv[2:]
    files = []
    for name in names:
        with open(name, "rb") as file:
            files.append(file.read())
    if kind == "wire":
        found = of_wire(*files)
    else:
        found = {"openocd": of_log, "sniffed": of_lines}[kind](files[0].decode(errors="replace"))
    for line in found:
        print(line)


if __name__ == "__main__":
    main()
