#!/usr/bin/env python3
"""Writes the test data `crates/rv_tests/src/hart/reference/run.rt`: a program of random instructions and software interrupts, and what QEMU makes of it."""

import sys

from program import MASK, handler, program
from qemu import states

SEED, COUNT, EVERY = 2026, 1280, 100


def fold(sum, state):
    """The fold of all that a state holds into one number, after those before it."""
    parts = [state["pc"], *(state[f"x{r}"] for r in range(1, 31)), state["mscratch"], state["mcause"], state["mepc"]]
    for part in parts:
        sum = (sum ^ part) * 0x100000001B3 & MASK
        sum ^= sum >> 32
    return sum


def folds(seen):
    """The sums of the states in front of every so many instructions, and of all. An interrupt is no instruction: it is taken in front of one."""
    sum, sums = 0, []
    for place, state in enumerate(seen[:-1], 1):
        sum = fold(sum, state)
        if place % EVERY == 0 or place == len(seen) - 1:
            sums.append(sum)
    return sums


def table(comment, name, kind, digits, numbers):
    lines = "".join(f"    {n:#0{digits + 2}x},\n" for n in numbers)
    return f"/// {comment}\npub static {name}: [{kind}; {len(numbers)}] = [\n{lines}];\n"


def main(seed, count):
    words = program(seed, count)
    seen = states(words)
    print("//! Data that `tools/reference_run` wrote: a program, and sums of what QEMU's hart held in front of its instructions.\n")
    print(table("The program.", "PROGRAM", "u32", 8, words))
    print(table("What it calls at a trap or an interrupt.", "TRAP_HANDLER", "u32", 8, handler()))
    print(f"/// How many instructions are executed until the program ends.\npub const EXECUTED: u32 = {len(seen) - 1};\n")
    print(table(f"The sums of the states in front of every {EVERY} of them, and of all.", "SUMS", "u64", 16, folds(seen)))


if __name__ == "__main__":
    main(*(int(word) for word in sys.argv[1:]) if len(sys.argv) == 3 else (SEED, COUNT))
