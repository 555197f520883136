"""Runs a program on QEMU's machine `virt`, and reads the hart's registers before each instruction from its log."""

import pathlib
import re
import struct
import subprocess
import tempfile

from instructions import *
from program import *

BOOT = 0x80020000
MTIMECMP = 0x2004  # the upper immediate of the timer's address, which pends until it is written
TABLE = 0x80021000
IMAGE_SIZE = TABLE + 0x1000 - START

# RV64IMA with Zicsr and Zifencei in Machine Mode alone.
CPU = "rv64,s=off,u=off,c=off,f=off,d=off,h=off,v=off,zba=off,zbb=off,zbc=off,zbs=off,pmp=off,mmu=off"


def address_of(rd, target, here):
    """auipc and addi at an address, which put another one into rd."""
    distance = target - here
    upper = distance + 0x800 >> 12
    return [u_word(AUIPC, rd, upper), addi(rd, rd, distance - (upper << 12))]


def boot():
    """Puts the registers into the state that the program starts in."""
    words = address_of(1, HANDLER, BOOT) + [csrrw(0, MTVEC, 1)]
    words += [csrrw(0, csr, 0) for csr in (MSTATUS, MSCRATCH, MEPC, MCAUSE, MTVAL)]
    words += [u_word(LUI, 1, MTIMECMP), addi(2, 0, -1), s_word(3, 1, 2, 0)]
    words += address_of(SCRATCH, TABLE, BOOT + 4 * len(words))
    words += [i_word(LOAD, 3, r, SCRATCH, 8 * r) for r in range(1, 31)]
    words += [addi(SCRATCH, 0, 0)]
    return words + [j_word(0, START - BOOT - 4 * len(words))]


def stop():
    """Writes the word that ends the machine `virt` to its test device at 0x100000."""
    return [u_word(LUI, 1, 0x100), u_word(LUI, 2, 5), addi(2, 2, 0x555), s_word(2, 1, 2, 0), j_word(0, 0)]


def image(words):
    memory = bytearray(IMAGE_SIZE)
    for start, part in ((START, words + stop()), (HANDLER, handler()), (BOOT, boot())):
        struct.pack_into(f"<{len(part)}I", memory, start - START, *part)
    for start, part in ((DATA, [number(64 + k) for k in range(DATA_COUNT)]), (TABLE, registers())):
        struct.pack_into(f"<{len(part)}Q", memory, start - START, *part)
    return bytes(memory)


def logged(words):
    """The lines of the log that QEMU writes while it runs the program."""
    with tempfile.TemporaryDirectory() as folder:
        file, log = pathlib.Path(folder, "image"), pathlib.Path(folder, "log")
        file.write_bytes(image(words))
        machine = ["qemu-system-riscv64", "-M", "virt", "-m", "16M", "-cpu", CPU, "-bios", "none", "-nographic"]
        start = ["-device", f"loader,file={file},addr={START:#x},force-raw=on", "-device", f"loader,addr={BOOT:#x},cpu-num=0"]
        trace = ["-singlestep", "-d", "cpu,nochain", "-D", str(log)]
        subprocess.run(machine + start + trace, check=True, timeout=600, stdin=subprocess.DEVNULL)
        with log.open() as lines:
            yield from lines


def states(words):
    """The registers before the first instruction, and behind each one: pc, x0 to x31 and some of Machine Mode."""
    found = []
    for line in logged(words):
        for name, value in re.findall(r"\b(pc|x[0-9]+|mscratch|mcause|mepc)(?:/\w+)? +([0-9a-f]+)", line):
            if name == "pc":
                if found and found[-1]["pc"] == START + 4 * len(words):
                    return found
                if found or int(value, 16) == START:
                    found.append({})
            if found:
                found[-1][name] = int(value, 16)
    raise SystemExit("the program did not end")
