"""A program of random instructions for Machine Mode, with its trap handler.

It keeps away from what QEMU 7.2 does otherwise than the manuals (the README names it), and from what an implementation chooses.
"""

from instructions import *

START = 0x80000000  # the program
HANDLER = 0x80010000  # its trap handler
DATA = 0x80018000  # the numbers that it reads and writes
DATA_COUNT = 512
OUTSIDE = 0x81000  # the upper immediate of an address without memory
MSIP = 0x2000  # that of the hart's MSIP word

MSTATUS, MISA, MIE, MTVEC, MSCRATCH, MEPC, MCAUSE, MTVAL, MIP, MHARTID = 0x300, 0x301, 0x304, 0x305, 0x340, 0x341, 0x342, 0x343, 0x344, 0xF14
ABSENT = 0x8FF
MIE_MPIE = 0x88
SOFTWARE = 8  # the bit of machine software interrupts in mie and mip, and that of MIE in mstatus
VECTORED = 1  # the mode in mtvec

# Registers with a part of their own: the middle of the data, an address, four corner values, the fold of all traps, and its scratch.
BASE, ADDRESS, CORNERS, FOLD, SCRATCH = 8, 9, (26, 27, 28, 29), 30, 31
CORNER_VALUES = (1 << 63, (1 << 64) - 1, 1 << 31, 1)
WRITTEN = [r for r in range(1, 26) if r not in (BASE, ADDRESS)]
READ = [0, *range(1, 30), *CORNERS, *CORNERS]

MASK = (1 << 64) - 1


def number(place):
    """The numbers at the start, in registers and in memory."""
    return place * 0x9E3779B97F4A7C15 & MASK


def registers():
    """x0 to x30 at the start."""
    values = [0] + [number(r) for r in range(1, 31)]
    values[BASE], values[FOLD] = DATA + 2048, 0
    for r, value in zip(CORNERS, CORNER_VALUES):
        values[r] = value
    return values


class Words:
    """SplitMix64, and choices by it."""

    def __init__(self, seed):
        self.state = seed

    def next(self):
        self.state = self.state + 0x9E3779B97F4A7C15 & MASK
        z = self.state
        z = (z ^ z >> 30) * 0xBF58476D1CE4E5B9 & MASK
        z = (z ^ z >> 27) * 0x94D049BB133111EB & MASK
        return z ^ z >> 31

    def below(self, limit):
        return self.next() % limit

    def choose(self, choices):
        return choices[self.below(len(choices))]

    def rd(self):
        return self.choose(WRITTEN)

    def rs(self):
        return self.choose(READ)

    def offset(self, size):
        """An offset from BASE into the data, a multiple of the size."""
        return self.below(4096) // size * size - 2048


REGISTER_FORMS = [(0, f) for f in range(8)] + [(0x20, 0), (0x20, 5)] + [(1, f) for f in range(8)]
WORD_FORMS = [(0, 0), (0, 1), (0, 5), (0x20, 0), (0x20, 5), (1, 0), (1, 4), (1, 5), (1, 6), (1, 7)]
ATOMIC_FORMS = [0x01, 0x00, 0x04, 0x0C, 0x08, 0x10, 0x14, 0x18, 0x1C]
NO_INSTRUCTIONS = [
    0x00000000, 0xFFFFFFFF, 0x00002063, 0x00007003, 0x00004023, 0x00001067, 0x04001013, 0x0200101B, 0x4000101B,
    0x40001033, 0x0200103B, 0x0000203B, 0x1010202F, 0x2800202F, 0x0000002F, 0x00004073, 0x000000F3, 0x00200073,
]


def register_form(w):
    funct7, funct3 = w.choose(REGISTER_FORMS)
    return [r_word(OP, funct3, funct7, w.rd(), w.rs(), w.rs())]


def word_form(w):
    funct7, funct3 = w.choose(WORD_FORMS)
    return [r_word(OP_32, funct3, funct7, w.rd(), w.rs(), w.rs())]


def immediate_form(w):
    funct3, imm = w.below(8), w.below(4096)
    if funct3 in (1, 5):
        imm = w.below(64) | (w.choose([0, 0x400]) if funct3 == 5 else 0)
    return [i_word(OP_IMM, funct3, w.rd(), w.rs(), imm)]


def immediate_word_form(w):
    funct3, imm = w.choose([0, 1, 5]), w.below(4096)
    if funct3 in (1, 5):
        imm = w.below(32) | (w.choose([0, 0x400]) if funct3 == 5 else 0)
    return [i_word(OP_IMM_32, funct3, w.rd(), w.rs(), imm)]


def upper_form(w):
    return [u_word(w.choose([LUI, AUIPC]), w.rd(), w.below(1 << 20))]


def load(w):
    funct3 = w.below(7)
    return [i_word(LOAD, funct3, w.rd(), BASE, w.offset(1 << funct3 % 4))]


def store(w):
    funct3 = w.below(4)
    return [s_word(funct3, BASE, w.rs(), w.offset(1 << funct3))]


def atomic(w):
    funct7 = w.choose(ATOMIC_FORMS) << 2 | w.below(4)
    return [addi(ADDRESS, BASE, w.offset(8)), r_word(AMO, w.choose([2, 3]), funct7, w.rd(), ADDRESS, w.rs())]


def reserved(w):
    """lr and sc: with nothing between, with two sc, or with a store that changes what lr read."""
    funct3, rd = w.choose([2, 3]), w.rd()
    start = [addi(ADDRESS, BASE, w.offset(8)), r_word(AMO, funct3, 0x08, rd, ADDRESS, 0)]
    conditional = r_word(AMO, funct3, 0x0C, w.rd(), ADDRESS, w.rs())
    between = [i_word(OP_IMM, 4, rd, rd, -1), s_word(funct3, ADDRESS, rd, 0)]
    return start + w.choose([[conditional], [conditional, conditional], between + [conditional]])


def branch(w):
    return [b_word(w.choose([0, 1, 4, 5, 6, 7]), w.rs(), w.rs(), 8), addi(w.rd(), w.rs(), w.below(4096))]


def jump(w):
    skipped = addi(w.rd(), w.rs(), w.below(4096))
    if w.below(2):
        return [j_word(w.rd(), 8), skipped]
    return [u_word(AUIPC, ADDRESS, 0), i_word(JALR, 0, w.choose([0, ADDRESS, w.rd()]), ADDRESS, 12 + w.below(2)), skipped]


def csr_form(w):
    funct3 = w.choose([1, 2, 3, 5, 6, 7])
    return [i_word(SYSTEM, funct3, w.rd(), w.rs(), w.choose([MSCRATCH, MCAUSE]))]


def system_form(w):
    return w.choose([
        [ECALL],
        [EBREAK],
        [w.choose(NO_INSTRUCTIONS)],
        [i_word(SYSTEM, w.choose([6, 7]), 0, 8, MSTATUS)],  # MIE set or cleared
        [csrr(w.rd(), w.choose([MISA, MHARTID]))],
        [i_word(SYSTEM, w.choose([1, 2, 3]), w.rd(), w.rs(), ABSENT)],
        [csrrw(w.rd(), MHARTID, w.rs())],
        [w.choose([FENCE, FENCE_I])],
    ])


def software(w):
    """The hart's MSIP word is written, with more odd numbers than even ones, or read."""
    return [u_word(LUI, ADDRESS, MSIP), w.choose([
        s_word(2, ADDRESS, w.rs(), 0),
        s_word(2, ADDRESS, 29, 0),
        i_word(LOAD, 2, w.rd(), ADDRESS, 0),
    ])]


def interrupt_form(w):
    """Interrupts or their vectored mode are switched on or off, or read."""
    rd = w.rd()
    return w.choose([
        [i_word(SYSTEM, w.choose([6, 6, 7]), 0, SOFTWARE, w.choose([MSTATUS, MIE]))],
        [i_word(SYSTEM, w.choose([6, 7]), 0, VECTORED, MTVEC)],
        [csrr(rd, w.choose([MIE, MIP])), i_word(OP_IMM, 7, rd, rd, SOFTWARE)],
        [csrr(rd, MTVEC)],
    ])


def outside(w):
    at = [u_word(LUI, ADDRESS, OUTSIDE)]
    return at + w.choose([
        [i_word(LOAD, w.below(7), w.rd(), ADDRESS, w.offset(8))],
        [s_word(w.below(4), ADDRESS, w.rs(), w.offset(8))],
        [r_word(AMO, 3, 0x08, w.rd(), ADDRESS, 0)],
    ])


def misaligned(w):
    at = [addi(ADDRESS, BASE, w.offset(8) + 2)]
    return w.choose([
        [j_word(w.rd(), 6)],
        [b_word(0, 0, 0, 10)],
        at + [i_word(JALR, 0, w.rd(), ADDRESS, 0)],
        at + [r_word(AMO, w.choose([2, 3]), 0x08, w.rd(), ADDRESS, 0)],
    ])


FORMS = (
    [register_form] * 5 + [word_form] * 3 + [immediate_form] * 2 + [immediate_word_form] + [upper_form]
    + [load] * 2 + [store] * 2 + [atomic] * 3 + [branch] * 2 + [software] * 2 + [interrupt_form] * 4
    + [reserved, jump, csr_form, system_form, outside, misaligned]
)


def checksum():
    """Folds the data into x5: it goes from the data's end to its start."""
    return [
        addi(ADDRESS, BASE, 2040), addi(ADDRESS, ADDRESS, 8), addi(BASE, BASE, -2048),
        addi(ADDRESS, ADDRESS, -8), i_word(LOAD, 3, 6, ADDRESS, 0), r_word(OP, 0, 1, 5, 5, 27), r_word(OP, 4, 0, 5, 5, 6),
        i_word(OP_IMM, 1, 6, 5, 7), r_word(OP, 0, 0, 5, 5, 6), b_word(1, ADDRESS, BASE, -24),
    ]


def program(seed, count):
    """At least so many random words, and then the fold of the data."""
    w, words = Words(seed), []
    while len(words) < count:
        words += w.choose(FORMS)(w)
    return words + checksum()


def handler():
    """Folds mepc, mcause, MIE with MPIE, and mtval where the manuals fix it, into x30; goes on behind a trap, and at an interrupt, which it ends.

    A software interrupt of the vectored mode enters three words behind an exception.
    """
    fold = [
        r_word(OP, 0, 0, FOLD, FOLD, SCRATCH), i_word(OP_IMM, 1, SCRATCH, FOLD, 7), r_word(OP, 4, 0, FOLD, FOLD, SCRATCH),
    ]
    return [
        j_word(0, 16), ECALL, ECALL, addi(FOLD, FOLD, 3),
        csrr(SCRATCH, MEPC), *fold,
        csrr(SCRATCH, MCAUSE), *fold,
        csrr(SCRATCH, MSTATUS), i_word(OP_IMM, 7, SCRATCH, SCRATCH, MIE_MPIE), *fold,
        csrr(SCRATCH, MCAUSE), i_word(OP_IMM, 3, SCRATCH, SCRATCH, 4), b_word(1, SCRATCH, 0, 20),
        csrr(SCRATCH, MTVAL), *fold,
        csrr(SCRATCH, MCAUSE), b_word(4, SCRATCH, 0, 20),
        csrr(SCRATCH, MEPC), addi(SCRATCH, SCRATCH, 4), csrrw(0, MEPC, SCRATCH), MRET,
        u_word(LUI, SCRATCH, MSIP), s_word(2, SCRATCH, 0, 0), MRET,
    ]
