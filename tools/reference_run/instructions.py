"""Instruction words by format (RISC-V unprivileged manual, "Base Instruction Formats")."""

LUI, AUIPC, JAL, JALR, BRANCH, LOAD, STORE = 0x37, 0x17, 0x6F, 0x67, 0x63, 0x03, 0x23
OP_IMM, OP_IMM_32, OP, OP_32, AMO, SYSTEM = 0x13, 0x1B, 0x33, 0x3B, 0x2F, 0x73

ECALL, EBREAK, MRET = 0x00000073, 0x00100073, 0x30200073
FENCE, FENCE_I = 0x0FF0000F, 0x0000100F


def bits(number, high, low):
    """The bits from high down to low."""
    return (number >> low) & ((1 << (high - low + 1)) - 1)


def r_word(opcode, funct3, funct7, rd, rs1, rs2):
    return funct7 << 25 | rs2 << 20 | rs1 << 15 | funct3 << 12 | rd << 7 | opcode


def i_word(opcode, funct3, rd, rs1, imm):
    return bits(imm, 11, 0) << 20 | rs1 << 15 | funct3 << 12 | rd << 7 | opcode


def s_word(funct3, rs1, rs2, imm):
    return bits(imm, 11, 5) << 25 | rs2 << 20 | rs1 << 15 | funct3 << 12 | bits(imm, 4, 0) << 7 | STORE


def b_word(funct3, rs1, rs2, imm):
    high = bits(imm, 12, 12) << 31 | bits(imm, 10, 5) << 25
    return high | rs2 << 20 | rs1 << 15 | funct3 << 12 | bits(imm, 4, 1) << 8 | bits(imm, 11, 11) << 7 | BRANCH


def u_word(opcode, rd, upper):
    return bits(upper, 19, 0) << 12 | rd << 7 | opcode


def j_word(rd, imm):
    high = bits(imm, 20, 20) << 31 | bits(imm, 10, 1) << 21 | bits(imm, 11, 11) << 20
    return high | bits(imm, 19, 12) << 12 | rd << 7 | JAL


def addi(rd, rs1, imm):
    return i_word(OP_IMM, 0, rd, rs1, imm)


def csrrw(rd, csr, rs1):
    return i_word(SYSTEM, 1, rd, rs1, csr)


def csrr(rd, csr):
    return i_word(SYSTEM, 2, rd, 0, csr)
