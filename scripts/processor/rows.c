/* Reads a row of the machine's table of instructions: how long it is, what memory it touches, and
 * which flags it wants, sets and leaves unknown. Bytes that are in no row have the length 0. */
#include "rows.h"

struct reader {
    const byte *at, *end;
    const word *registers;
    int failed; /* the bytes ended too early, or are in no row */
};

/* A ModRM byte with what belongs to it. */
struct operand {
    word reg;      /* the number in its reg field */
    word number;   /* of the register, where it is one */
    byte is_memory;
    word address;
};

enum { NO_REGISTER = 8, HAS_LOW_BYTE = 4 };

/* The next bytes as a number, the lowest byte first. */
static word number(struct reader *from, word bytes)
{
    word value = 0;
    if ((word)(from->end - from->at) < bytes) {
        from->failed = 1;
        return 0;
    }
    for (word i = 0; i < bytes; i++)
        value |= (word)from->at[i] << 8 * i;
    from->at += bytes;
    return value;
}

static word displacement(struct reader *from, word mode)
{
    if (mode == 0)
        return 0;
    return mode == 1 ? (word)(signed char)number(from, 1) : number(from, 4);
}

static word value_of(const struct reader *from, word register_number)
{
    return register_number == NO_REGISTER ? 0 : from->registers[7 - register_number];
}

/* The address behind a ModRM byte of these fields. One of the two spellings of an address without
 * index is in the table alone: ESP as base, scale 1. */
static word address(struct reader *from, word mode, word base)
{
    word index = NO_REGISTER, scale = 0;
    if (base == 4) {
        word sib = number(from, 1);
        base = sib & 7, index = sib >> 3 & 7, scale = sib >> 6;
        if (index == 4) {
            if (base != 4 || scale != 0)
                from->failed = 1;
            index = NO_REGISTER;
        }
    }
    if (base == 5 && mode == 0)
        base = NO_REGISTER, mode = 2;
    word sum = value_of(from, base) + (value_of(from, index) << scale);
    return sum + displacement(from, mode);
}

static struct operand operand(struct reader *from)
{
    word fields = number(from, 1), mode = fields >> 6;
    struct operand it = {fields >> 3 & 7, fields & 7, mode != 3, 0};
    if (it.is_memory)
        it.address = address(from, mode, it.number);
    return it;
}

static void must(struct reader *from, int holds)
{
    if (!holds)
        from->failed = 1;
}

static void touch(struct row *row, struct operand it)
{
    row->touches = it.is_memory;
    row->address = it.address;
}

/* ADD, OR, AND, SUB, XOR and CMP have the numbers 0, 1, 4, 5, 6 and 7. */
static int is_operation(word number)
{
    return number != 2 && number != 3;
}

/* The flags that a condition names, by its number: B, E, BE, S, L and LE with their negations. */
static word condition(struct reader *from, word number)
{
    static const word named[8] = {0, CF, ZF, CF | ZF, SF, 0, SF | OF, ZF | SF | OF};
    must(from, named[number >> 1] != 0);
    return named[number >> 1];
}

static void product(struct row *row)
{
    row->sets = CF | OF;
    row->forgets = ZF | SF;
}

/* What begins with 0F. */
static void extended_row(struct reader *from, struct row *row)
{
    word opcode = number(from, 1);
    struct operand it;
    switch (opcode) {
    case 0xaf: /* IMUL r32, r/m32 */
        touch(row, operand(from));
        product(row);
        break;
    case 0xb6: /* MOVZX r32, r8 */
        it = operand(from);
        must(from, !it.is_memory && it.number < HAS_LOW_BYTE);
        break;
    default:
        row->wants = condition(from, opcode & 15);
        if (opcode >> 4 == 8) { /* Jcc rel32 */
            row->jumps = 1;
            number(from, 4);
        } else { /* SETcc r8 */
            it = operand(from);
            must(from, opcode >> 4 == 9 && !it.is_memory && it.reg == 0);
            must(from, it.number < HAS_LOW_BYTE);
        }
    }
}

/* What has a register in the low three bits of its opcode, and a few without operands. */
static void short_row(struct reader *from, struct row *row, word opcode)
{
    switch (opcode) {
    case 0x99: /* CDQ */
        break;
    case 0xc3: case 0xc2: /* RET, RET imm16 */
        row->pops = row->jumps = 1;
        number(from, opcode == 0xc3 ? 0 : 2);
        break;
    case 0x68: case 0xe8: /* PUSH imm32, CALL rel32 */
        row->pushes = 1;
        row->jumps = opcode == 0xe8;
        number(from, 4);
        break;
    case 0xe9: /* JMP rel32 */
        row->jumps = 1;
        number(from, 4);
        break;
    case 0xcd: /* INT imm8 */
        row->service = number(from, 1);
        must(from, 0x20 <= row->service && row->service <= 0x24);
        break;
    default:
        row->pushes = opcode >> 3 == 0x50 >> 3; /* PUSH r32, but ESP */
        row->pops = opcode >> 3 == 0x58 >> 3;   /* POP r32, but ESP */
        if (opcode >> 3 == 0xb8 >> 3)           /* MOV r32, imm32 */
            number(from, 4);
        else
            must(from, (row->pushes || row->pops) && (opcode & 7) != 4);
    }
}

/* F7: NEG, IDIV. FF: PUSH m32. 87 and 85: XCHG and TEST of registers. 8D: LEA. */
static void special_row(struct reader *from, struct row *row, word opcode)
{
    struct operand it = operand(from);
    if (opcode == 0x8d || opcode == 0xff)
        must(from, it.is_memory);
    if (opcode == 0x87 || opcode == 0x85)
        must(from, !it.is_memory);
    if (opcode == 0xff)
        must(from, it.reg == 6);
    if (opcode == 0xf7)
        must(from, it.reg == 3 || it.reg == 7);
    if (opcode != 0x8d)
        touch(row, it);
    row->pushes = opcode == 0xff;
    if (opcode == 0x85 || (opcode == 0xf7 && it.reg == 3))
        row->sets = ALL_FLAGS;
    if (opcode == 0xf7 && it.reg == 7)
        row->forgets = ALL_FLAGS;
}

static void row_of(struct reader *from, struct row *row, word opcode)
{
    struct operand it;
    switch (opcode) {
    case 0x89: case 0x8b: /* MOV r/m32, r32 and back */
        touch(row, operand(from));
        break;
    case 0xc7: case 0x81: case 0x83: /* MOV and the operations: r/m32, imm */
        it = operand(from);
        touch(row, it);
        must(from, opcode == 0xc7 ? it.reg == 0 : is_operation(it.reg));
        row->sets = opcode == 0xc7 ? 0 : ALL_FLAGS;
        number(from, opcode == 0x83 ? 1 : 4);
        break;
    case 0x69: case 0x6b: /* IMUL r32, r/m32, imm */
        touch(row, operand(from));
        product(row);
        number(from, opcode == 0x6b ? 1 : 4);
        break;
    case 0xc1: /* SHL, SHR and SAR r/m32, imm8; by 0 no flag changes */
        it = operand(from);
        touch(row, it);
        must(from, it.reg == 4 || it.reg == 5 || it.reg == 7);
        if (number(from, 1) & 31) {
            row->sets = ZF | SF;
            row->forgets = CF | OF;
        }
        break;
    case 0xf7: case 0xff: case 0x87: case 0x85: case 0x8d:
        special_row(from, row, opcode);
        break;
    case 0x0f:
        extended_row(from, row);
        break;
    default:
        if (opcode < 0x40 && (opcode & 5) == 1) { /* op r/m32, r32 and back */
            must(from, is_operation(opcode >> 3));
            touch(row, operand(from));
            row->sets = ALL_FLAGS;
        } else {
            short_row(from, row, opcode);
        }
    }
}

struct row row_at(const byte *bytes, const byte *end, const word *registers)
{
    struct reader from = {bytes, end, registers, 0};
    struct row row = {0}, none = {0};
    row_of(&from, &row, number(&from, 1));
    row.length = (word)(from.at - bytes);
    return from.failed ? none : row;
}
