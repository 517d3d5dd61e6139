/* The instructions that the machine has, as its table in ia_code has their bytes. */
#ifndef ROWS_H
#define ROWS_H

#include "system.h"

/* The map of memory, as ia_code has it. */
enum {
    CODE_BASE = 0x01000000,
    DATA_BASE = 0x04000000,
    STACK_BASE = 0x08000000,
    STACK_TOP = 0x08100400,
};

/* The status flags, in EFLAGS. */
enum { CF = 1 << 0, ZF = 1 << 6, SF = 1 << 7, OF = 1 << 11, ALL_FLAGS = CF | ZF | SF | OF };

struct row {
    word length;  /* of its bytes; 0: the table has nothing here */
    byte touches; /* whether it reads or writes its operand in memory */
    word address; /* of that operand */
    byte pushes, pops;
    byte jumps;
    byte service; /* the number behind INT, or 0 */
    word wants;   /* the flags that its condition names */
    word sets;    /* the flags that are known after it and have another value */
    word forgets; /* the flags that are unknown after it */
};

/* The row at some bytes that end at end, with its address by these registers. */
struct row row_at(const byte *bytes, const byte *end, const word *registers);

#endif
