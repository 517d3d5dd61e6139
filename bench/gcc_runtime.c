/* What a module in C is linked to: reading, writing and traps as of our images, and the start, on
 * Linux for i386 without a library. The status is 0 where the module ends, and 10 and the number of
 * the trap where it traps. */
#include "../scripts/processor/system.h"

enum { MOST_INPUT = 1 << 20, MOST_OUTPUT = 1 << 16, TRAPPED = 10, INPUT = 3 };

void module_body(void);

static char text[MOST_INPUT];
static word length, at;
static char out[MOST_OUTPUT];
static word waiting;

static void flush(void)
{
    for (word done = 0; done < waiting;) {
        int count = system_call(CALL_WRITE, 1, (word)out + done, waiting - done, 0);
        if (count <= 0)
            break;
        done += count;
    }
    waiting = 0;
}

static __attribute__((noreturn)) void leave(int status)
{
    flush();
    for (;;)
        system_call(CALL_EXIT, status, 0, 0, 0);
}

static void put(char letter)
{
    if (waiting == MOST_OUTPUT)
        flush();
    out[waiting++] = letter;
}

__attribute__((noreturn)) void trap(int kind)
{
    leave(TRAPPED + kind);
}

void write_line(void)
{
    put('\n');
}

void write_number(int value)
{
    char digits[10];
    word count = 0, size = value < 0 ? 0 - (word)value : (word)value;
    do {
        digits[count++] = '0' + size % 10;
        size /= 10;
    } while (size);
    put(' ');
    if (value < 0)
        put('-');
    while (count)
        put(digits[--count]);
}

/* The next number of the input, which is one of 32 bits. */
int read_number(void)
{
    while (at < length && text[at] <= ' ')
        at++;
    if (at == length)
        trap(INPUT);
    int is_negative = text[at] == '-';
    word value = 0;
    for (at += is_negative; at < length && text[at] > ' '; at++)
        value = value * 10 + (text[at] - '0');
    return is_negative ? (int)(0 - value) : (int)value;
}

void begin(void)
{
    for (int count = 1; count > 0; length += count)
        count = system_call(CALL_READ, 0, (word)text + length, MOST_INPUT - length, 0);
    module_body();
    leave(0);
}

__asm__(".globl _start\n_start:\n\tcall begin\n");
