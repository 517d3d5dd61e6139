/* Calls the procedure Insert of sort.ob's image, out.pri, from C: insert ADDRESS. It neither reads,
 * writes nor traps, so no service is wanted. Made by gcc -m32. */
#include <stdio.h>
#include <stdlib.h>
#include <sys/mman.h>

enum { CODE = 0x01000000, DATA = 0x04000000, STACK = 0x08000000, STACK_BYTES = 0x00100400 };

static void *region(unsigned base, unsigned length)
{
    return mmap((void *)base, length, PROT_READ | PROT_WRITE | PROT_EXEC,
                MAP_PRIVATE | MAP_ANONYMOUS | MAP_FIXED, -1, 0);
}

/* Insert(list, 2), with the stack where the machine has it; a procedure keeps EBX. */
static void insert(unsigned address, int *list)
{
    __asm__ volatile("movl %%esp, %%ebx\n\t"
                     "movl %2, %%esp\n\t"
                     "pushl %0\n\tpushl $2\n\t"
                     "call *%1\n\t"
                     "movl %%ebx, %%esp"
                     :
                     : "r"(list), "r"(address), "i"(STACK + STACK_BYTES)
                     : "eax", "ecx", "edx", "ebx", "memory", "cc");
}

int main(int count, char **words)
{
    unsigned head[4]; /* magic, version, bytes of code, words of data */
    FILE *image = fopen("out.pri", "rb");
    if (count != 2 || !image || fread(head, 4, 4, image) != 4)
        return 1;
    if (fread(region(CODE, head[2]), 1, head[2], image) != head[2])
        return 1;
    int *list = region(DATA, 4 * head[3]);
    region(STACK, STACK_BYTES);
    list[0] = 10, list[1] = 30, list[2] = 20;
    insert(strtoul(words[1], 0, 16), list);
    printf("%d %d %d\n", list[0], list[1], list[2]);
    return 0;
}
