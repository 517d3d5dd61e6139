/* What Linux for i386 gives a program that has no library: numbers, structures and calls. */
#ifndef SYSTEM_H
#define SYSTEM_H

typedef unsigned char byte;
typedef unsigned short half;
typedef unsigned int word;
typedef unsigned long long double_word;

/* The processor's state that a signal interrupts, as the handler finds it on its stack. */
struct context {
    word flags, link;
    word stack, stack_flags, stack_size;
    half gs, gs_high, fs, fs_high, es, es_high, ds, ds_high;
    word registers[8]; /* EDI, ESI, EBP, ESP, EBX, EDX, ECX, EAX: number n is at 7 - n */
    word trap, error, eip;
    half cs, cs_high;
    word eflags, esp_before;
    half ss, ss_high;
};

enum { EAX = 7 - 0, ESP = 7 - 4 }; /* where the context has them */

enum {
    CALL_EXIT = 1, CALL_READ = 3, CALL_WRITE = 4, CALL_GETPID = 20, CALL_KILL = 37,
    CALL_IOCTL = 54, CALL_MMAP = 90, CALL_MUNMAP = 91, CALL_MODIFY_LDT = 123, CALL_PRCTL = 172,
    CALL_SIGACTION = 174, CALL_SIGALTSTACK = 186, CALL_SET_THREAD_AREA = 243,
};

enum {
    SIGHUP = 1, SIGINT = 2, SIGILL = 4, SIGTRAP = 5, SIGBUS = 7, SIGFPE = 8, SIGSEGV = 11,
    SIGTERM = 15, SIGSYS = 31,
};

enum { SA_SIGINFO = 4, SA_RESTORER = 0x04000000, SA_ONSTACK = 0x08000000 };
enum { SS_AUTODISARM = (int)0x80000000 }; /* the handler's stack is taken wherever ESP points */

struct action {
    word handler, flags, restorer, mask[2];
};

struct alternate_stack {
    word base, flags, size;
};

struct mapping {
    word base, length, rights, flags, file, offset;
};

enum { READ_AND_WRITE = 3, PRIVATE_FIXED_ANONYMOUS = 0x32 };

/* A segment. Its limit is a number of pages, less one. */
struct segment {
    word entry, base, limit, kind;
};

enum { EXPAND_DOWN = 1 << 1, CODE = 2 << 1, NO_READ = 1 << 3, PAGES = 1 << 4, USEABLE = 1 << 6 };
enum { OF_32_BITS = 1 };

/* A filter of system calls is a program of such instructions. */
struct filter_step {
    half code;
    byte if_true, if_false;
    word number;
};

struct filter {
    half length;
    struct filter_step *steps;
};

enum { LOAD = 0x20, JUMP_IF_AT_LEAST = 0x35, ANSWER = 0x06 };
enum { ALLOW = 0x7fff0000, SEND_SIGSYS = 0x00030000, PLACE_OF_CALLER = 8 };
enum { PR_SET_SECCOMP = 22, PR_SET_NO_NEW_PRIVS = 38, SECCOMP_MODE_FILTER = 2 };

static inline int system_call(word number, word a, word b, word c, word d)
{
    int answer;
    __asm__ volatile("int $0x80"
                     : "=a"(answer)
                     : "a"(number), "b"(a), "c"(b), "d"(c), "S"(d), "D"(0)
                     : "memory");
    return answer;
}

#endif
