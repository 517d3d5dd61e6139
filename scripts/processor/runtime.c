/* Runs the image that is linked beside it on the processor, for Linux on i386, without a library.
 *
 *     NAME [--steps M] <NUMBERS
 *
 * The image has the code, data and stack of the machine's map, and nothing else: its segments end
 * where the runtime begins. Its services, INT 20h to 24h, are faults on Linux, which arrive as
 * signals and are served. Output, input and statuses are those of the compiler's mode `run`; the
 * last line, on standard error, says how the run ended. With --steps the trap flag stops the
 * processor before each instruction, which is then looked at as the machine would: the line tells
 * the steps too, and each fault is the machine's. Without it the processor runs alone. */
#include "rows.h"
#include "system.h"

/* Of the image, in the file that build.py writes: bytes of code and of data; and how many steps the
 * program makes at most where its words do not say, or NO_LIMIT. */
extern const word image_code_bytes, image_data_bytes, image_steps;

enum { MOST_INPUT = 1048576, MOST_STEPS = 200000000, NO_LIMIT = -1 };
enum { TRAP_FLAG = 0x100, INTERRUPTS = 0x200, RESERVED_FLAG = 2 };
enum { TRAP_DEBUG = 1, TRAP_BREAKPOINT = 3, TRAP_PROTECTION = 13 };
enum { PAGE = 4096, RUNTIME_BASE = 0x03900000, TERMINAL_SETTINGS = 0x5401, AGAIN = -4 };
/* The statuses. */
enum { ENDED = 0, TRAPPED = 1, GOING = 2, LIMIT = 4, FAILED = 5, WORDS = 6, INPUT = 7 };
enum { NO_RUN = 70 };

static byte text[MOST_INPUT + 1];
static int numbers[MOST_INPUT / 2 + 1]; /* the input */
static word numbers_read, numbers_taken;
static byte out[65536];
static word out_length;
static int out_is_terminal;
static int is_running, is_counting; /* whether the image has begun; whether steps are counted */
static word steps, most_steps;
static word known; /* the flags that the machine knows */
static half code_segment, data_segment;
static byte handler_stack[65536] __attribute__((aligned(16)));

/* ---- what is written */

static char line[160];
static word line_length;

static void say(const char *part)
{
    while (*part && line_length < sizeof line)
        line[line_length++] = *part++;
}

/* A number's digits, and where the first one stands. */
struct digits {
    char text[12];
    word first;
};

static struct digits digits_of(word value, int is_negative)
{
    struct digits it;
    it.first = sizeof it.text - 1;
    it.text[it.first] = 0;
    do {
        it.text[--it.first] = '0' + value % 10;
        value /= 10;
    } while (value);
    if (is_negative)
        it.text[--it.first] = '-';
    return it;
}

static void say_number(word value)
{
    struct digits it = digits_of(value, 0);
    say(it.text + it.first);
}

static int written(word stream, const void *bytes, word length)
{
    word at = (word)bytes, end = at + length;
    while (at < end) {
        int count = system_call(CALL_WRITE, stream, at, end - at, 0);
        if (count <= 0 && count != AGAIN)
            return 0;
        if (count > 0)
            at += count;
    }
    return 1;
}

static __attribute__((noreturn)) void leave(int status)
{
    say("\n");
    written(2, line, line_length);
    for (;;)
        system_call(CALL_EXIT, status, 0, 0, 0);
}

static __attribute__((noreturn)) void refuse(int status, const char *why)
{
    say(why);
    leave(status);
}

static void flush(void)
{
    word length = out_length;
    out_length = 0;
    if (!written(1, out, length))
        refuse(FAILED, "fault write out");
}

static void put(char letter)
{
    if (out_length == sizeof out)
        flush();
    out[out_length++] = letter;
}

static void put_number(int value)
{
    word size = value < 0 ? 0 - (word)value : (word)value;
    struct digits it = digits_of(size, value < 0);
    put(' ');
    for (word i = it.first; it.text[i]; i++)
        put(it.text[i]);
}

#ifdef TRACE
/* What the comparison reads: the state behind each step, and memory at the end. */
enum { TRACE_STREAM = 3, TRACED_STACK = 1024 };

static void trace(const struct context *c)
{
    written(TRACE_STREAM, c->registers, sizeof c->registers);
    word rest[3] = {c->eip, c->eflags, known};
    written(TRACE_STREAM, rest, sizeof rest);
}

static void trace_memory(void)
{
    written(TRACE_STREAM, (const void *)DATA_BASE, image_data_bytes);
    written(TRACE_STREAM, (const void *)(STACK_TOP - TRACED_STACK), TRACED_STACK);
}
#else
#define trace(c)
#define trace_memory()
#endif

/* How the run ended, in the words of `run`. */
static __attribute__((noreturn)) void end(int status, const char *how, const char *kind)
{
    flush();
    trace_memory();
    say(how);
    say(kind);
    if (is_counting) {
        say(" steps ");
        say_number(steps);
    }
    say(" reads ");
    say_number(numbers_taken);
    leave(status);
}

static __attribute__((noreturn)) void fault(const char *kind)
{
    end(TRAPPED, "machine ", kind);
}

/* ---- what is read */

static int parts(byte letter)
{
    return letter == ' ' || letter == '\t' || letter == '\n' || letter == '\r';
}

/* Reads standard input to its end. */
static word read_text(void)
{
    word length = 0;
    for (;;) {
        int count = system_call(CALL_READ, 0, (word)text + length, sizeof text - length, 0);
        if (count < 0 && count != AGAIN)
            refuse(FAILED, "fault read input");
        if (count == 0)
            return length;
        if (count > 0)
            length += count;
        if (length > MOST_INPUT)
            refuse(LIMIT, "limit input count 1048577 maximum 1048576");
    }
}

/* The number of 32 bits in these bytes. What is none ends the program, which tells its place. */
static int number_in(word from, word to)
{
    int is_negative = text[from] == '-';
    double_word value = 0, most = is_negative ? 0x80000000u : 0x7fffffffu;
    word at = from + is_negative;
    int is_number = at < to;
    for (; at < to && is_number; at++) {
        value = value * 10 + (text[at] - '0');
        is_number = '0' <= text[at] && text[at] <= '9' && value <= most;
    }
    if (!is_number) {
        say("fault input at ");
        say_number(from);
        leave(INPUT);
    }
    return is_negative ? (int)(0 - (word)value) : (int)value;
}

static void read_numbers(void)
{
    word length = read_text(), at = 0;
    while (at < length) {
        word from = at;
        while (at < length && !parts(text[at]))
            at++;
        if (from < at)
            numbers[numbers_read++] = number_in(from, at);
        at++;
    }
}

/* ---- the machine */

static int is_code(word eip)
{
    return eip - CODE_BASE < image_code_bytes;
}

static struct row row_here(const struct context *c)
{
    const byte *end = (const byte *)CODE_BASE + image_code_bytes;
    return row_at((const byte *)c->eip, end, c->registers);
}

static int lies_within(word address, word base, word length)
{
    return length >= 4 && address - base <= length - 4;
}

/* A doubleword lies wholly in data or stack. */
static int lies(word address)
{
    return lies_within(address, DATA_BASE, image_data_bytes)
        || lies_within(address, STACK_BASE, STACK_TOP - STACK_BASE);
}

/* Whether the row touches data and stack alone, by these registers. */
static int reaches(const struct row *row, const struct context *c)
{
    word esp = c->registers[ESP];
    return !(row->touches && !lies(row->address)) && !(row->pushes && !lies(esp - 4))
        && !(row->pops && !lies(esp));
}

static void count_step(void)
{
    if (steps == most_steps)
        end(GOING, "going", "");
    steps++;
}

/* Looks at the instruction that comes as the machine does, and counts it. */
static void look(const struct context *c)
{
    count_step();
    if (!is_code(c->eip))
        fault("fetch");
    struct row row = row_here(c);
    if (row.length == 0)
        fault("decode");
    if (!reaches(&row, c))
        fault("access");
    if (row.wants & ~known)
        fault("flag");
    known = (known | row.sets) & ~row.forgets;
}

static void serve(struct context *c, byte service)
{
    static const char *const traps[5] = {0, "Index", "Divide", "Input", "Stack"};
    word eax = c->registers[EAX];
    switch (service) {
    case 0x20:
        end(ENDED, "ended", "");
    case 0x21:
        put_number(eax);
        break;
    case 0x22:
        put('\n');
        if (out_is_terminal)
            flush();
        break;
    case 0x23:
        if (numbers_taken == numbers_read)
            end(TRAPPED, "trap ", "Input");
        c->registers[EAX] = numbers[numbers_taken++];
        break;
    case 0x24:
        if (eax < 1 || eax > 4)
            fault("service");
        end(TRAPPED, "trap ", traps[eax]);
    }
    c->eip += 2; /* behind the INT */
}

/* Which of the machine's faults the processor has met. What no row has may end in any way. */
static const char *fault_of(int signal, struct context *c)
{
    if (signal == SIGSYS || (signal == SIGTRAP && c->trap == TRAP_DEBUG))
        return "decode";
    if (signal == SIGTRAP && c->trap == TRAP_BREAKPOINT)
        c->eip--; /* INT3 stands behind the code, to the end of its page */
    if (!is_code(c->eip))
        return "fetch";
    struct row row = row_here(c);
    if (row.length == 0)
        return "decode";
    if (row.jumps && c->trap == TRAP_PROTECTION && reaches(&row, c)) {
        /* A jump past the segment's end is refused where it stands: the machine takes it. */
        if (is_counting)
            count_step();
        return "fetch";
    }
    return signal == SIGFPE ? "divide" : "access";
}

/* ---- the program */

/* Gives the image the machine's state at its begin, and takes away what is mapped above the stack:
 * that is what the kernel gave the runtime. */
static void start(struct context *c)
{
    word above = (STACK_TOP + PAGE - 1) / PAGE * PAGE;
    if (system_call(CALL_MUNMAP, above, 0xffffe000u - above, 0, 0) < 0
        && system_call(CALL_MUNMAP, above, 0xc0000000u - above, 0, 0) < 0)
        refuse(NO_RUN, "pra: the kernel keeps its pages in the program");
    for (word i = 0; i < 8; i++)
        c->registers[i] = 0;
    c->registers[ESP] = STACK_TOP;
    c->eip = CODE_BASE;
    c->eflags = INTERRUPTS | RESERVED_FLAG | (is_counting ? TRAP_FLAG : 0);
    c->cs = code_segment;
    c->ds = c->es = c->ss = data_segment;
    c->fs = c->gs = 0;
    is_running = 1;
}

/* What the processor stopped at: the call of main, a service, a step that was made, or a fault. */
static void caught(int signal, void *info, struct context *c)
{
    (void)info;
    __asm__ volatile("pushl %0\n\tpopfl" : : "i"(INTERRUPTS | RESERVED_FLAG) : "memory", "cc");
    if (!is_running) {
        start(c);
    } else if (is_counting && signal == SIGTRAP && c->trap == TRAP_DEBUG) {
        trace(c);
    } else {
        byte service = c->trap == TRAP_PROTECTION && is_code(c->eip) ? row_here(c).service : 0;
        if (!service)
            fault(fault_of(signal, c));
        serve(c, service);
        trace(c);
    }
    if (is_counting)
        look(c);
}

/* Who ends the program from outside gets what was written. */
static void stopped(int signal)
{
    flush();
    struct action standard = {0, 0, 0, {0, 0}};
    system_call(CALL_SIGACTION, signal, (word)&standard, 0, 8);
    system_call(CALL_KILL, system_call(CALL_GETPID, 0, 0, 0, 0), signal, 0, 0);
}

void give_back(void); /* ends a handler */
__asm__("give_back:\n\tmovl $173, %eax\n\tint $0x80\n");

static void handle(const byte *signals, word handler)
{
    word flags = SA_SIGINFO | SA_RESTORER | SA_ONSTACK;
    struct action it = {handler, flags, (word)give_back, {~0u, ~0u}};
    for (; *signals; signals++)
        system_call(CALL_SIGACTION, *signals, (word)&it, 0, 8);
}

static void handle_signals(void)
{
    static const byte faults[] = {SIGSEGV, SIGBUS, SIGFPE, SIGILL, SIGTRAP, SIGSYS, 0};
    static const byte requests[] = {SIGINT, SIGTERM, SIGHUP, 0};
    struct alternate_stack stack = {(word)handler_stack, SS_AUTODISARM, sizeof handler_stack};
    if (system_call(CALL_SIGALTSTACK, (word)&stack, 0, 0, 0) < 0)
        refuse(NO_RUN, "pra: the kernel has no stack for handlers (Linux 4.7 has)");
    handle(faults, (word)caught);
    handle(requests, (word)stopped);
}

/* Code up to the page of its last byte, which can't be read; data and stack from the data on. */
static void make_segments(void)
{
    word last_page = (CODE_BASE + image_code_bytes - 1) / PAGE;
    word kind = OF_32_BITS | PAGES | USEABLE;
    struct segment code = {0, 0, last_page, kind | CODE | NO_READ};
    struct segment data = {~0u, 0, DATA_BASE / PAGE - 1, kind | EXPAND_DOWN};
    if (system_call(CALL_MODIFY_LDT, 1, (word)&code, sizeof code, 0) < 0
        || system_call(CALL_SET_THREAD_AREA, (word)&data, 0, 0, 0) < 0)
        refuse(NO_RUN, "pra: the kernel has no segments for programs (modify_ldt)");
    code_segment = code.entry << 3 | 7;
    data_segment = data.entry << 3 | 3;
}

static void map(word base, word length)
{
    struct mapping it = {base, length, READ_AND_WRITE, PRIVATE_FIXED_ANONYMOUS, ~0u, 0};
    if (length && system_call(CALL_MMAP, (word)&it, 0, 0, 0) != (int)base)
        refuse(NO_RUN, "pra: no memory for the image");
}

/* From now on system calls that the runtime does not make are signals. */
static void shut_system(void)
{
    struct filter_step calls[] = {
        {LOAD, 0, 0, PLACE_OF_CALLER},
        {JUMP_IF_AT_LEAST, 0, 2, RUNTIME_BASE},
        {JUMP_IF_AT_LEAST, 1, 0, DATA_BASE},
        {ANSWER, 0, 0, ALLOW},
        {ANSWER, 0, 0, SEND_SIGSYS},
    };
    struct filter filter = {sizeof calls / sizeof *calls, calls};
    system_call(CALL_PRCTL, PR_SET_NO_NEW_PRIVS, 1, 0, 0);
    system_call(CALL_PRCTL, PR_SET_SECCOMP, SECCOMP_MODE_FILTER, (word)&filter, 0);
}

static int is_word(const char *given, const char *wanted)
{
    while (*given && *given == *wanted)
        given++, wanted++;
    return *given == *wanted;
}

static void usage(const char *fault, const char *name)
{
    say(fault);
    say("\nusage: ");
    say(name);
    refuse(WORDS, " [--steps M]");
}

/* Takes the words: none, or --steps with a number. */
static void take_words(word count, const char **words)
{
    is_counting = count > 1 || image_steps != (word)NO_LIMIT;
    if (count <= 1) {
        most_steps = image_steps;
        return;
    }
    if (count != 3 || !is_word(words[1], "--steps"))
        usage("fault words", words[0]);
    const char *digit = words[2];
    do {
        if (*digit < '0' || *digit > '9' || most_steps > MOST_STEPS / 10)
            usage("fault value --steps", words[0]);
        most_steps = most_steps * 10 + (*digit - '0');
    } while (*++digit);
    if (most_steps > MOST_STEPS)
        usage("fault value --steps", words[0]);
}

/* stack: how many words there are, and the words, as the kernel puts them there. */
void begin(word *stack)
{
    word settings[16];
    take_words(stack[0], (const char **)(stack + 1));
    read_numbers();
    out_is_terminal = system_call(CALL_IOCTL, 1, TERMINAL_SETTINGS, (word)settings, 0) == 0;
    map(DATA_BASE, image_data_bytes);
    map(STACK_BASE, STACK_TOP - STACK_BASE);
    handle_signals();
    make_segments();
    shut_system();
    __asm__ volatile("int $0x20"); /* the first signal, behind which the image runs */
}

__asm__(".globl _start\n_start:\n\tmovl %esp, %eax\n\tpushl %eax\n\tcall begin\n");
