/* The programs of rate.sh for comparison: the same bytes of code (rate.h) on a plain interpreter in C, a switch over the first byte
   of each instruction. It has the instructions of that code and tests what the machine tests: the expression stack, the stack of
   frames, addresses, numbers and places. Its first word is the program's name. It does one run, and prints how many instructions
   that did, the nanoseconds of the processor that they took, and the bytes of the code. With a number from 1 to 255 behind that word
   the outer loop has so many turns; with `words` it prints what the program made, word by word.
   Its first word may also be `took`. Then it runs the command that the other words are, without keys, and prints the nanoseconds of
   the processor that the command took from its start to its end, in the system too. Where that ends otherwise than with 0, so does
   this. */
#define _DEFAULT_SOURCE
#include <stdint.h>
#include <stdio.h>
#include <stdlib.h>
#include <string.h>
#include <fcntl.h>
#include <sys/resource.h>
#include <sys/wait.h>
#include <time.h>
#include <unistd.h>
#include "rate.h"

enum { BUDGET = 10000000 };

/* the number of the only module */
enum { MODULE = 1 };

enum ending { WENT, ENDED, SPENT, TRAPPED, LIMITED, BAD };

/* a program: its code, where in it the turns of the outer loop stand, where its procedure begins, or 0 if it has none, how many
   words its variables have, and which of these hold what it made: the first, and how many */
struct program {
    const char *name;
    uint8_t *code;
    uint32_t length, turns, entry, variables, first, made;
};

static const struct program programs[] = {
    { "Sum", sum, sizeof sum, 8, 0, 3, 2, 1 },
    { "Range", range, sizeof range, 8, 0, 3, 2, 1 },
    { "Counting", counting, sizeof counting, 8, 0, 10261, 261, 10000 },
    { "Records", records, sizeof records, 8, 0, 1208, 8, 1200 },
    { "Nodes", nodes, sizeof nodes, 73, 0, 5, 2, 1 },
    { "Fibonacci", fibonacci, sizeof fibonacci, 8, 46, 2, 1, 1 },
    { "Ackermann", ackermann, sizeof ackermann, 8, 76, 3, 2, 1 },
    { "Quicksort", quicksort, sizeof quicksort, 8, 110, 4003, 3, 4000 },
};

struct machine {
    const uint8_t *code;
    uint32_t length;
    uint16_t store[65536];
    uint16_t stack[16];
    uint32_t words; /* on the expression stack */
    uint32_t data, base, frame, top, limit;
    uint32_t entries[2], procedures; /* the first is the body */
    uint32_t place;
    uint64_t steps;
};

static void begin(struct machine *m, const struct program *p)
{
    memset(m, 0, sizeof *m);
    m->code = p->code;
    m->length = p->length;
    m->data = 1;
    m->base = m->data + p->variables;
    m->frame = m->base;
    m->top = m->base + 4;
    m->limit = 65535;
    m->store[m->base + 3] = MODULE;
    m->entries[1] = p->entry;
    m->procedures = p->entry == 0 ? 1 : 2;
}

#define PART static inline __attribute__((always_inline))
#define ROW PART enum ending

/* n bytes stand at the place, and so many words are on the expression stack */
PART int has(const struct machine *m, uint32_t n, uint32_t taken)
{
    return m->place + n <= m->length && m->words >= taken;
}

/* the word of the code so many bytes behind the place */
PART uint32_t word(const struct machine *m, uint32_t behind)
{
    const uint8_t *at = m->code + m->place + behind;
    return (uint32_t)at[0] << 8 | at[1];
}

/* the topmost word of the expression stack, and the one below it */
PART uint32_t upper(const struct machine *m)
{
    return m->stack[m->words - 1];
}

PART uint32_t lower(const struct machine *m)
{
    return m->stack[m->words - 2];
}

/* takes so many words, and goes on behind an instruction of n bytes */
ROW went(struct machine *m, uint32_t n, uint32_t taken)
{
    m->words -= taken;
    m->place += n;
    return WENT;
}

/* the same, with a word in the place of the topmost that is left */
ROW became(struct machine *m, uint32_t n, uint32_t taken, uint32_t w)
{
    m->stack[m->words - taken - 1] = (uint16_t)w;
    return went(m, n, taken);
}

/* puts a word on the expression stack, where it has room */
ROW push(struct machine *m, uint32_t n, uint32_t w)
{
    if (m->words == 16)
        return BAD;
    m->stack[m->words++] = (uint16_t)w;
    return went(m, n, 0);
}

/* P becomes the word so many bytes behind the place, and so many words are taken */
ROW jump(struct machine *m, uint32_t behind, uint32_t taken)
{
    uint32_t to = word(m, behind);
    if (to >= m->length)
        return BAD;
    m->words -= taken;
    m->place = to;
    return WENT;
}

/* LIW and DUP */
ROW literal(struct machine *m)
{
    return has(m, 3, 0) ? push(m, 3, word(m, 1)) : BAD;
}

ROW twice(struct machine *m)
{
    return has(m, 1, 1) ? push(m, 1, upper(m)) : BAD;
}

ROW swap(struct machine *m)
{
    if (!has(m, 1, 2))
        return BAD;
    uint32_t x = lower(m), y = upper(m);
    m->stack[m->words - 2] = (uint16_t)y;
    m->stack[m->words - 1] = (uint16_t)x;
    return went(m, 1, 0);
}

/* LLW and LGW, SLW and SGW, LAG */
ROW load(struct machine *m, uint32_t base)
{
    if (!has(m, 3, 0) || base + word(m, 1) > 65535)
        return BAD;
    return push(m, 3, m->store[base + word(m, 1)]);
}

ROW store(struct machine *m, uint32_t base)
{
    if (!has(m, 3, 1) || base + word(m, 1) > 65535)
        return BAD;
    m->store[base + word(m, 1)] = (uint16_t)upper(m);
    return went(m, 3, 1);
}

ROW address(struct machine *m, uint32_t base)
{
    if (!has(m, 3, 0) || base + word(m, 1) > 65535)
        return BAD;
    return push(m, 3, base + word(m, 1));
}

/* LDI and LDF, STI, ADF */
ROW fetch(struct machine *m)
{
    return has(m, 1, 1) ? became(m, 1, 0, m->store[upper(m)]) : BAD;
}

ROW fetch_behind(struct machine *m)
{
    if (!has(m, 3, 1) || upper(m) + word(m, 1) > 65535)
        return BAD;
    return became(m, 3, 0, m->store[upper(m) + word(m, 1)]);
}

ROW put(struct machine *m)
{
    if (!has(m, 1, 2))
        return BAD;
    m->store[lower(m)] = (uint16_t)upper(m);
    return went(m, 1, 2);
}

ROW further(struct machine *m)
{
    if (!has(m, 3, 1) || upper(m) + word(m, 1) > 65535)
        return BAD;
    return became(m, 3, 0, upper(m) + word(m, 1));
}

/* MOV */
ROW move(struct machine *m)
{
    if (!has(m, 3, 2))
        return BAD;
    uint32_t w = word(m, 1);
    if (upper(m) + w > 65536 || lower(m) + w > 65536)
        return BAD;
    memmove(m->store + lower(m), m->store + upper(m), w * sizeof m->store[0]);
    return went(m, 3, 2);
}

/* NLT */
ROW followed(struct machine *m)
{
    if (!has(m, 1, 1))
        return BAD;
    return upper(m) == 0 ? TRAPPED : went(m, 1, 0);
}

/* IXC */
ROW element(struct machine *m)
{
    if (!has(m, 5, 2))
        return BAD;
    uint32_t a = lower(m) + (upper(m) - word(m, 1)) % 65536 * word(m, 3);
    return a > 65535 ? BAD : became(m, 5, 1, a);
}

/* RGC */
ROW within(struct machine *m)
{
    if (!has(m, 5, 1))
        return BAD;
    return upper(m) < word(m, 1) || upper(m) > word(m, 3) ? TRAPPED : went(m, 5, 0);
}

/* what two words give; where that is above 65535 the instruction traps */
PART uint32_t result(char operator, uint32_t x, uint32_t y)
{
    switch (operator) {
    case '+': return x + y;
    case '-': return x - y;
    case '*': return x * y;
    case '/': return y == 0 ? UINT32_MAX : x / y;
    case '%': return y == 0 ? UINT32_MAX : x % y;
    case '=': return x == y;
    case '#': return x != y;
    case '_': return x <= y;
    default: return x < y;
    }
}

/* ADC, SBC, MLC, DVC, MDC, EQU, NEQ, LSC and LEC */
ROW joined(struct machine *m, char operator)
{
    if (!has(m, 1, 2))
        return BAD;
    uint32_t r = result(operator, lower(m), upper(m));
    return r > 65535 ? TRAPPED : became(m, 1, 1, r);
}

/* whether the stack of frames has no room for so many words more */
PART int is_full(const struct machine *m, uint32_t n)
{
    return m->top + n > m->limit;
}

/* SAV and RST */
ROW save(struct machine *m)
{
    if (!has(m, 1, 0))
        return BAD;
    if (is_full(m, m->words + 1))
        return LIMITED;
    for (uint32_t k = 0; k < m->words; k++)
        m->store[m->top++] = m->stack[k];
    m->store[m->top++] = (uint16_t)m->words;
    return went(m, 1, m->words);
}

ROW restore(struct machine *m)
{
    if (!has(m, 2, 0))
        return BAD;
    uint32_t n = m->code[m->place + 1], saved = m->store[m->top - 1];
    if (m->words != n || saved + n > 16 || m->top < m->frame + 5 + saved)
        return BAD;
    m->top -= saved + 1;
    for (uint32_t k = n; k > 0; k--)
        m->stack[saved + k - 1] = m->stack[k - 1];
    for (uint32_t k = 0; k < saved; k++)
        m->stack[k] = m->store[m->top + k];
    m->words += saved;
    return went(m, 2, 0);
}

/* the frame of the procedure around one that is declared so many levels out, or 0 where that is one of the module */
PART uint32_t around(const struct machine *m, uint32_t levels)
{
    if (levels == 0)
        return 0;
    uint32_t frame = m->frame;
    for (; levels > 1; levels--)
        frame = m->store[frame];
    return frame;
}

/* MRK and PSH */
ROW mark(struct machine *m)
{
    if (!has(m, 2, 0))
        return BAD;
    if (is_full(m, 4))
        return LIMITED;
    m->store[m->top] = (uint16_t)around(m, m->code[m->place + 1]);
    m->store[m->top + 1] = 0;
    m->store[m->top + 2] = 0;
    m->store[m->top + 3] = 0;
    m->top += 4;
    return went(m, 2, 0);
}

ROW hand(struct machine *m)
{
    if (!has(m, 1, 1))
        return BAD;
    if (is_full(m, 1))
        return LIMITED;
    m->store[m->top++] = (uint16_t)upper(m);
    return went(m, 1, 1);
}

/* CLL */
ROW call(struct machine *m)
{
    if (!has(m, 4, 0))
        return BAD;
    uint32_t n = m->code[m->place + 1], w = word(m, 2);
    if (m->words != 0 || m->top < m->frame + 8 + w || n >= m->procedures)
        return BAD;
    uint32_t to = m->top - w - 4;
    m->store[to + 1] = (uint16_t)m->frame;
    m->store[to + 2] = (uint16_t)(m->place + 4);
    m->store[to + 3] = MODULE;
    m->frame = to;
    m->place = m->entries[n];
    return WENT;
}

/* RTN */
ROW leave(struct machine *m)
{
    if (m->frame == m->base)
        return ENDED;
    if (m->frame + 3 > 65535)
        return BAD;
    uint32_t to = m->store[m->frame + 1];
    if (to < m->base || to + 4 > m->frame || m->store[m->frame + 3] != MODULE)
        return BAD;
    m->top = m->frame;
    m->place = m->store[m->frame + 2];
    m->frame = to;
    return WENT;
}

/* TRP */
ROW trap(struct machine *m)
{
    if (!has(m, 2, 0))
        return BAD;
    uint32_t k = m->code[m->place + 1];
    return k < 7 || k > 9 ? BAD : TRAPPED;
}

/* ENT */
ROW enter(struct machine *m)
{
    if (!has(m, 3, 0))
        return BAD;
    uint32_t a = m->frame + word(m, 1);
    if (a < m->top)
        return BAD;
    if (a > m->limit)
        return LIMITED;
    memset(m->store + m->top, 0, (a - m->top) * sizeof m->store[0]);
    m->top = a;
    return went(m, 3, 0);
}

/* JMP and JPF */
ROW jump_always(struct machine *m)
{
    return has(m, 3, 0) ? jump(m, 1, 0) : BAD;
}

ROW jump_false(struct machine *m)
{
    if (!has(m, 3, 1))
        return BAD;
    return upper(m) == 0 ? jump(m, 1, 1) : went(m, 3, 1);
}

/* the turns of a loop as CARDINALs, by a step that is an INTEGER */
PART uint32_t turns(int32_t a, int32_t b, int32_t by)
{
    if (by > 0)
        return b < a ? 0 : (uint32_t)((b - a) / by) + 1;
    return a < b ? 0 : (uint32_t)((a - b) / -by) + 1;
}

/* FRI */
ROW first_turn(struct machine *m)
{
    if (!has(m, 6, 3))
        return BAD;
    uint32_t a = m->frame + word(m, 1), from = m->stack[m->words - 3];
    int32_t by = (int16_t)upper(m);
    if (m->code[m->place + 3] != 0 || by == 0)
        return BAD;
    uint32_t n = turns((int32_t)from, (int32_t)lower(m), by);
    if (n == 0)
        return jump(m, 4, 3);
    if (a + 2 > 65535)
        return BAD;
    m->store[a] = (uint16_t)from;
    m->store[a + 1] = (uint16_t)(n - 1);
    m->store[a + 2] = (uint16_t)by;
    return went(m, 6, 3);
}

/* FRN */
ROW next_turn(struct machine *m)
{
    if (!has(m, 5, 0))
        return BAD;
    uint32_t a = m->frame + word(m, 1);
    if (a + 1 > 65535)
        return BAD;
    if (m->store[a + 1] == 0)
        return went(m, 5, 0);
    if (a + 2 > 65535 || word(m, 3) >= m->length)
        return BAD;
    m->store[a + 1]--;
    m->store[a] = (uint16_t)(m->store[a] + m->store[a + 2]);
    return jump(m, 3, 0);
}

/* ALC */
ROW take(struct machine *m)
{
    if (!has(m, 1, 2))
        return BAD;
    uint32_t n = upper(m);
    if (m->limit - m->top < n + 2)
        return LIMITED;
    uint32_t block = m->limit - n;
    memset(m->store + block, 0, n * sizeof m->store[0]);
    m->limit = block - 2;
    m->store[lower(m)] = (uint16_t)block;
    return went(m, 1, 2);
}

/* the row of the instruction at the place */
ROW row(struct machine *m)
{
    if (m->place >= m->length)
        return BAD;
    switch (m->code[m->place]) {
    case 0x01: return literal(m);
    case 0x03: return twice(m);
    case 0x05: return swap(m);
    case 0x20: return load(m, m->frame);
    case 0x22: return store(m, m->frame);
    case 0x24: return load(m, m->data);
    case 0x26: return store(m, m->data);
    case 0x2d: return address(m, m->data);
    case 0x30: return fetch(m);
    case 0x31: return put(m);
    case 0x32: return fetch_behind(m);
    case 0x33: return further(m);
    case 0x34: return move(m);
    case 0x36: return followed(m);
    case 0x37: return element(m);
    case 0x39: return within(m);
    case 0x40: return joined(m, '+');
    case 0x41: return joined(m, '-');
    case 0x42: return joined(m, '*');
    case 0x43: return joined(m, '/');
    case 0x44: return joined(m, '%');
    case 0x5a: return joined(m, '=');
    case 0x5b: return joined(m, '#');
    case 0x5c: return joined(m, '<');
    case 0x5d: return joined(m, '_');
    case 0x60: return save(m);
    case 0x61: return mark(m);
    case 0x63: return hand(m);
    case 0x65: return call(m);
    case 0x68: return enter(m);
    case 0x6a: return leave(m);
    case 0x6b: return restore(m);
    case 0x70: return jump_always(m);
    case 0x71: return jump_false(m);
    case 0x77: return first_turn(m);
    case 0x78: return next_turn(m);
    case 0x79: return trap(m);
    case 0x7a: return take(m);
    default: return BAD;
    }
}

static enum ending run(struct machine *m)
{
    while (m->steps < BUDGET) {
        m->steps++;
        enum ending e = row(m);
        if (e != WENT)
            return e;
    }
    return SPENT;
}

static uint64_t now(void)
{
    struct timespec t;
    clock_gettime(CLOCK_PROCESS_CPUTIME_ID, &t);
    return (uint64_t)t.tv_sec * 1000000000 + (uint64_t)t.tv_nsec;
}

static const struct program *named(const char *name)
{
    for (size_t k = 0; k < sizeof programs / sizeof programs[0]; k++)
        if (strcmp(programs[k].name, name) == 0)
            return &programs[k];
    fprintf(stderr, "usage: rate NAME, turns of the outer loop or `words`; or rate took COMMAND\n");
    exit(1);
}

/* the nanoseconds of the processor that a run took */
static uint64_t timed(struct machine *m, const struct program *p)
{
    begin(m, p);
    uint64_t before = now();
    enum ending e = run(m);
    uint64_t took = now() - before;
    if (e != ENDED) {
        fprintf(stderr, "rate: %s ended otherwise\n", p->name);
        exit(1);
    }
    return took;
}

static uint64_t nanoseconds(struct timeval t)
{
    return (uint64_t)t.tv_sec * 1000000000 + (uint64_t)t.tv_usec * 1000;
}

/* runs a command and prints the nanoseconds of the processor that it took */
static int took(char **command)
{
    pid_t child = fork();
    if (child == 0) {
        int nothing = open("/dev/null", O_RDWR);
        dup2(nothing, 0);
        dup2(nothing, 1);
        execvp(command[0], command);
        _exit(127);
    }
    int status;
    struct rusage used;
    if (child < 0 || wait4(child, &status, 0, &used) < 0 || status != 0)
        return 1;
    printf("%llu\n", (unsigned long long)(nanoseconds(used.ru_utime) + nanoseconds(used.ru_stime)));
    return 0;
}

int main(int count, char **words)
{
    static struct machine m;
    if (count > 2 && strcmp(words[1], "took") == 0)
        return took(words + 2);
    const struct program *p = named(count > 1 ? words[1] : "");
    int made = count > 2 && strcmp(words[2], "words") == 0;
    if (count > 2 && !made)
        p->code[p->turns] = (uint8_t)atoi(words[2]);
    uint64_t nanos = timed(&m, p);
    if (!made)
        printf("%llu %llu %lu\n", (unsigned long long)m.steps, (unsigned long long)nanos, (unsigned long)p->length);
    for (uint32_t k = 0; made && k < p->made; k++)
        printf("%u\n", m.store[m.data + p->first + k]);
    return 0;
}
