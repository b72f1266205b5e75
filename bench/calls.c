/*
 * Times a load of 64 KiB by the calls of the library, by the same calls in plain C (plain.c), and by plain C with no
 * interface to keep (direct.c):
 *
 *     calls                   compares what they answer to random calls, then prints the times as a table in Markdown
 *     calls PROGRAM CALL      one load, for counting its instructions; PROGRAM is ours, plain or direct, CALL is byte,
 *                             frame or list
 *
 * A time is that of all calls of a load, the password and the header among them. Each round makes every load once in
 * turn, so that a change of the machine's speed falls on all of them; a load that the kernel interrupts for another
 * program is made again.
 */
#define _POSIX_C_SOURCE 200809L
#include <stdio.h>
#include <stdlib.h>
#include <string.h>
#include <sys/resource.h>
#include <time.h>

#include "calls.h"

enum { RANDOM_CALLS = 2000000, ROUNDS = 101 };
enum { BYTES = 16 + SRAM_SIZE, FRAMES = BYTES / 8 };
enum { OURS, PLAIN, DIRECT, PROGRAMS };
enum { BY_BYTE, BY_FRAME, BY_LIST, WAYS };

static const uint8_t opening[16] = { /* the public password, and a header that fills SRAM */
    0xFE, 0xED, 0xFA, 0xCE, 0xCA, 0xFE, 0xBE, 0xEF, 0x40, 0x00, 0x00, 0x00, 0x00, 0x01, 0x00, 0x00
};
static uint8_t bytes[BYTES];
static uint8_t sram[SRAM_SIZE];

/* The flat lists, as the structs of include/boot_assist.h have them one behind the other. */
static struct {
    uint8_t bytes[SESSION_BYTES];
    uint32_t numbers[SESSION_NUMBERS];
} session;
static struct {
    uint8_t echo[ECHO_BYTES];
    uint32_t numbers[ANSWER_NUMBERS];
} answer;
static uint8_t kinds[BYTES], echoes[BYTES * ECHO_BYTES];
static uint32_t identifiers[BYTES], counts[BYTES], answers[BYTES * ANSWER_NUMBERS];

static struct direct_session direct;
static struct direct_answer direct_answers[BYTES];
static struct direct_item items[BYTES];

static void make_load(void)
{
    memcpy(bytes, opening, sizeof opening);
    for (size_t i = sizeof opening; i < BYTES; i++)
        bytes[i] = (uint8_t)(i * 7 + i / 256);
    for (size_t i = 0; i < BYTES; i++) {
        kinds[i] = CLEAN;
        counts[i] = 1;
        items[i] = (struct direct_item){.kind = CLEAN, .count = 1, .bytes = &bytes[i]};
    }
}

static uint32_t identifier_of(size_t frame)
{
    return frame == 0 ? PASSWORD_FRAME : frame == 1 ? HEADER_FRAME : DATA_FRAME;
}

static double now(void)
{
    struct timespec time;
    clock_gettime(CLOCK_MONOTONIC, &time);
    return (double)time.tv_sec * 1e9 + (double)time.tv_nsec;
}

/* One load with each way; inlined, so that the calls are direct ones, as a program in C makes them. */
#define INLINED static inline __attribute__((always_inline))

INLINED uint8_t by_byte(byte_call *call)
{
    uint8_t number = 0;
    for (size_t i = 0; i < BYTES; i++)
        number = call(session.bytes, SESSION_BYTES, session.numbers, SESSION_NUMBERS, sram, SRAM_SIZE,
                      bytes[i], 0, answer.echo, ECHO_BYTES, answer.numbers, ANSWER_NUMBERS);
    return number;
}

INLINED uint8_t by_frame(frame_call *call)
{
    uint8_t number = 0;
    for (size_t i = 0; i < FRAMES; i++)
        number = call(session.bytes, SESSION_BYTES, session.numbers, SESSION_NUMBERS, sram, SRAM_SIZE,
                      identifier_of(i), bytes + 8 * i, 8, answer.echo, ECHO_BYTES, answer.numbers, ANSWER_NUMBERS);
    return number;
}

INLINED uint8_t by_list(list_call *call)
{
    call(session.bytes, SESSION_BYTES, session.numbers, SESSION_NUMBERS, sram, SRAM_SIZE, kinds, BYTES,
         identifiers, BYTES, counts, BYTES, bytes, BYTES, echoes, BYTES * ECHO_BYTES, answers, BYTES * ANSWER_NUMBERS);
    return (uint8_t)answers[(BYTES - 1) * ANSWER_NUMBERS + NUMBER];
}

static uint8_t direct_by_byte(void)
{
    enum number number = 0;
    for (size_t i = 0; i < BYTES; i++)
        number = direct_byte(&direct, sram, bytes[i], false, &direct_answers[0]);
    return (uint8_t)number;
}

static uint8_t direct_by_frame(void)
{
    enum number number = 0;
    for (size_t i = 0; i < FRAMES; i++)
        number = direct_frame(&direct, sram, identifier_of(i), bytes + 8 * i, 8, &direct_answers[0]);
    return (uint8_t)number;
}

static uint8_t direct_by_list(void)
{
    direct_list(&direct, sram, items, BYTES, direct_answers);
    return (uint8_t)direct_answers[BYTES - 1].number;
}

static uint8_t run(int program, int way)
{
    switch (program * WAYS + way) {
    case OURS * WAYS + BY_BYTE:
        return by_byte(boot_assist_flat_byte);
    case OURS * WAYS + BY_FRAME:
        return by_frame(boot_assist_flat_frame);
    case OURS * WAYS + BY_LIST:
        return by_list(boot_assist_flat_list);
    case PLAIN * WAYS + BY_BYTE:
        return by_byte(plain_flat_byte);
    case PLAIN * WAYS + BY_FRAME:
        return by_frame(plain_flat_frame);
    case PLAIN * WAYS + BY_LIST:
        return by_list(plain_flat_list);
    case DIRECT * WAYS + BY_BYTE:
        return direct_by_byte();
    case DIRECT * WAYS + BY_FRAME:
        return direct_by_frame();
    default:
        return direct_by_list();
    }
}

/* The time of one load in ns. The last answer must be 5, and all bytes must be in SRAM. */
static double load(int program, int way)
{
    plain_flat_fresh(DIRECTLY, opening, 8, session.bytes, SESSION_BYTES, session.numbers, SESSION_NUMBERS);
    direct_fresh(&direct, opening);
    memset(sram, 0, SRAM_SIZE);
    double start = now();
    uint8_t last = run(program, way);
    double time = now() - start;
    if (last != JUMPS || memcmp(sram, bytes + sizeof opening, SRAM_SIZE) != 0) {
        fprintf(stderr, "calls: the load went wrong\n");
        exit(1);
    }
    return time;
}

/* How often the kernel has taken the processor away from this program. */
static long interruptions(void)
{
    struct rusage usage;
    getrusage(RUSAGE_SELF, &usage);
    return usage.ru_nivcsw;
}

/* The time of a load during which the kernel has run nothing else. */
static double load_alone(int program, int way)
{
    long before;
    double time;
    do {
        before = interruptions();
        time = load(program, way);
    } while (interruptions() != before);
    return time;
}

static int by_size(const void *a, const void *b)
{
    double x = *(const double *)a, y = *(const double *)b;
    return (x > y) - (x < y);
}

static void time_loads(void)
{
    static const char *const names[WAYS] = {"`boot_assist_byte`", "`boot_assist_frame`", "`boot_assist_list`"};
    static const int calls[WAYS] = {BYTES, FRAMES, BYTES};
    static double times[WAYS][PROGRAMS][ROUNDS];
    for (int round = 0; round < ROUNDS; round++)
        for (int way = 0; way < WAYS; way++)
            for (int program = 0; program < PROGRAMS; program++)
                times[way][program][round] = load_alone(program, way) / calls[way];
    printf("| 64 KiB by | calls or items | ours, ns | plain, ns | direct, ns | ours/plain | ours/direct |\n");
    printf("|---|--:|--:|--:|--:|--:|--:|\n");
    for (int way = 0; way < WAYS; way++) {
        printf("| %s | %d |", names[way], calls[way]);
        for (int program = 0; program < PROGRAMS; program++) {
            double *t = times[way][program];
            qsort(t, ROUNDS, sizeof *t, by_size);
            printf(" %.1f (%.1f to %.1f) |", t[ROUNDS / 2], t[ROUNDS / 4], t[ROUNDS - 1 - ROUNDS / 4]);
        }
        double ours = times[way][OURS][ROUNDS / 2];
        printf(" %.2f | %.2f |\n", ours / times[way][PLAIN][ROUNDS / 2], ours / times[way][DIRECT][ROUNDS / 2]);
    }
}

/* The place of a name, or -1. */
static int place(const char *name, const char *const *names, int len)
{
    while (--len >= 0 && strcmp(name, names[len]) != 0)
        ;
    return len;
}

int main(int argc, char **argv)
{
    static const char *const programs[PROGRAMS] = {"ours", "plain", "direct"};
    static const char *const ways[WAYS] = {"byte", "frame", "list"};
    int program = argc == 3 ? place(argv[1], programs, PROGRAMS) : 0;
    int way = argc == 3 ? place(argv[2], ways, WAYS) : 0;
    if ((argc != 1 && argc != 3) || program < 0 || way < 0) {
        fprintf(stderr, "usage: calls [ours|plain|direct byte|frame|list]\n");
        return 2;
    }
    make_load();
    if (argc == 3) {
        load(program, way);
        return 0;
    }
    compare_calls(RANDOM_CALLS);
    time_loads();
    return 0;
}
