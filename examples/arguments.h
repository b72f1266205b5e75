/*
 * What the programs share for reading their arguments. Where one is bad, they say on standard error which and why, and
 * end with status 2. Each defines PROGRAM, its name, and USAGE before it includes this.
 */
#ifndef ARGUMENTS_H
#define ARGUMENTS_H

#include <ctype.h>
#include <errno.h>
#include <stdint.h>
#include <stdio.h>
#include <stdlib.h>
#include <string.h>

#include "boot_assist.h"

static inline _Noreturn void argument_bad(const char *name, const char *text, const char *why)
{
    fprintf(stderr, PROGRAM ": %s \"%s\": %s\n", name, text, why);
    exit(2);
}

/* Tests that there are as many arguments as names. */
static inline void argument_count(int argc, char **argv, const char *const *names, int count)
{
    if (argc - 1 < count)
        fprintf(stderr, PROGRAM ": %s is missing\nusage: " PROGRAM " " USAGE "\n", names[argc > 0 ? argc - 1 : 0]);
    else if (argc - 1 > count)
        fprintf(stderr, PROGRAM ": superfluous argument \"%s\"\nusage: " PROGRAM " " USAGE "\n", argv[count + 1]);
    else
        return;
    exit(2);
}

/* A whole number, decimal or hex by the base, 0 to most. */
static inline uint32_t argument_number(const char *name, const char *text, int base, uint32_t most)
{
    char *end, why[64];
    errno = 0;
    unsigned long long value = strtoull(text, &end, base);
    /* strtoull takes spaces and a sign, which are no part of a number here */
    if (errno == 0 && isxdigit((unsigned char)text[0]) && end != text && *end == '\0' && value <= most)
        return (uint32_t)value;
    if (base == 16)
        snprintf(why, sizeof why, "not a hex number up to %lX", (unsigned long)most);
    else
        snprintf(why, sizeof why, "not a whole number up to %lu", (unsigned long)most);
    argument_bad(name, text, why);
}

/* A boot_assist_port by its name. */
static inline uint32_t argument_port(const char *name, const char *text)
{
    if (strcmp(text, "can") == 0)
        return BOOT_ASSIST_PORT_CAN;
    if (strcmp(text, "serial") == 0)
        return BOOT_ASSIST_PORT_SERIAL;
    argument_bad(name, text, "neither can nor serial");
}

/* Reads a file of at most so many bytes, and returns how many it has. */
static inline size_t argument_file(const char *name, const char *path, uint8_t *bytes, size_t most)
{
    char why[64];
    FILE *file = fopen(path, "rb");
    if (file == NULL)
        argument_bad(name, path, strerror(errno));
    size_t len = fread(bytes, 1, most, file);
    int more = len == most && fgetc(file) != EOF;
    if (ferror(file))
        argument_bad(name, path, strerror(errno));
    if (more) {
        snprintf(why, sizeof why, "longer than %zu bytes", most);
        argument_bad(name, path, why);
    }
    fclose(file);
    return len;
}

/* Reads a file of exactly so many bytes. */
static inline void argument_bytes(const char *name, const char *path, uint8_t *bytes, size_t size)
{
    char why[64];
    size_t len = argument_file(name, path, bytes, size);
    if (len == size)
        return;
    snprintf(why, sizeof why, "%zu bytes, and not %zu", len, size);
    argument_bad(name, path, why);
}

#endif
