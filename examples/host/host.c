/*
 * A host program: reads chain lines or a wiring sheet from standard input, and tells the constants.
 *
 *     host chains < FILE          a line for each chain line
 *     host sheet [CODE..] < FILE  a line for each code, for all sixteen where none is named
 *
 * The exit status is 0 where all was read and printed, whatever was answered, and else 2.
 */
#include <ctype.h>
#include <errno.h>
#include <stdbool.h>
#include <stdio.h>
#include <stdlib.h>
#include <string.h>

#include "kundrevez.h"

enum { MOST_BYTES = 1 << 24 };

static uint8_t input[MOST_BYTES];

static void tell(int64_t answer)
{
    if (answer > 0)
        printf("constant=%lld\n", (long long)answer);
    else
        printf("fault=%lld\n", (long long)-answer);
}

/* Lines end with a line feed, which the last one may lack. */
static void tell_chains(const uint8_t *text, size_t length)
{
    while (length > 0) {
        const uint8_t *end = memchr(text, '\n', length);
        size_t line = end ? (size_t)(end - text) : length;
        tell(kundrevez_chain_constant(text, line));
        size_t taken = end ? line + 1 : line;
        text += taken;
        length -= taken;
    }
}

static void tell_code(const uint8_t *sheet, size_t length, size_t code)
{
    printf("s%02zu ", code);
    tell(kundrevez_sheet_constant(sheet, length, code));
}

static bool number(const char *word, size_t *value)
{
    char *end;
    errno = 0;
    unsigned long long read = strtoull(word, &end, 10);
    if (errno != 0 || !isdigit((unsigned char)word[0]) || *end != '\0' || read > SIZE_MAX)
        return false;
    *value = (size_t)read;
    return true;
}

static int usage(void)
{
    fputs("usage: host chains < FILE\n       host sheet [CODE..] < FILE\n", stderr);
    return 2;
}

static int printed(void)
{
    if (fflush(stdout) == 0 && !ferror(stdout))
        return 0;
    fputs("host: the output cannot be written\n", stderr);
    return 2;
}

static int tell_sheet(const uint8_t *sheet, size_t length, int count, char **words)
{
    size_t code;
    for (int i = 0; i < count; i++)
        if (!number(words[i], &code))
            return usage();
    for (int i = 0; i < count; i++)
        if (number(words[i], &code))
            tell_code(sheet, length, code);
    if (count == 0)
        for (code = 0; code < 16; code++)
            tell_code(sheet, length, code);
    return printed();
}

int main(int argc, char **argv)
{
    if (argc < 2)
        return usage();
    size_t length = fread(input, 1, sizeof input, stdin);
    if (ferror(stdin) || (length == sizeof input && getchar() != EOF)) {
        fputs("host: the input cannot be read, or is too long\n", stderr);
        return 2;
    }
    if (strcmp(argv[1], "chains") == 0 && argc == 2) {
        tell_chains(input, length);
        return printed();
    }
    if (strcmp(argv[1], "sheet") == 0)
        return tell_sheet(input, length, argc - 2, argv + 2);
    return usage();
}
