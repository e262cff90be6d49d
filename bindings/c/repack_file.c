/* Repacks a file of transfer records, such as an archived out.bin, to another width: docs/ARCHIVED-FILES.md says when. `make lib` first, then:
 * gcc -std=c99 -Iinclude bindings/c/repack_file.c build/lib/liburdhvasolk.a -o build/repack_file
 * build/repack_file FILE WIDTH USER NEW_WIDTH RESULT
 *
 * WIDTH and USER are those of the records in FILE: width_out and user of the sheet by which it was written, USER being 0 where that has no
 * user=. It prints how many records RESULT has. Exit status 1: the library refuses, 2: anything else; RESULT is not touched then, but where
 * it could not be written to its end. bindings/python/repack_file.py is the same in Python: what it prints, what it writes, and its exit status. */
#define _POSIX_C_SOURCE 200809L /* stat */
#include "urdhvasolk.h"

#include <inttypes.h>
#include <stdio.h>
#include <stdlib.h>
#include <string.h>
#include <sys/stat.h>

#define USAGE "usage: repack_file FILE WIDTH USER NEW_WIDTH RESULT"
#define MOST 65536   /* octets that the library takes */
#define ROOM 377424  /* octets that are enough for any result, so that 5 is never given */
#define REFUSED 1    /* exit status */
#define STOPPED 2
#define SHEET_SAYS "WIDTH and USER must be the old sheet's width_out and user (0 where it has no user=)"

static uint8_t records[MOST + 1], out[ROOM]; /* one more than the library takes, so that a longer file is refused */

static const char *advice(uint32_t refusal)
{
    switch (refusal) {
    case URD_WIDTH:
        return "WIDTH and NEW_WIDTH are byte lanes, 1 to 16";
    case URD_USERBITS:
        return "USER is user bits to a byte, 0 to 4";
    case URD_LENGTH:
        return "FILE has over 65,536 octets or no whole number of records; " SHEET_SAYS;
    default: /* 3 and 4 */
        return "FILE is not transfer records of that WIDTH and USER, a take is none; " SHEET_SAYS;
    }
}

/* The number of one or two digits that the text is, or -1. */
static int number(const char *text)
{
    size_t digits = strspn(text, "0123456789");
    return digits >= 1 && digits <= 2 && text[digits] == 0 ? atoi(text) : -1;
}

/* Whether two names, links too, are of one file that is there. */
static int same_file(const char *first, const char *second)
{
    struct stat a, b;
    return stat(first, &a) == 0 && stat(second, &b) == 0 && a.st_dev == b.st_dev && a.st_ino == b.st_ino;
}

/* How many octets of the file are in `records` now, or -1. */
static long read_file(const char *name)
{
    FILE *file = fopen(name, "rb");
    if (file == NULL)
        return -1;
    long length = (long)fread(records, 1, sizeof records, file);
    if (ferror(file))
        length = -1;
    fclose(file);
    return length;
}

/* Whether that many octets of `out` are in the file now. */
static int write_file(const char *name, size_t length)
{
    FILE *file = fopen(name, "wb");
    if (file == NULL)
        return 0;
    int whole = fwrite(out, 1, length, file) == length;
    return fclose(file) == 0 && whole;
}

static int stop(const char *text)
{
    fprintf(stderr, "%s\n", text);
    return STOPPED;
}

int main(int n, char **arguments)
{
    int numbers[3] = {-1, -1, -1};
    for (int i = 0; i < 3 && n == 6; i++)
        numbers[i] = number(arguments[2 + i]);
    if (numbers[0] < 0 || numbers[1] < 0 || numbers[2] < 0)
        return stop(USAGE);
    const char *file = arguments[1], *result = arguments[5];
    if (same_file(file, result))
        return stop("RESULT is FILE itself, which must not be overwritten");
    long length = read_file(file);
    if (length < 0)
        return stop("FILE can't be read");

    size_t width = (size_t)numbers[0], user = (size_t)numbers[1], new_width = (size_t)numbers[2];
    urd_stream_answer answer = urd_repack(width, user, new_width, records, (size_t)length, out, sizeof out);
    if (answer.refusal != 0) {
        fprintf(stderr, "refusal=%" PRIu32 " at=%" PRIu64 ": %s\n", answer.refusal, answer.place, advice(answer.refusal));
        return REFUSED;
    }
    size_t size = 7 + new_width + (new_width * user + 7) / 8;
    if (!write_file(result, (size_t)answer.count * size))
        return stop("RESULT can't be written, or not to its end");
    printf("records=%" PRIu64 "\n", answer.count);
    return 0;
}
