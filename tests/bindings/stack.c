/* How much stack each call of the library uses: `stack REPORT REPACK OTHERS` says how many octets urd_report, urd_repack
 * and any other call may use; that may be SLACK more than they do, and not less. Each call runs in a thread of its own on a
 * stack that was painted before, with long inputs of every width, without user bits and with them, and the lowest octet that is
 * no longer as painted tells.
 * The last line is 'N passed, M failed'. */
#define _GNU_SOURCE /* pthread_attr_setstack, MAP_ANONYMOUS */
#include "urdhvasolk.h"

#include <pthread.h>
#include <stdio.h>
#include <stdlib.h>
#include <string.h>
#include <sys/mman.h>

#define STACK (512 * 1024)
#define SLACK (8 * 1024)
#define PAINT 0xA5
#define MOST 65536

/* ---- the input: a clean take in which each cycle is a transfer, and those transfers ---- */

enum { DATA, POSITIONS, MIXED, ENDS, KINDS }; /* what is in its lanes */

static uint8_t take[MOST], transfers[MOST], beats[MOST], text[128], sheet[64];
static union { uint8_t octets[16 * MOST]; uint64_t numbers[2 * MOST]; } lent;
static size_t w, m, v, length, sheet_length, beats_length; /* width in, user bits, width out; octets of take and transfers, of sheet, of beats */

static size_t record_size(void) { return 7 + w + (w * m + 7) / 8; }

static void put_record(uint8_t *r, size_t i, int kind)
{
    unsigned all = (1u << w) - 1, some = (unsigned)i * 2654435761u >> 9;
    unsigned keep = kind == MIXED ? some & all : kind == ENDS ? 0 : all;
    unsigned strobe = kind == POSITIONS ? 0 : kind == MIXED ? keep & some >> 5 : keep;
    memset(r, (int)i, record_size());
    if (w * m % 8 != 0)
        r[record_size() - 1] &= (uint8_t)((1 << w * m % 8) - 1); /* no padding bit */
    r[0] = kind == ENDS || i % 5 == 0; /* TLAST */
    r[1] = i / 9 % 128;                /* TID, one that merging takes */
    r[2] = 3;                          /* TDEST */
    r[3] = (uint8_t)keep, r[4] = (uint8_t)(keep >> 8);
    r[5] = (uint8_t)strobe, r[6] = (uint8_t)(strobe >> 8);
}

/* As many records as a take can have. With `bad` TDEST of the very last one is 16, so that it is refused. */
static void fill(int kind, int bad)
{
    size_t size = record_size(), records = MOST / size;
    length = records * size;
    for (size_t i = 0; i < records; i++)
        put_record(transfers + i * size, i, kind);
    transfers[length - size + 2] = bad ? 16 : 3;
    memcpy(take, transfers, length);
    for (size_t i = 0; i < length; i += size)
        take[i] |= 14; /* TVALID, TREADY, ARESETn */
}

static void write_sheet(int lanes, const char *tlast)
{
    sheet_length = (size_t)snprintf((char *)sheet, sizeof sheet, "width_in=%zu\nwidth_out=%zu\nmode=%s\ntlast=%s\nuser=%zu\n", w, v, lanes ? "lanes" : "pack", tlast, m);
}

/* Write beats of one byte each, of each kind of burst, on a bus of 1 to 128 bytes: clean ones of DATA, else as many as a take can have.
 * With `bad` a bit that must be zero is set in the very last one. */
static uint32_t burst_kind(void) { return (uint32_t)v % 3; }
static uint32_t burst_len(void) { return burst_kind() == URD_INCR ? 255 : 15; }
static uint32_t burst_bus(void) { return 1u << (w - 1) / 2; }

static void fill_beats(int kind, int bad)
{
    size_t each = 1 + (burst_bus() + 7) / 8, last = kind == DATA ? burst_len() : MOST / each - 1;
    memset(beats, 0, sizeof beats);
    for (size_t k = 0; k <= burst_len(); k++) {
        size_t lane = burst_kind() == URD_FIXED ? 0 : k % burst_bus();
        beats[k * each + 1 + lane / 8] = (uint8_t)(1 << lane % 8);
    }
    beats[burst_len() * each] = 1; /* WLAST */
    beats[last * each] |= bad ? 2 : 0;
    beats_length = (last + 1) * each;
}

/* ---- the calls; each answers its refusal. In merging, a bad record is port 1's alone where v is odd ---- */

static uint32_t judge(void) { return urd_judge(w, m, take, length).refusal; }
static uint32_t harvest(void) { return urd_harvest(w, m, take, length, lent.octets, sizeof lent.octets).refusal; }
static uint32_t fill_in(void) { return urd_fill_in(w, m, take, length, (uint32_t)v % 2).refusal; }
static uint32_t data_octets(void) { return urd_data_octets(w, m, take, length, v).refusal; }
static uint32_t repack(void) { return urd_repack(w, m, v, transfers, length, lent.octets, sizeof lent.octets).refusal; }
static uint32_t downsize(void) { return urd_downsize(w, m, v, transfers, length, lent.octets, sizeof lent.octets).refusal; }
static uint32_t merge(void) { return urd_merge(w, m, transfers, length - v % 2 * record_size(), transfers, length, lent.octets, sizeof lent.octets).refusal; }
static uint32_t report(void) { return urd_report(sheet, sheet_length, 1, take, length, 1, lent.octets, sizeof lent.octets, text, sizeof text).refusal; }
static uint32_t burst_judge(void) { return urd_burst_judge(64, 15, 2, (uint32_t)v % 3, 4).refusal; }
static uint32_t burst_beat(void) { return urd_burst_beat(64, 15, 2, (uint32_t)v % 3, 4, (uint32_t)w - 1).refusal; }
static uint32_t burst_step(void) { return urd_burst_step(64, 15, 2, (uint32_t)v % 3, 4, (uint32_t)w - 1).refusal; }
static uint32_t axi3_cut(void) { return urd_axi3_cut(64, 16 * (uint32_t)w - 1, 0, URD_INCR, 4, lent.numbers, 5 * v).refusal; }
static uint32_t judge_writes(void) { return urd_judge_writes(0, burst_len(), 0, burst_kind(), burst_bus(), beats, beats_length).refusal; }

/* limit: which argument of the program is the call's. */
static const struct { const char *name; uint32_t (*call)(void); int limit; } calls[] = {
    {"urd_report", report, 1}, {"urd_repack", repack, 2}, {"urd_downsize", downsize, 3}, {"urd_judge", judge, 3},
    {"urd_harvest", harvest, 3}, {"urd_fill_in", fill_in, 3}, {"urd_data_octets", data_octets, 3},
    {"urd_burst_judge", burst_judge, 3}, {"urd_burst_beat", burst_beat, 3}, {"urd_burst_step", burst_step, 3}, {"urd_axi3_cut", axi3_cut, 3},
    {"urd_judge_writes", judge_writes, 3}, {"urd_merge", merge, 3},
};

/* ---- measuring ---- */

static uint32_t (*asked)(void);
static uint8_t *stack;
static size_t most, accepted; /* of one call: the most octets used, and how often it was accepted */

/* The call and then, in this very frame, the lowest octet that it wrote. */
static void *run(void *nothing)
{
    const uint8_t *here = __builtin_frame_address(0), *low = stack;
    accepted += asked() == 0;
    while (low < here && *low == PAINT)
        low++;
    if ((size_t)(here - low) > most)
        most = (size_t)(here - low);
    return nothing;
}

static void measure(void)
{
    pthread_t thread;
    pthread_attr_t attributes;
    memset(stack, PAINT, STACK);
    pthread_attr_init(&attributes);
    if (pthread_attr_setstack(&attributes, stack, STACK) != 0 || pthread_create(&thread, &attributes, run, NULL) != 0 || pthread_join(thread, NULL) != 0) {
        printf("no thread can be made\n0 passed, 1 failed\n");
        exit(1);
    }
    pthread_attr_destroy(&attributes);
}

/* One input at some widths out; the report in both modes, with each word for TLAST. */
static void measure_widths(int kind, int bad)
{
    static const size_t widths[] = {1, 2, 3, 8, 9, 16};
    static const char *const words[] = {"wired", "none", "low"};
    for (size_t i = 0; i < sizeof widths / sizeof widths[0]; i++)
        for (int sheets = 0; sheets < (asked == report ? 6 : 1); sheets++) {
            v = widths[i];
            fill(kind, bad);
            fill_beats(kind, bad);
            write_sheet(sheets % 2, words[sheets / 2]);
            measure();
        }
}

int main(int n, char **limits)
{
    size_t failed = 0, count = sizeof calls / sizeof calls[0];
    stack = mmap(NULL, STACK, PROT_READ | PROT_WRITE, MAP_PRIVATE | MAP_ANONYMOUS, -1, 0);
    if (n != 4 || stack == MAP_FAILED) {
        printf("stack REPORT REPACK OTHERS\n0 passed, 1 failed\n");
        return 1;
    }
    for (size_t i = 0; i < count; i++) {
        size_t limit = (size_t)atol(limits[calls[i].limit]);
        asked = calls[i].call;
        most = accepted = 0;
        for (w = 1; w <= 16; w++)
            for (int kind = 0; kind < 4 * KINDS; kind++) {
                m = kind < 2 * KINDS ? 0 : 1 + w % 4;
                measure_widths(kind / 2 % KINDS, kind % 2);
            }
        int good = accepted > 0 && most > 0 && most <= limit && limit <= most + SLACK;
        printf("%s: %zu octets of stack at most, %zu allowed, accepted %zu times%s\n", calls[i].name, most, limit, accepted, good ? "" : "  FAILED");
        failed += !good;
    }
    printf("%zu passed, %zu failed\n", count - failed, failed);
    return failed != 0;
}
