/* Paper 01's bench cases P1, S1 to S7 and B1 to B6 through C, with every answer and every octet typed from the paper;
 * then cuts, write beats, user bits and merging (paper 02, T-02, T-05, T-06 and T-08), archived files, the layout of the structs,
 * the refusals that no bench case gives, and numbers at the edges.
 * It is run from the project's root, because it reads the folder examples/archive.
 * The last line is 'N passed, M failed'. A case passes if all its checks do. */
#include "urdhvasolk.h"

#include <inttypes.h>
#include <stdio.h>
#include <string.h>

#define TAIL 0xC3 /* what every room holds before a call */

static int passed, failed, wrong;

static void check(int good, const char *what)
{
    if (!good) {
        wrong++;
        printf("  not so: %s\n", what);
    }
}

/* Runs one case and counts it once. */
static void run(const char *name, void (*body)(void))
{
    wrong = 0;
    body();
    printf("%s %s\n", name, wrong == 0 ? "ok" : "FAILED");
    if (wrong == 0)
        passed++;
    else
        failed++;
}

/* ---- typed octets ---- */

static size_t octets_of(const char *hex, uint8_t *to)
{
    size_t n = 0;
    unsigned octet;
    int used;
    while (sscanf(hex, "%x%n", &octet, &used) == 1) {
        to[n++] = (uint8_t)octet;
        hex += used;
    }
    return n;
}

static void stream_is(urd_stream_answer a, uint32_t refusal, uint32_t rule, uint64_t place, uint64_t count, const char *what)
{
    int good = a.refusal == refusal && a.rule == rule && a.place == place && a.count == count;
    check(good, what);
    if (!good)
        printf("    refusal %" PRIu32 ", rule %" PRIu32 ", place %" PRIu64 ", count %" PRIu64 "\n", a.refusal, a.rule, a.place, a.count);
}

static void burst_is(urd_burst_answer a, uint32_t refusal, uint64_t address, uint32_t lower, uint32_t upper, int32_t step, const char *what)
{
    int good = a.refusal == refusal && a.address == address && a.lower == lower && a.upper == upper && a.step == step;
    check(good, what);
    if (!good)
        printf("    refusal %" PRIu32 ", address 0x%" PRIx64 ", lanes %" PRIu32 " to %" PRIu32 ", step %" PRId32 "\n", a.refusal, a.address, a.lower, a.upper, a.step);
}

/* The room afterwards: the octets, then what it held before. */
static void room_is(const uint8_t *room, size_t length, const char *hex, const char *what)
{
    static uint8_t expected[4096];
    size_t n = octets_of(hex, expected);
    memset(expected + n, TAIL, length - n);
    check(memcmp(room, expected, length) == 0, what);
}

typedef urd_stream_answer (*writer)(size_t, size_t, size_t, const uint8_t *, size_t, uint8_t *, size_t);

static urd_stream_answer harvest(size_t width, size_t user, size_t v, const uint8_t *capture, size_t length, uint8_t *out, size_t room)
{
    (void)v;
    return urd_harvest(width, user, capture, length, out, room);
}

/* An accepted writing call: into a larger room, into an exact one, and refused (5) where one octet is missing. */
static void writes(writer call, size_t width, size_t user, size_t v, const char *in, uint64_t count, const char *out)
{
    static uint8_t input[4096], room[4096];
    size_t length = octets_of(in, input), need = octets_of(out, room);
    memset(room, TAIL, sizeof room);
    stream_is(call(width, user, v, input, length, room, need + 9), 0, 0, 0, count, "a larger room");
    room_is(room, sizeof room, out, "octets of a larger room");
    memset(room, TAIL, sizeof room);
    stream_is(call(width, user, v, input, length, room, need), 0, 0, 0, count, "an exact room");
    room_is(room, sizeof room, out, "octets of an exact room");
    if (need == 0)
        return;
    memset(room, TAIL, sizeof room);
    stream_is(call(width, user, v, input, length, room, need - 1), URD_ROOM, 0, 0, 0, "one octet too few");
    room_is(room, sizeof room, "", "a room too small is unchanged");
}

/* A refused writing call: its numbers, and the room as it was. */
static void refuses(writer call, size_t width, size_t user, size_t v, const char *in, uint32_t refusal, uint32_t rule, uint64_t place, const char *what)
{
    static uint8_t input[4096], room[256];
    size_t length = octets_of(in, input);
    memset(room, TAIL, sizeof room);
    stream_is(call(width, user, v, input, length, room, sizeof room), refusal, rule, place, 0, what);
    room_is(room, sizeof room, "", "a refused room is unchanged");
}

/* ---- the stream cases ---- */

#define TAKE "0F 01 02 0D 00 09 00 11 22 33 44"
#define TRANSFER "01 01 02 0D 00 09 00 11 22 33 44"
#define ITEM "00 00 00 01 00 01 00 AA"     /* S3's first record */
#define END_ONLY "01 00 00 00 00 00 00 00" /* S3's second record */

static void p1(void)
{
    uint8_t take[11];
    size_t length = octets_of(TAKE, take);
    stream_is(urd_judge(4, 0, take, length), 0, 0, 0, 1, "judged clean, 1 transfer");
    writes(harvest, 4, 0, 4, TAKE, 1, TRANSFER);
    writes(urd_repack, 4, 0, 2, TRANSFER, 2, "00 01 02 03 00 01 00 11 00 01 01 02 01 00 01 00 44 00");
}

/* ---- the report ---- */

#define SHEET "width_in=4\nwidth_out=2\nmode=pack\ntlast=wired\nuser=0\n"

/* One report: its numbers, its text, its result, and every octet of both rooms. */
static void reports(const char *sheet, uint32_t sheet_read, const char *take, uint32_t take_read, size_t out_length, size_t text_length, urd_report_answer expected, const char *told, const char *result, const char *what)
{
    uint8_t input[256], out[128], text[128], lines[128];
    size_t length = octets_of(take, input);
    memset(out, TAIL, sizeof out);
    memset(text, TAIL, sizeof text);
    memset(lines, TAIL, sizeof lines);
    memcpy(lines, told, strlen(told));
    urd_report_answer a = urd_report((const uint8_t *)sheet, strlen(sheet), sheet_read, input, length, take_read, out, out_length, text, text_length);
    check(a.verdict == expected.verdict && a.refusal == expected.refusal && a.rule == expected.rule && a.place == expected.place, what);
    check(a.transfers == expected.transfers && a.packets == expected.packets && a.records == expected.records, what);
    check(a.text == strlen(told) && a.octets == octets_of(result, input), "how long text and result are");
    check(memcmp(text, lines, sizeof text) == 0, "the text, and nothing else");
    room_is(out, sizeof out, result, "the result, and nothing else");
}

static void p1_report(void)
{
    const urd_report_answer clean = {URD_CLEAN, 0, 0, 0, 1, 1, 2, 0, 0};
    const char *told = "verdict=clean\ntransfers=1\npackets=1\nrecords=2\n";
    const char *result = "00 01 02 03 00 01 00 11 00 01 01 02 01 00 01 00 44 00";
    reports(SHEET, 1, TAKE, 1, 128, 128, clean, told, result, "P1");
    reports(SHEET, 0x80000000, TAKE, 256, 18, strlen(told), clean, told, result, "P1 in rooms that just fit");
    reports(SHEET, 1, TAKE, 1, 18, strlen(told) - 1, clean, "", result, "P1, and no room for the text");
}

static void report_refusals(void)
{
    const urd_report_answer sheet = {URD_REFUSED, URD_SHEET, 0, 0, 0, 0, 0, 0, 0}, length = {URD_REFUSED, URD_LENGTH, 0, 0, 0, 0, 0, 0, 0};
    const urd_report_answer field = {URD_REFUSED, URD_FIELD, 0, 1, 0, 0, 0, 0, 0}, room = {URD_REFUSED, URD_ROOM, 0, 0, 0, 0, 0, 0, 0};
    const urd_report_answer broken = {URD_BROKEN, 0, 3, 1, 0, 0, 0, 0, 0};
    reports(SHEET, 0, TAKE, 1, 128, 128, sheet, "verdict=refused\nrefusal=15\nat=0\n", "", "a sheet that can't be read");
    reports("width_in=4\n", 1, TAKE, 0, 128, 128, sheet, "verdict=refused\nrefusal=15\nat=0\n", "", "15 before 2");
    reports(SHEET, 1, TAKE, 0, 128, 128, length, "verdict=refused\nrefusal=2\nat=0\n", "", "a take that can't be read");
    reports(SHEET, 1, TAKE " 1F 01 02 0D 00 09 00 11 22 33 44", 1, 128, 128, field, "verdict=refused\nrefusal=3\nat=1\n", "", "a field of record 1");
    reports(SHEET, 1, "0A 01 02 0D 00 09 00 11 22 33 44 " TAKE, 1, 0, 128, broken, "verdict=broken\ncycle=1\nrule=3\n", "", "broken before 5");
    reports(SHEET, 1, TAKE, 1, 17, 128, room, "verdict=refused\nrefusal=5\nat=0\n", "", "one octet too few");
}

static void s1(void) { writes(urd_repack, 4, 0, 4, TRANSFER, 1, "01 01 02 07 00 05 00 11 00 44 00"); }
static void s2(void) { writes(urd_downsize, 4, 0, 2, TRANSFER, 2, "00 01 02 01 00 01 00 11 00 01 01 02 03 00 02 00 00 44"); }
static void s3(void) { writes(urd_repack, 1, 0, 1, ITEM " " END_ONLY, 1, "01 00 00 01 00 01 00 AA"); }
static void s4(void) { writes(urd_repack, 1, 0, 1, END_ONLY " " END_ONLY, 2, END_ONLY " " END_ONLY); }
static void s5(void) { writes(urd_repack, 1, 0, 1, "00 00 00 00 00 00 00 00", 0, ""); }

static void s6(void)
{
    for (size_t w = 1; w <= 16; w++)
        for (size_t v = 1; v <= 16; v++)
            writes(urd_repack, w, 0, v, "", 0, "");
}

static void s7(void)
{
    char out[3 * 3 * 23 + 1]; /* three characters an octet */
    for (size_t v = 1; v <= 16; v++) {
        out[0] = 0;
        for (int i = 0; i < 3; i++) {
            strcat(out, i == 1 ? "00 02 00 01 00 01 00 5A " : "00 01 00 01 00 01 00 5A ");
            for (size_t lane = 1; lane < v; lane++)
                strcat(out, "00 ");
        }
        writes(urd_repack, 1, 0, v, "00 01 00 01 00 01 00 5A 00 02 00 01 00 01 00 5A 00 01 00 01 00 01 00 5A", 3, out);
    }
}

/* ---- the burst cases; beats are AxLEN + 1 ---- */

static void judged(uint32_t start, uint32_t beats, uint32_t size, uint32_t kind, uint32_t bus, uint32_t refusal, const char *what)
{
    burst_is(urd_burst_judge(start, beats - 1, size, kind, bus), refusal, 0, 0, 0, 0, what);
}

static void b1(void)
{
    judged(0x1002, 3, 2, URD_INCR, 4, 0, "accepted");
    burst_is(urd_burst_beat(0x1002, 2, 2, URD_INCR, 4, 0), 0, 0x1002, 2, 3, 0, "beat 0");
    burst_is(urd_burst_beat(0x1002, 2, 2, URD_INCR, 4, 1), 0, 0x1004, 0, 3, 0, "beat 1");
    burst_is(urd_burst_beat(0x1002, 2, 2, URD_INCR, 4, 2), 0, 0x1008, 0, 3, 0, "beat 2");
    burst_is(urd_burst_beat(0x1002, 2, 2, URD_INCR, 4, 3), URD_INDEX, 0, 0, 0, 0, "no beat 3");
    burst_is(urd_burst_step(0x1002, 2, 2, URD_INCR, 4, 0), 0, 0, 0, 0, 2, "step 0");
    burst_is(urd_burst_step(0x1002, 2, 2, URD_INCR, 4, 1), 0, 0, 0, 0, 4, "step 1");
    burst_is(urd_burst_step(0x1002, 2, 2, URD_INCR, 4, 2), URD_INDEX, 0, 0, 0, 0, "no step 2");
}

static void b2(void)
{
    for (uint32_t beats = 1; beats <= 16; beats++) {
        for (uint32_t k = 0; k < beats; k++)
            burst_is(urd_burst_beat(0x1002, beats - 1, 2, URD_FIXED, 4, k), 0, 0x1002, 2, 3, 0, "each beat");
        for (uint32_t k = 0; k + 1 < beats; k++)
            burst_is(urd_burst_step(0x1002, beats - 1, 2, URD_FIXED, 4, k), 0, 0, 0, 0, 0, "each step");
    }
}

static void b3(void)
{
    static const uint64_t address[] = {0x34, 0x38, 0x3C, 0x30};
    static const uint32_t lower[] = {4, 0, 4, 0}, upper[] = {7, 3, 7, 3};
    static const int32_t step[] = {4, 4, -12};
    judged(0x34, 4, 2, URD_WRAP, 8, 0, "accepted");
    for (uint32_t k = 0; k < 4; k++)
        burst_is(urd_burst_beat(0x34, 3, 2, URD_WRAP, 8, k), 0, address[k], lower[k], upper[k], 0, "each beat");
    for (uint32_t k = 0; k < 3; k++)
        burst_is(urd_burst_step(0x34, 3, 2, URD_WRAP, 8, k), 0, 0, 0, 0, step[k], "each step");
    burst_is(urd_burst_beat(0x34, 3, 2, URD_WRAP, 8, 4), URD_INDEX, 0, 0, 0, 0, "no beat 4");
    burst_is(urd_burst_step(0x34, 3, 2, URD_WRAP, 8, 3), URD_INDEX, 0, 0, 0, 0, "no step 3");
}

static void b4(void)
{
    for (uint32_t bus = 4; bus <= 128; bus *= 2) {
        judged(0xFF2, 4, 2, URD_INCR, bus, 0, "4 beats");
        judged(0xFF2, 5, 2, URD_INCR, bus, URD_FENCE, "5 beats");
    }
}

static void b5(void)
{
    judged(0x1001, 256, 4, URD_INCR, 16, 0, "0x1001");
    judged(0x1010, 256, 4, URD_INCR, 16, URD_FENCE, "0x1010");
}

static void b6(void)
{
    judged(0x1000, 16, 2, URD_FIXED, 4, 0, "FIXED of 16");
    judged(0x1000, 17, 2, URD_FIXED, 4, URD_COUNT, "FIXED of 17");
    judged(0x1000, 3, 2, URD_WRAP, 4, URD_COUNT, "WRAP of 3");
    judged(0x32, 4, 2, URD_WRAP, 4, URD_ALIGN, "WRAP 0x32");
}

/* ---- bursts cut for AXI3 boards (paper 02, T-02) ---- */

#define ROW 17

/* A cut into a row of `room` bursts and `rest` numbers more: its numbers, the bursts expected, and the row beyond as it was. */
static void cut_is(uint32_t start, uint32_t beats, uint32_t size, uint32_t kind, uint32_t bus, size_t room, size_t rest, uint32_t refusal, const urd_burst *bursts, size_t count, const char *what)
{
    urd_burst row[ROW], expected[ROW];
    memset(row, TAIL, sizeof row);
    memset(expected, TAIL, sizeof expected);
    if (count > 0)
        memcpy(expected, bursts, count * sizeof *bursts);
    urd_cut_answer a = urd_axi3_cut(start, beats - 1, size, kind, bus, (uint64_t *)row, 5 * room + rest);
    check(a.refusal == refusal && a.count == count, what);
    check(memcmp(row, expected, sizeof row) == 0, what);
}

static void cuts(void)
{
    static const urd_burst two[] = {{0x1002, 15, 2, URD_INCR, 4}, {0x1040, 0, 2, URD_INCR, 4}};
    static const urd_burst top[] = {{0xFFFFF001, 15, 7, URD_INCR, 128}, {0xFFFFF800, 15, 7, URD_INCR, 128}};
    cut_is(0x1002, 17, 2, URD_INCR, 4, 16, 4, 0, two, 2, "17 beats from an unaligned start");
    cut_is(0x1002, 17, 2, URD_INCR, 4, 2, 0, 0, two, 2, "a row of two");
    cut_is(0x1002, 17, 2, URD_INCR, 4, 1, 4, URD_ROOM, NULL, 0, "nine numbers");
    cut_is(0x1002, 16, 2, URD_INCR, 4, 1, 0, 0, two, 1, "16 beats are one burst");
    cut_is(0xFFFFF001, 32, 7, URD_INCR, 128, 2, 0, 0, top, 2, "up to the last byte of memory");
}

static void cut_longest(void)
{
    urd_burst all[16];
    for (uint64_t j = 0; j < 16; j++)
        all[j] = (urd_burst){j == 0 ? 0x1001 : 0x1000 + 0x100 * j, 15, 4, URD_INCR, 16};
    cut_is(0x1001, 256, 4, URD_INCR, 16, 16, 0, 0, all, 16, "256 beats");
    cut_is(0x1001, 256, 4, URD_INCR, 16, 15, 4, URD_ROOM, NULL, 0, "a row of 15");
    all[15].len = 14;
    cut_is(0x1001, 255, 4, URD_INCR, 16, 17, 0, 0, all, 16, "255 beats");
}

static void cut_others(void)
{
    static const urd_burst fixed = {0x1002, 15, 2, URD_FIXED, 4}, wrap = {0x34, 15, 2, URD_WRAP, 8};
    cut_is(0x1002, 16, 2, URD_FIXED, 4, 2, 0, 0, &fixed, 1, "FIXED as itself");
    cut_is(0x34, 16, 2, URD_WRAP, 8, 2, 0, 0, &wrap, 1, "WRAP as itself");
    cut_is(5, 1, 0, URD_FIXED, 1, 0, 4, URD_ROOM, NULL, 0, "FIXED and four numbers");
    cut_is(0x1FFF, 257, 8, 3, 3, 0, 0, URD_BUS, NULL, 0, "7 first");
    cut_is(0x1FFF, 257, 8, 3, 4, 0, 0, URD_SIZE, NULL, 0, "8 before 9");
    cut_is(0x1FFF, 257, 2, 3, 4, 0, 0, URD_TYPE, NULL, 0, "9 before 10");
    cut_is(0xFF1, 257, 2, URD_INCR, 4, 0, 0, URD_COUNT, NULL, 0, "10 before 12");
    cut_is(0x32, 4, 2, URD_WRAP, 4, 0, 0, URD_ALIGN, NULL, 0, "11 before 5");
    cut_is(0x1010, 256, 4, URD_INCR, 16, 0, 0, URD_FENCE, NULL, 0, "12 before 5");
}

/* ---- write beats (paper 02, T-05) ---- */

#define B1 0x1002, 2, 2, URD_INCR, 4                   /* lanes 2-3, 0-3, 0-3 */
#define B2(beats) 0x1002, (beats) - 1, 2, URD_FIXED, 4 /* lanes 2-3 in each beat */
#define B3 0x34, 3, 2, URD_WRAP, 8                     /* lanes 4-7, 0-3, 4-7, 0-3 */
#define ONE 0x1000, 0, 2, URD_INCR, 4                  /* one beat of four lanes */
#define TWO 0x1000, 1, 2, URD_INCR, 4                  /* two of them */

static void write_is(urd_write_answer a, uint32_t refusal, uint32_t rule, uint64_t place, uint64_t strobes, const char *what)
{
    int good = a.refusal == refusal && a.rule == rule && a.place == place && a.strobes == strobes;
    check(good, what);
    if (!good)
        printf("    refusal %" PRIu32 ", rule %" PRIu32 ", place %" PRIu64 ", strobes %" PRIu64 "\n", a.refusal, a.rule, a.place, a.strobes);
}

static void beats_are(uint32_t start, uint32_t len, uint32_t size, uint32_t kind, uint32_t bus, const char *hex, uint32_t refusal, uint32_t rule, uint64_t place, uint64_t strobes, const char *what)
{
    uint8_t take[64];
    size_t length = octets_of(hex, take);
    write_is(urd_judge_writes(start, len, size, kind, bus, take, length), refusal, rule, place, strobes, what);
}

/* On a bus of 8 lanes or fewer, each strobe of each beat alone: clean on the lanes of the beat, W1 at that beat on any other. */
static void lanes_are(uint32_t start, uint32_t len, uint32_t size, uint32_t kind, uint32_t bus, const uint8_t *lanes, uint64_t all, const char *what)
{
    uint8_t take[2 * 16] = {0};
    take[2 * len] = 1;
    for (uint32_t k = 0; k <= len; k++)
        for (uint32_t lane = 0; lane < bus; lane++) {
            uint32_t stray = !(lanes[k] >> lane & 1);
            take[2 * k + 1] = (uint8_t)(1 << lane);
            write_is(urd_judge_writes(start, len, size, kind, bus, take, 2 * (len + 1)), 0, stray, stray ? k : 0, !stray, what);
            take[2 * k + 1] = 0;
        }
    write_is(urd_judge_writes(start, len, size, kind, bus, take, 2 * (len + 1)), 0, 0, 0, 0, "no strobe at all");
    for (uint32_t k = 0; k <= len; k++)
        take[2 * k + 1] = lanes[k];
    write_is(urd_judge_writes(start, len, size, kind, bus, take, 2 * (len + 1)), 0, 0, 0, all, "every lane of each beat");
}

static void write_lanes(void)
{
    static const uint8_t lanes1[] = {0x0C, 0x0F, 0x0F}, lanes3[] = {0xF0, 0x0F, 0xF0, 0x0F};
    uint8_t lanes2[16];
    memset(lanes2, 0x0C, sizeof lanes2);
    lanes_are(B1, lanes1, 10, "B1");
    for (uint32_t beats = 1; beats <= 16; beats++)
        lanes_are(B2(beats), lanes2, 2 * beats, "B2");
    lanes_are(B3, lanes3, 16, "B3");
    beats_are(B1, "00 04 00 00 01 0A", 0, 0, 0, 3, "some lanes of each beat");
    beats_are(0x34, 1, 2, URD_WRAP, 16, "00 F0 00 01 0F 00", 0, 0, 0, 8, "a WRAP within the bus: lanes 4-7, 0-3");
    beats_are(0x34, 1, 2, URD_WRAP, 16, "00 F0 00 01 00 0F", 0, 1, 1, 0, "and not those of an INCR, 4-7, 8-11");
    beats_are(0xFFFFFFFB, 1, 2, URD_INCR, 8, "00 08 01 F0", 0, 0, 0, 5, "up to the last byte of memory");
}

static void write_rules(void)
{
    beats_are(B1, "00 0E 00 0F 01 0F", 0, 1, 0, 0, "W1 below the lower lane");
    beats_are(B3, "00 F0 00 1F 00 F0 01 0F", 0, 1, 1, 0, "W1 above the upper lane");
    beats_are(B3, "00 F0 00 0F 00 F8 01 0F", 0, 1, 2, 0, "W1 in beat 2");
    beats_are(B1, "00 0C 01 0F 01 0F", 0, 2, 1, 0, "W2");
    beats_are(B1, "00 0C 00 0F 00 0F", 0, 3, 2, 0, "W3");
    beats_are(TWO, "00 0F 01 0F 00 00", 0, 4, 2, 0, "W4");
    beats_are(TWO, "00 0F 01 0F 01 0F 01 0F", 0, 4, 2, 0, "W4 with WLAST and strobes, the first of two");
    beats_are(0x1000, 1, 0, URD_INCR, 4, "00 01 01 02 01 0F", 0, 4, 2, 0, "W1 does not read a beat past the last");
    beats_are(B1, "00 0C 00 0F", 0, 5, 2, 0, "W5");
    beats_are(B1, "", 0, 5, 0, 0, "W5 of an empty take");
    beats_are(B1, "01 0F 00 0F 01 0F", 0, 1, 0, 0, "W1 before W2 in a beat");
    beats_are(B3, "00 F0 00 0F 00 F0 00 FF", 0, 1, 3, 0, "W1 before W3 in a beat");
    beats_are(B1, "01 0C 00 0F 01 0F", 0, 2, 0, 0, "W2 in beat 0");
    beats_are(B2(2), "01 0C 01 0F", 0, 2, 0, 0, "an earlier W2 before a later W1");
    beats_are(TWO, "00 0F 00 0F 01 0F", 0, 3, 1, 0, "three beats for two, WLAST on the third: W3 at 1");
    beats_are(B1, "00 0C 01 0F", 0, 2, 1, 0, "too few, and one that is given breaks a rule");
    beats_are(ONE, "01 0A", 0, 0, 0, 2, "one beat");
    beats_are(ONE, "00 0F", 0, 3, 0, 0, "W3 of one beat");
    beats_are(ONE, "01 0F 00 0F", 0, 4, 1, 0, "W4 of one beat");
    beats_are(ONE, "", 0, 5, 0, 0, "W5 of one beat");
}

#define LONGEST 0x1000, 255, 0, URD_INCR, 8 /* 256 beats of one byte, beat k on lane k mod 8 */

static void write_lengths(void)
{
    static uint8_t take[65552];
    for (uint32_t size = 0, bus = 1; bus <= 128; size++, bus *= 2) {
        uint32_t length = bus < 8 ? 2 : 1 + bus / 8;
        memset(take, 0, sizeof take);
        take[0] = 1;
        memset(take + 1, bus < 8 ? (1 << bus) - 1 : 0xFF, length - 1);
        write_is(urd_judge_writes(0, 0, size, URD_INCR, bus, take, length), 0, 0, 0, bus, "all lanes of a bus");
        write_is(urd_judge_writes(bus - 1, 0, 0, URD_INCR, bus, take, length), 0, bus > 1, 0, bus == 1, "all lanes, and only the highest is the beat's");
        write_is(urd_judge_writes(0, 0, size, URD_INCR, bus, take, length - 1), URD_LENGTH, 0, 0, 0, "an octet too few");
    }
    beats_are(8, 0, 3, URD_INCR, 16, "01 00 FF", 0, 0, 0, 8, "low octet first");
    beats_are(8, 0, 3, URD_INCR, 16, "01 FF 00", 0, 1, 0, 0, "and not high octet first");
    beats_are(3, 0, 5, URD_INCR, 32, "01 F8 FF FF FF", 0, 0, 0, 29, "lanes 3 to 31");
    memset(take, 0, sizeof take);
    for (size_t k = 0; k < 256; k++)
        take[2 * k + 1] = (uint8_t)(1 << k % 8);
    write_is(urd_judge_writes(LONGEST, take, 510), 0, 5, 255, 0, "255 beats for 256");
    write_is(urd_judge_writes(LONGEST, take, 512), 0, 3, 255, 0, "256 beats and no WLAST");
    take[510] = 1;
    write_is(urd_judge_writes(LONGEST, take, 512), 0, 0, 0, 256, "256 beats");
    write_is(urd_judge_writes(LONGEST, take, 514), 0, 4, 256, 0, "257 beats for 256");
    write_is(urd_judge_writes(LONGEST, take, 65536), 0, 4, 256, 0, "65,536 octets");
    write_is(urd_judge_writes(LONGEST, take, 65538), URD_LENGTH, 0, 0, 0, "one record more");
    write_is(urd_judge_writes(0xFF2, 4, 2, URD_INCR, 4, take, 65538), URD_FENCE, 0, 0, 0, "12 before 2 of a take that is too long");
    take[65535] = 0x80;
    write_is(urd_judge_writes(LONGEST, take, 65536), 0, 4, 256, 0, "any strobe in the last record");
    take[65534] = 0x80;
    write_is(urd_judge_writes(LONGEST, take, 65536), URD_FIELD, 0, 32767, 0, "3 in the last record");
    memset(take, 0, sizeof take);
    take[0] = 1;
    write_is(urd_judge_writes(0, 0, 7, URD_INCR, 128, take, 3855 * 17), 0, 4, 1, 0, "65,535 octets of 17 each");
    write_is(urd_judge_writes(0, 0, 7, URD_INCR, 128, take, 3856 * 17), URD_LENGTH, 0, 0, 0, "one more of 17");
}

static void write_refusals(void)
{
    static const uint32_t big[] = {256, 0x7FFFFFFF, 0x80000000, 0xFFFFFFFF};
    uint8_t take[2];
    for (uint32_t bit = 1; bit < 8; bit++)
        for (uint8_t last = 0; last < 2; last++) {
            take[0] = (uint8_t)(1 << bit | last), take[1] = 0x0F;
            write_is(urd_judge_writes(ONE, take, 2), URD_FIELD, 0, 0, 0, "3 for a bit beside WLAST");
        }
    for (uint32_t bus = 1; bus <= 4; bus *= 2)
        for (uint32_t bit = bus; bit < 8; bit++) {
            take[0] = 1, take[1] = (uint8_t)(1 << bit);
            write_is(urd_judge_writes(0, 0, 0, URD_INCR, bus, take, 2), URD_FIELD, 0, 0, 0, "3 and not W1 for a strobe at or above the bus");
        }
    beats_are(TWO, "01 0F 01 1F", URD_FIELD, 0, 1, 0, "3 behind a broken rule");
    beats_are(ONE, "01 0F 00 0F 04 00", URD_FIELD, 0, 2, 0, "3 in a beat past the last");
    beats_are(B1, "02 0C", URD_FIELD, 0, 0, 0, "3 where there are too few");
    beats_are(B1, "00 0C 02 0F 03 0F", URD_FIELD, 0, 1, 0, "the first of two");
    beats_are(ONE, "02", URD_LENGTH, 0, 0, 0, "2 before 3");
    beats_are(8, 0, 3, URD_INCR, 16, "01 FF", URD_LENGTH, 0, 0, 0, "two octets where a record has three");
    beats_are(0x1FFF, 256, 8, 3, 3, "02", URD_BUS, 0, 0, 0, "7 first");
    beats_are(0x1FFF, 256, 8, 3, 4, "02", URD_SIZE, 0, 0, 0, "8 before 9");
    beats_are(0x1FFF, 256, 2, 3, 4, "02", URD_TYPE, 0, 0, 0, "9 before 10");
    beats_are(0xFF1, 256, 2, URD_INCR, 4, "02", URD_COUNT, 0, 0, 0, "10 before 12");
    beats_are(0x32, 3, 2, URD_WRAP, 4, "02", URD_ALIGN, 0, 0, 0, "11 before 2");
    beats_are(0xFF2, 4, 2, URD_INCR, 4, "02", URD_FENCE, 0, 0, 0, "12 before 2");
    beats_are(0xFF2, 4, 2, URD_INCR, 4, "02 00", URD_FENCE, 0, 0, 0, "12 before 3");
    for (size_t i = 0; i < sizeof big / sizeof big[0]; i++) {
        beats_are(0, 0, 0, 1, big[i], "01 01", URD_BUS, 0, 0, 0, "bus");
        beats_are(0, 0, big[i], 1, 4, "01 01", URD_SIZE, 0, 0, 0, "size");
        beats_are(0, 0, 0, big[i], 4, "01 01", URD_TYPE, 0, 0, 0, "kind");
        beats_are(0, big[i], 0, 1, 4, "01 01", URD_COUNT, 0, 0, 0, "len");
    }
}

/* ---- user bits (paper 02, T-06) ---- */

#define TAGS " ED" /* two user bits to each byte of P1's record: 1, 3, 2, 3 on lanes 0 to 3, and lane 1 is null */

static void user_bits(void)
{
    uint8_t take[24], low[24];
    size_t length = octets_of(TAKE TAGS " " TAKE TAGS, take);
    octets_of("0E 01 02 0D 00 09 00 11 22 33 44 ED 0E 01 02 0D 00 09 00 11 22 33 44 ED", low);
    stream_is(urd_judge(4, 2, take, length), 0, 0, 0, 2, "judged clean, 2 transfers");
    writes(harvest, 4, 2, 4, TAKE TAGS, 1, TRANSFER TAGS);
    writes(urd_repack, 4, 2, 2, TRANSFER TAGS, 2, "00 01 02 03 00 01 00 11 00 09 01 01 02 01 00 01 00 44 00 03");
    writes(urd_downsize, 4, 2, 2, TRANSFER TAGS, 2, "00 01 02 01 00 01 00 11 00 01 01 01 02 03 00 02 00 00 44 0E");
    writes(urd_repack, 3, 3, 2, "00 01 02 05 00 01 00 11 22 33 B9 01 01 01 02 01 00 01 00 44 55 66 05 00", 2,
           "00 01 02 03 00 01 00 11 00 31 01 01 02 01 00 01 00 44 00 05");
    urd_part_answer a = urd_data_octets(4, 2, take, length, 1);
    check(a.refusal == 0 && a.start == 19 && a.length == 4, "data octets without the user bits");
    stream_is(urd_fill_in(4, 2, take, length, 0), 0, 0, 0, 2, "2 records, low");
    check(memcmp(take, low, length) == 0, "TLAST cleared, nothing else");
}

/* Each user bit of 16 data bytes alone: it is found with its byte, and no other is there. */
static void user_places(void)
{
    uint8_t input[31], out[16 * 9];
    for (size_t m = 1; m <= 4; m++)
        for (size_t bit = 0; bit < 16 * m; bit++) {
            memset(input, 0, sizeof input);
            memset(input + 3, 0xFF, 4);
            input[23 + bit / 8] = (uint8_t)(1 << bit % 8);
            stream_is(urd_repack(16, m, 1, input, 23 + 2 * m, out, sizeof out), 0, 0, 0, 16, "16 records");
            for (size_t x = 0; x < 16; x++)
                check(out[9 * x + 8] == (bit / m == x ? 1 << bit % m : 0), "each bit with its byte");
        }
}

/* Each bit of a record's user octets, of every shape: R3 where it changes in a waiting record, on null lanes too; 3 in the padding. */
static void user_octets(void)
{
    uint8_t take[2 * 31];
    for (size_t w = 1; w <= 16; w++)
        for (size_t m = 1; m <= 4; m++) {
            size_t octets = (w * m + 7) / 8, size = 7 + w + octets;
            for (size_t bit = 0; bit < 8 * octets; bit++) {
                int padding = bit >= w * m;
                memset(take, 0, sizeof take);
                take[0] = 0x0A, take[size] = 0x0E;
                take[size + 7 + w + bit / 8] = (uint8_t)(1 << bit % 8);
                stream_is(urd_judge(w, m, take, 2 * size), padding ? URD_FIELD : 0, padding ? 0 : 3, 1, 0, "a user bit turns");
            }
        }
}

static void user_lengths(void)
{
    static const size_t full[][2] = {{8, 1}, {7, 2}, {6, 3}, {6, 4}}; /* records of 16 octets */
    static uint8_t take[65552], out[377424];
    size_t length = 2621 * 25;
    for (size_t i = 0; i < sizeof full / sizeof full[0]; i++) {
        stream_is(urd_judge(full[i][0], full[i][1], take, 65536), 0, 0, 0, 0, "65,536 octets");
        stream_is(urd_judge(full[i][0], full[i][1], take, 65552), URD_LENGTH, 0, 0, 0, "one record more");
        stream_is(urd_judge(full[i][0], full[i][1], take, 65535), URD_LENGTH, 0, 0, 0, "no whole number of records");
    }
    for (size_t at = 0; at < length; at += 25)
        memset(take + at + 3, 0xFF, 4);
    stream_is(urd_repack(16, 1, 1, take, length, out, sizeof out), 0, 0, 0, 41936, "the longest result");
    stream_is(urd_repack(16, 1, 1, take, length, out, sizeof out - 1), URD_ROOM, 0, 0, 0, "one octet too few");
}

static void user_refusals(void)
{
    static const size_t user[] = {5, 8, 255, (size_t)1 << 32, SIZE_MAX / 2, SIZE_MAX};
    uint8_t take[8] = {0x0F};
    for (size_t i = 0; i < sizeof user / sizeof user[0]; i++) {
        stream_is(urd_judge(16, user[i], take, 7), URD_USERBITS, 0, 0, 0, "16 before 2");
        stream_is(urd_judge(17, user[i], take, 8), URD_WIDTH, 0, 0, 0, "1 before 16");
        stream_is(urd_fill_in(1, user[i], take, 8, 0), URD_USERBITS, 0, 0, 0, "fill-in");
        check(take[0] == 0x0F, "refused, it is unchanged");
        check(urd_data_octets(1, user[i], take, 8, 9).refusal == URD_USERBITS, "16 before 13");
        refuses(harvest, 1, user[i], 1, "02 00 00 00 00 00 00 00", URD_USERBITS, 0, 0, "16 before 14");
        refuses(urd_repack, 1, user[i], 17, ITEM, URD_WIDTH, 0, 0, "1 of the width out before 16");
        refuses(urd_repack, 1, user[i], 1, "02", URD_USERBITS, 0, 0, "repack");
        refuses(urd_downsize, 4, user[i], 3, "", URD_USERBITS, 0, 0, "16 before 6");
    }
    stream_is(urd_judge(16, 4, take, 0), 0, 0, 0, 0, "4 are allowed");
}

/* A sheet with these widths, this mode and these user bits. */
#define USER_SHEET(in, out, mode, user) "width_in=" in "\nwidth_out=" out "\nmode=" mode "\ntlast=wired\nuser=" user "\n"

static void user_report(void)
{
    const urd_report_answer clean = {URD_CLEAN, 0, 0, 0, 1, 1, 2, 0, 0}, sheet = {URD_REFUSED, URD_SHEET, 0, 0, 0, 0, 0, 0, 0};
    const urd_report_answer width = {URD_REFUSED, URD_WIDTH, 0, 0, 0, 0, 0, 0, 0}, user = {URD_REFUSED, URD_USERBITS, 0, 0, 0, 0, 0, 0, 0};
    const char *no_sheet = "verdict=refused\nrefusal=15\nat=0\n", *no_width = "verdict=refused\nrefusal=1\nat=0\n", *no_user = "verdict=refused\nrefusal=16\nat=0\n";
    reports(USER_SHEET("4", "2", "pack", "2"), 1, TAKE TAGS, 1, 20, 128, clean, "verdict=clean\ntransfers=1\npackets=1\nrecords=2\n",
            "00 01 02 03 00 01 00 11 00 09 01 01 02 01 00 01 00 44 00 03", "P1 with user bits");
    reports(USER_SHEET("4", "2", "pack", "5"), 1, TAKE TAGS, 0, 20, 128, user, no_user, "", "16 before 2");
    reports(USER_SHEET("4", "3", "lanes", "9"), 1, TAKE TAGS, 1, 20, 128, user, no_user, "", "16 before 6");
    reports(USER_SHEET("17", "2", "pack", "5"), 1, TAKE TAGS, 1, 20, 128, width, no_width, "", "1 before 16");
    reports(USER_SHEET("4", "2", "pack", "10"), 1, TAKE TAGS, 1, 20, 128, sheet, no_sheet, "", "two digits");
    reports("width_in=4\nwidth_out=2\nmode=pack\ntlast=wired\n", 1, TAKE, 1, 20, 128, sheet, no_sheet, "", "a sheet of four lines");
}

/* ---- two lists merged onto one port (paper 02, T-08) ---- */

/* A record of one lane, TDEST 2: TLAST, TID, and the lane's octet, which is data or null. */
#define BYTE(last, tid, octet) last " " tid " 02 01 00 01 00 " octet " "
#define NONE(last, tid, octet) last " " tid " 02 00 00 00 00 " octet " "

static void merge_is(urd_merge_answer a, uint32_t refusal, uint32_t port, uint64_t place, uint64_t count, const char *what)
{
    int good = a.refusal == refusal && a.port == port && a.place == place && a.count == count;
    check(good, what);
    if (!good)
        printf("    refusal %" PRIu32 ", port %" PRIu32 ", place %" PRIu64 ", count %" PRIu64 "\n", a.refusal, a.port, a.place, a.count);
}

/* A merging into `lent` octets: its numbers, the octets written, and all else of the room and of the lists as it was. */
static void merged_is(size_t width, size_t user, const char *first, const char *second, size_t lent, uint32_t refusal, uint32_t port, uint64_t place, uint64_t count, const char *out, const char *what)
{
    uint8_t lists[2][128], kept[2][128], room[256];
    memset(lists, TAIL, sizeof lists);
    memset(room, TAIL, sizeof room);
    size_t n0 = octets_of(first, lists[0]), n1 = octets_of(second, lists[1]);
    memcpy(kept, lists, sizeof kept);
    merge_is(urd_merge(width, user, lists[0], n0, lists[1], n1, room, lent), refusal, port, place, count, what);
    room_is(room, sizeof room, out, what);
    check(memcmp(lists, kept, sizeof lists) == 0, "the lists are as they were");
}

/* An accepted merging: into a larger room, into an exact one, and refused (5) where one octet is missing. */
static void merges(size_t width, size_t user, const char *first, const char *second, uint64_t count, const char *out, const char *what)
{
    uint8_t octets[256];
    size_t need = octets_of(out, octets);
    merged_is(width, user, first, second, need + 9, 0, 0, 0, count, out, what);
    merged_is(width, user, first, second, need, 0, 0, 0, count, out, what);
    if (need > 0)
        merged_is(width, user, first, second, need - 1, URD_ROOM, 0, 0, 0, "", what);
}

/* A refused merging: its numbers, and the room as it was; the same where there is no room, which is refused last. */
static void merge_refuses(size_t width, size_t user, const char *first, const char *second, uint32_t refusal, uint32_t port, uint64_t place, const char *what)
{
    merged_is(width, user, first, second, 256, refusal, port, place, 0, "", what);
    merged_is(width, user, first, second, 0, refusal, port, place, 0, "", what);
}

static void merge_turns(void)
{
    merges(1, 0, BYTE("00", "01", "A1") BYTE("01", "01", "A2") BYTE("01", "01", "A3"), BYTE("01", "01", "B1") BYTE("00", "01", "B2") BYTE("01", "01", "B3"), 6,
           BYTE("00", "01", "A1") BYTE("01", "01", "A2") BYTE("01", "81", "B1") BYTE("01", "01", "A3") BYTE("00", "81", "B2") BYTE("01", "81", "B3"), "packet by packet");
    merges(1, 0, BYTE("00", "01", "A1") BYTE("00", "02", "A2"), BYTE("00", "01", "B1") BYTE("00", "02", "B2"), 4,
           BYTE("00", "01", "A1") BYTE("00", "02", "A2") BYTE("00", "81", "B1") BYTE("00", "82", "B2"), "no TLAST at all");
    merges(1, 0, BYTE("00", "01", "A1") BYTE("01", "02", "A2") BYTE("01", "01", "A3"), BYTE("00", "03", "B1") BYTE("01", "04", "B2") BYTE("01", "03", "B3"), 6,
           BYTE("00", "01", "A1") BYTE("01", "02", "A2") BYTE("00", "83", "B1") BYTE("01", "84", "B2") BYTE("01", "01", "A3") BYTE("01", "83", "B3"), "TLAST of another TID");
    merges(1, 0, BYTE("00", "01", "A1") "01 01 0F 01 00 01 00 A2 " BYTE("01", "01", "A3"), BYTE("00", "01", "B1") "01 01 00 01 00 01 00 B2 " BYTE("01", "01", "B3"), 6,
           BYTE("00", "01", "A1") "01 01 0F 01 00 01 00 A2 " BYTE("00", "81", "B1") "01 81 00 01 00 01 00 B2 " BYTE("01", "01", "A3") BYTE("01", "81", "B3"), "TLAST of another TDEST");
    merges(1, 0, BYTE("01", "01", "A1"), BYTE("01", "01", "B1") BYTE("01", "01", "B2") BYTE("00", "01", "B3") BYTE("01", "01", "B4"), 5,
           BYTE("01", "01", "A1") BYTE("01", "81", "B1") BYTE("01", "81", "B2") BYTE("00", "81", "B3") BYTE("01", "81", "B4"), "port 0 has nothing left");
    merges(1, 0, BYTE("01", "01", "A1") BYTE("01", "01", "A2") BYTE("00", "01", "A3"), BYTE("00", "01", "B1"), 4,
           BYTE("01", "01", "A1") BYTE("00", "81", "B1") BYTE("01", "01", "A2") BYTE("00", "01", "A3"), "port 1 has nothing left");
    merges(1, 0, BYTE("01", "01", "A1") BYTE("00", "01", "A2"), BYTE("01", "01", "B1") BYTE("01", "01", "B2") BYTE("00", "01", "B3"), 5,
           BYTE("01", "01", "A1") BYTE("01", "81", "B1") BYTE("00", "01", "A2") BYTE("01", "81", "B2") BYTE("00", "81", "B3"), "the end of a list without TLAST");
    merges(1, 0, "", BYTE("01", "01", "B1") BYTE("00", "02", "B2"), 2, BYTE("01", "81", "B1") BYTE("00", "82", "B2"), "nothing on port 0");
    merges(1, 0, BYTE("01", "01", "A1") BYTE("00", "02", "A2"), "", 2, BYTE("01", "01", "A1") BYTE("00", "02", "A2"), "nothing on port 1");
    for (size_t w = 1; w <= 16; w++)
        merges(w, 4, "", "", 0, "", "nothing on either");
}

/* Records without items are passed on, too, in their turn, and TLAST ends it; user bits stay, those of null lanes too. */
static void merge_records(void)
{
    merges(1, 0, NONE("00", "07", "C1") BYTE("01", "01", "A1") NONE("00", "07", "C2"), NONE("00", "06", "E1") NONE("00", "06", "E2") BYTE("01", "01", "B1"), 6,
           NONE("00", "07", "C1") BYTE("01", "01", "A1") NONE("00", "86", "E1") NONE("00", "86", "E2") BYTE("01", "81", "B1") NONE("00", "07", "C2"), "all-null records");
    merges(1, 0, NONE("00", "07", "C1"), NONE("00", "7F", "E1"), 2, NONE("00", "07", "C1") NONE("00", "FF", "E1"), "nothing else");
    merges(1, 0, NONE("01", "01", "C1") BYTE("00", "01", "A1"), BYTE("00", "01", "B1") NONE("01", "01", "E1") NONE("01", "01", "E2"), 5,
           NONE("01", "01", "C1") BYTE("00", "81", "B1") NONE("01", "81", "E1") BYTE("00", "01", "A1") NONE("01", "81", "E2"), "TLAST without items");
    merges(4, 0, TRANSFER, TRANSFER, 2, TRANSFER " 01 81 02 0D 00 09 00 11 22 33 44", "P1's transfer twice");
    merges(4, 2, TRANSFER TAGS, TRANSFER TAGS, 2, TRANSFER TAGS " 01 81 02 0D 00 09 00 11 22 33 44" TAGS, "and its user bits");
    merges(2, 3, "00 03 00 00 00 00 00 E3 E4 3F 01 03 00 02 00 00 00 E5 E6 07", "00 03 0F 03 00 01 00 E0 E1 38", 3,
           "00 03 00 00 00 00 00 E3 E4 3F 01 03 00 02 00 00 00 E5 E6 07 00 83 0F 03 00 01 00 E0 E1 38", "three user bits");
    merges(16, 4, "", "01 40 08 00 80 00 80 60 61 62 63 64 65 66 67 68 69 6A 6B 6C 6D 6E 6F 10 32 54 76 98 BA DC FE", 1,
           "01 C0 08 00 80 00 80 60 61 62 63 64 65 66 67 68 69 6A 6B 6C 6D 6E 6F 10 32 54 76 98 BA DC FE", "the widest");
}

/* Two records of every shape, the first with TLAST, as both lists, and the second of them as one of the lists: inputs may share octets. */
static void merge_shapes(void)
{
    for (size_t shape = 0; shape < 16 * 5; shape++) {
        size_t w = 1 + shape / 5, m = shape % 5, z = 7 + w + (w * m + 7) / 8, all = ((size_t)1 << w) - 1;
        uint8_t list[2 * 31], kept[2 * 31], sent[2 * 31], room[4 * 31], expected[4 * 31];
        for (size_t i = 0; i < 2 * z; i++)
            list[i] = (uint8_t)(0xB1 + 7 * i);
        for (size_t at = 0; at < 2 * z; at += z) {
            const uint8_t head[7] = {at == 0, at == 0 ? 0x7F : 0x2A, 0x0F, 0xD5 & all, 0xAB & all >> 8, 0x85 & all, 0x2A & all >> 8};
            memcpy(list + at, head, 7);
            if (w * m % 8 != 0)
                list[at + z - 1] &= (uint8_t)((1 << w * m % 8) - 1); /* no padding bit */
        }
        memcpy(kept, list, 2 * z);
        memcpy(sent, list, 2 * z);
        sent[1] = 0xFF, sent[z + 1] = 0xAA;
        memcpy(expected, list, z), memcpy(expected + z, sent, z), memcpy(expected + 2 * z, list + z, z), memcpy(expected + 3 * z, sent + z, z);
        merge_is(urd_merge(w, m, list, 2 * z, list, 2 * z, room, 4 * z), 0, 0, 0, 4, "the same octets");
        check(memcmp(room, expected, 4 * z) == 0, "the same octets merged");
        memcpy(expected, list, z), memcpy(expected + z, sent + z, z), memcpy(expected + 2 * z, list + z, z);
        merge_is(urd_merge(w, m, list, 2 * z, list + z, z, room, 3 * z), 0, 0, 0, 3, "a part of them on port 1");
        check(memcmp(room, expected, 3 * z) == 0, "a part of them on port 1, merged");
        memcpy(expected, list + z, z), memcpy(expected + z, sent, 2 * z);
        merge_is(urd_merge(w, m, list + z, z, list, 2 * z, room, 3 * z), 0, 0, 0, 3, "a part of them on port 0");
        check(memcmp(room, expected, 3 * z) == 0, "a part of them on port 0, merged");
        check(memcmp(list, kept, 2 * z) == 0, "the lists are as they were");
    }
}

/* Every TID on either port, with an item and without: 0 to 127 goes out, from port 1 with 128 added, and from 128 on 17. */
static void merge_tids(void)
{
    for (unsigned i = 0; i < 256 * 2 * 2; i++) {
        uint8_t tid = (uint8_t)i, keep = i >> 8 & 1, port = i >> 9 & 1, refused = tid >= 128;
        uint8_t record[8] = {0, tid, 0, keep, 0, keep, 0, 0xA1}, room[8], expected[8];
        memset(room, TAIL, sizeof room);
        memset(expected, TAIL, sizeof expected);
        if (!refused) {
            memcpy(expected, record, sizeof record);
            expected[1] = (uint8_t)(port == 0 ? tid : tid + 128);
        }
        merge_is(urd_merge(1, 0, record, port == 0 ? 8 : 0, record, port == 1 ? 8 : 0, room, 8), refused ? URD_TAGS : 0, refused ? port : 0, 0, !refused, "a TID");
        check(memcmp(room, expected, sizeof room) == 0, "a TID as it goes out");
    }
}

/* Each bit alone in a record of two lanes with three user bits each, behind a sound record on either port: 3 for one that must be zero,
 * 4 for a strobe of a null lane, 17 for the highest of TID, and any other is carried. */
static void merge_bits(void)
{
    static const uint8_t zero[] = {0xFE, 0x00, 0xF0, 0xFC, 0xFF, 0xFC, 0xFF, 0x00, 0x00, 0xC0};
    for (unsigned bit = 0; bit < 80; bit++) {
        uint8_t list[20] = {0}, room[30], expected[30] = {0}, mask = (uint8_t)(1 << bit % 8);
        unsigned octet = bit / 8;
        uint32_t refusal = zero[octet] & mask ? URD_FIELD : octet == 5 ? URD_RESERVED : bit == 15 ? URD_TAGS : 0, refused = refusal != 0;
        list[10 + octet] = mask;
        merge_is(urd_merge(2, 3, list, 20, list, 10, room, 30), refusal, 0, refused, refused ? 0 : 3, "a bit on port 0");
        expected[10 + octet] = mask, expected[21] = 128;
        check(refused || memcmp(room, expected, 30) == 0, "a bit of port 0 as it goes out");
        merge_is(urd_merge(2, 3, list, 10, list, 20, room, 30), refusal, refused, refused, refused ? 0 : 3, "a bit on port 1");
        expected[10 + octet] = 0, expected[11] = 128, expected[20 + octet] |= mask;
        check(refused || memcmp(room, expected, 30) == 0, "a bit of port 1 as it goes out");
    }
}

/* Two lanes with three user bits each: sound; TID 128; TID 255 without items; a reserved lane, too; a padding bit, too. */
#define SOUND "01 7F 0F 03 00 01 00 11 22 3F "
#define TAGGED "00 80 00 03 00 03 00 11 22 00 "
#define NULL_TAGGED "00 FF 00 00 00 00 00 11 22 3F "
#define TAGGED_LANE "00 80 00 01 00 03 00 11 22 00 "
#define TAGGED_PADDING "00 80 00 01 00 03 00 11 22 40 "

static void merge_refusals(void)
{
    merge_refuses(17, 5, "02", "02", URD_WIDTH, 0, 0, "1 before 16");
    merge_refuses(2, 5, "02", "02", URD_USERBITS, 0, 0, "16 before 2");
    merge_refuses(2, 3, TAGGED_PADDING "02", TAGGED_PADDING "02", URD_LENGTH, 0, 0, "2 of port 0 before port 1");
    merge_refuses(2, 3, "02", "", URD_LENGTH, 0, 0, "2 of port 0");
    merge_refuses(2, 3, TAGGED_PADDING, TAGGED_PADDING "02", URD_LENGTH, 1, 0, "2 of port 1 before 3 of port 0");
    merge_refuses(2, 3, TAGGED, "00 00 00 00 00 00 00 00 00", URD_LENGTH, 1, 0, "2 of port 1 before 17 of port 0");
    merge_refuses(2, 3, SOUND TAGGED_PADDING, TAGGED_PADDING, URD_FIELD, 0, 1, "3 of port 0, before 4 and 17 in its record");
    merge_refuses(2, 3, SOUND SOUND TAGGED_LANE TAGGED_PADDING, TAGGED_PADDING, URD_RESERVED, 0, 2, "4 of port 0, before 17 in its record and 3 behind it");
    merge_refuses(2, 3, SOUND TAGGED TAGGED_LANE TAGGED_PADDING, TAGGED_PADDING, URD_TAGS, 0, 1, "17 of port 0, before 3 and 4 behind it and on port 1");
    merge_refuses(2, 3, NULL_TAGGED TAGGED, "", URD_TAGS, 0, 0, "17 of port 0 without items");
    merge_refuses(2, 3, SOUND SOUND, SOUND TAGGED_PADDING TAGGED, URD_FIELD, 1, 1, "3 of port 1");
    merge_refuses(2, 3, SOUND, SOUND SOUND TAGGED_LANE TAGGED_PADDING, URD_RESERVED, 1, 2, "4 of port 1");
    merge_refuses(2, 3, SOUND SOUND SOUND, SOUND TAGGED TAGGED_LANE, URD_TAGS, 1, 1, "17 of port 1");
    merge_refuses(2, 3, "", SOUND NULL_TAGGED TAGGED_PADDING, URD_TAGS, 1, 1, "17 of port 1 without items");
    merged_is(2, 3, "", SOUND, 0, URD_ROOM, 0, 0, 0, "", "5 is port 0's");
    merges(2, 3, SOUND, SOUND, 2, SOUND "01 FF 0F 03 00 01 00 11 22 3F", "nothing to refuse");
}

/* Two lists of 8,192 records and one more. Port 0 has TLAST on each, port 1 on every second one. */
static void merge_longest(void)
{
    static uint8_t first[65544], second[65544], out[131073], expected[131073];
    size_t at = 0;
    for (size_t k = 0; k < 8193; k++) {
        const uint8_t head[8] = {1, k % 128, 3, 1, 0, 1, 0, (uint8_t)(k / 128)};
        memcpy(first + 8 * k, head, 8);
        memcpy(second + 8 * k, head, 8);
        second[8 * k] = k % 2;
    }
    for (size_t k = 0; k < 8192; k++) {
        memcpy(expected + at, first + 8 * k, 8);
        at += 8;
        if (k < 4096) {
            memcpy(expected + at, second + 16 * k, 16);
            expected[at + 1] += 128, expected[at + 9] += 128;
            at += 16;
        }
    }
    expected[131072] = TAIL;
    memset(out, TAIL, sizeof out);
    merge_is(urd_merge(1, 0, first, 65536, second, 65536, out, 131071), URD_ROOM, 0, 0, 0, "one octet too few");
    merge_is(urd_merge(1, 0, first, 65544, second, 65544, out, 131073), URD_LENGTH, 0, 0, 0, "one record more on both");
    merge_is(urd_merge(1, 0, first, 65536, second, 65544, out, 131073), URD_LENGTH, 1, 0, 0, "one record more on port 1");
    check(out[0] == TAIL && memcmp(out, out + 1, sizeof out - 1) == 0, "refused, it is unchanged");
    merge_is(urd_merge(1, 0, first, 65536, second, 65536, out, 131072), 0, 0, 0, 16384, "65,536 octets on both");
    check(memcmp(out, expected, sizeof out) == 0, "131,072 octets");
    merge_is(urd_merge(1, 0, first, 65535, second, 65536, out, 131072), URD_LENGTH, 0, 0, 0, "an octet less on port 0");
    second[65529] = 128;
    merge_is(urd_merge(1, 0, first, 65536, second, 65536, out, 131072), URD_TAGS, 1, 8191, 0, "17 in the very last record");
    first[65530] = 16;
    merge_is(urd_merge(1, 0, first, 65536, second, 65536, out, 131072), URD_FIELD, 0, 8191, 0, "3 in the last one of port 0");
}

/* ---- archived files: what lane-keeping downsizing writes, repacked ---- */

#define PACKED "01 01 02 07 00 05 00 11 00 44 00" /* S1 */
#define SLICES "00 01 02 01 00 01 00 11 00 01 01 02 03 00 02 00 00 44" /* S2: the slices of TRANSFER */
#define SLICES_TAGS "00 01 02 01 00 01 00 11 00 01 01 01 02 03 00 02 00 00 44 0E" /* the slices of TRANSFER TAGS */
#define ARCHIVE "examples/archive/"

/* A record of four lanes with three items and its slices of two, to every width and into rooms of every length: the same numbers and octets. */
static void alike(size_t user, const char *original, const char *sliced)
{
    uint8_t record[12], slices[20], room[2][32];
    size_t record_length = octets_of(original, record), slices_length = octets_of(sliced, slices);
    for (size_t v = 1; v <= 16; v++)
        for (size_t lent = 0; lent <= sizeof room[0]; lent++) {
            memset(room, TAIL, sizeof room);
            urd_stream_answer a = urd_repack(4, user, v, record, record_length, room[0], lent);
            stream_is(urd_repack(2, user, v, slices, slices_length, room[1], lent), a.refusal, 0, 0, a.count, "the same numbers");
            check(memcmp(room[0], room[1], sizeof room[0]) == 0, "the same octets");
            check(lent < sizeof room[0] || a.count == (3 + v - 1) / v, "three items");
        }
}

static void slices_repack(void)
{
    alike(0, TRANSFER, SLICES);
    alike(2, TRANSFER TAGS, SLICES_TAGS);
    writes(urd_repack, 2, 2, 4, SLICES_TAGS, 1, PACKED " 39");
}

static size_t file_octets(const char *name, uint8_t *to, size_t most)
{
    FILE *file = fopen(name, "rb");
    size_t n = file == NULL ? 0 : fread(to, 1, most, file);
    if (file != NULL)
        fclose(file);
    return n;
}

/* A folder with mode=lanes: the report writes its out.bin, and that repacked is what the report gives on its take with mode=pack. */
static void archived_folder(void)
{
    const char *sheet = USER_SHEET("4", "4", "pack", "0"), *result = PACKED " 01 01 02 0F 00 0F 00 21 22 23 24";
    uint8_t take[64], old[64], out[64], text[128];
    size_t take_length = file_octets(ARCHIVE "take.bin", take, sizeof take), old_length = file_octets(ARCHIVE "out.bin", old, sizeof old);
    check(take_length == 5 * 11 && old_length == 6 * 9, "both files are there");
    const char *lanes = USER_SHEET("4", "2", "lanes", "0");
    urd_report_answer b = urd_report((const uint8_t *)lanes, strlen(lanes), 1, take, take_length, 1, out, sizeof out, text, sizeof text);
    check(b.verdict == URD_CLEAN && b.records == 6 && b.octets == old_length && memcmp(out, old, old_length) == 0, "what the report writes");
    memset(out, TAIL, sizeof out);
    urd_report_answer a = urd_report((const uint8_t *)sheet, strlen(sheet), 1, take, take_length, 1, out, sizeof out, text, sizeof text);
    check(a.verdict == URD_CLEAN && a.transfers == 3 && a.packets == 2 && a.records == 2 && a.octets == 2 * 11, "the take with mode=pack");
    room_is(out, sizeof out, result, "its result");
    memset(out, TAIL, sizeof out);
    stream_is(urd_repack(2, 0, 4, old, old_length, out, sizeof out), 0, 0, 0, 2, "out.bin repacked");
    room_is(out, sizeof out, result, "the same octets");
}

/* ---- what no bench case shows ---- */

/* A field's offset and its octets. */
#define IS(type, field, offset, octets) check(offsetof(type, field) == (offset) && sizeof(((type *)0)->field) == (octets), #type "." #field)

/* crates/capi has the same fields in the same order, #[repr(C)]; tests/bindings compares the texts too. */
static void layout_bursts(void)
{
    urd_burst_answer ones;
    memset(&ones, 0xFF, sizeof ones);
    check((int64_t)ones.step == -1, "step is signed");
    check(sizeof(size_t) == 8 && sizeof(urd_burst_answer) == 24, "sizes");
    check(sizeof(urd_burst) == 5 * sizeof(uint64_t) && sizeof(urd_cut_answer) == 16 && sizeof(urd_write_answer) == 24, "sizes of a row's burst, of a cut's answer and of write beats'");
    IS(urd_burst_answer, refusal, 0, 4);
    IS(urd_burst_answer, lower, 4, 4);
    IS(urd_burst_answer, upper, 8, 4);
    IS(urd_burst_answer, step, 12, 4);
    IS(urd_burst_answer, address, 16, 8);
    IS(urd_burst, start, 0, 8);
    IS(urd_burst, len, 8, 8);
    IS(urd_burst, size, 16, 8);
    IS(urd_burst, kind, 24, 8);
    IS(urd_burst, bus, 32, 8);
    IS(urd_cut_answer, refusal, 0, 4);
    IS(urd_cut_answer, count, 8, 8);
    IS(urd_write_answer, refusal, 0, 4);
    IS(urd_write_answer, rule, 4, 4);
    IS(urd_write_answer, place, 8, 8);
    IS(urd_write_answer, strobes, 16, 8);
}

static void layout(void)
{
    layout_bursts();
    check(sizeof(urd_stream_answer) == 24 && sizeof(urd_merge_answer) == 24 && sizeof(urd_part_answer) == 24 && sizeof(urd_report_answer) == 64, "sizes of the others");
    IS(urd_stream_answer, refusal, 0, 4);
    IS(urd_stream_answer, rule, 4, 4);
    IS(urd_stream_answer, place, 8, 8);
    IS(urd_stream_answer, count, 16, 8);
    IS(urd_merge_answer, refusal, 0, 4);
    IS(urd_merge_answer, port, 4, 4);
    IS(urd_merge_answer, place, 8, 8);
    IS(urd_merge_answer, count, 16, 8);
    IS(urd_part_answer, refusal, 0, 4);
    IS(urd_part_answer, start, 8, 8);
    IS(urd_part_answer, length, 16, 8);
    IS(urd_report_answer, verdict, 0, 4);
    IS(urd_report_answer, refusal, 4, 4);
    IS(urd_report_answer, rule, 8, 4);
    IS(urd_report_answer, place, 16, 8);
    IS(urd_report_answer, transfers, 24, 8);
    IS(urd_report_answer, packets, 32, 8);
    IS(urd_report_answer, records, 40, 8);
    IS(urd_report_answer, text, 48, 8);
    IS(urd_report_answer, octets, 56, 8);
}

static void fill_in(void)
{
    static const uint32_t high[] = {1, 2, 256, 0x80000000, 0xFFFFFFFF};
    uint8_t take[22], cleared[22], set[22];
    size_t length = octets_of(TAKE " FE 01 02 0D 00 09 00 11 22 33 45", take);
    octets_of("0E 01 02 0D 00 09 00 11 22 33 44 FE 01 02 0D 00 09 00 11 22 33 45", cleared);
    octets_of("0F 01 02 0D 00 09 00 11 22 33 44 FF 01 02 0D 00 09 00 11 22 33 45", set);
    stream_is(urd_fill_in(4, 0, take, length - 1, 0), URD_LENGTH, 0, 0, 0, "no whole number of records");
    check(take[0] == 0x0F, "refused, it is unchanged");
    for (size_t i = 0; i < sizeof high / sizeof high[0]; i++) {
        stream_is(urd_fill_in(4, 0, take, length, 0), 0, 0, 0, 2, "2 records, low");
        check(memcmp(take, cleared, length) == 0, "TLAST cleared, nothing else");
        stream_is(urd_fill_in(4, 0, take, length, high[i]), 0, 0, 0, 2, "2 records, high");
        check(memcmp(take, set, length) == 0, "TLAST set, nothing else");
    }
}

static void data_octets(void)
{
    uint8_t take[22];
    size_t length = octets_of(TAKE " " TAKE, take);
    urd_part_answer a = urd_data_octets(4, 0, take, length, 1);
    check(a.refusal == 0 && a.start == 18 && a.length == 4 && take[a.start] == 0x11, "record 1");
    a = urd_data_octets(4, 0, take, length, 2);
    check(a.refusal == URD_INDEX && a.start == 0 && a.length == 0, "no record 2");
    a = urd_data_octets(4, 0, take, length, SIZE_MAX);
    check(a.refusal == URD_INDEX && a.start == 0 && a.length == 0, "no such record");
    a = urd_data_octets(17, 0, take, length, 0);
    check(a.refusal == URD_WIDTH && a.start == 0 && a.length == 0, "width 17");
}

#define CYCLE(flags) flags " 00 00 01 00 01 00 55"

static void rule_is(const char *hex, uint32_t rule, uint64_t cycle, const char *what)
{
    uint8_t take[64];
    size_t length = octets_of(hex, take);
    stream_is(urd_judge(1, 0, take, length), 0, rule, cycle, 0, what);
}

static void findings(void)
{
    rule_is(CYCLE("08") " " CYCLE("02"), 1, 1, "R1");
    rule_is(CYCLE("00") " " CYCLE("0A"), 1, 1, "R1 in the first sample out of reset");
    rule_is(CYCLE("00") " " CYCLE("08") " " CYCLE("0A"), 0, 0, "no R1 after one idle sample");
    rule_is(CYCLE("00") " 0E 00 00 00 00 01 00 55", 1, 1, "R1 before R4");
    rule_is(CYCLE("0A") " " CYCLE("08"), 2, 1, "R2");
    rule_is(CYCLE("0A") " " CYCLE("0B"), 3, 1, "R3");
    rule_is("0E 00 00 00 00 01 00 55", 4, 0, "R4");
    rule_is(CYCLE("0A") " " CYCLE("00") " " CYCLE("08"), 0, 0, "no wait across reset");
    refuses(harvest, 1, 0, 1, CYCLE("0A") " " CYCLE("0B"), URD_UNCLEAN, 3, 1, "UNCLEAN has the cycle and the rule");
    refuses(harvest, 1, 0, 1, CYCLE("00") " " CYCLE("0E"), URD_UNCLEAN, 1, 1, "UNCLEAN for the first sample out of reset");
}

#define GOOD "00 00 00 03 00 03 00 11 22"
#define FIELD "02 00 00 00 00 03 00 11 22" /* octet 0 wrong, and reserved lanes */
#define RESERVED "00 00 00 01 00 03 00 11 22"

static void refusals(void)
{
    refuses(urd_repack, 2, 0, 17, FIELD " 00", URD_WIDTH, 0, 0, "1 before 2 and 3");
    refuses(urd_downsize, 2, 0, 0, FIELD " 00", URD_WIDTH, 0, 0, "1 before 6");
    refuses(urd_downsize, 2, 0, 3, FIELD " 00", URD_RATIO, 0, 0, "6 before 2");
    refuses(urd_downsize, 2, 0, 1, FIELD " 00", URD_LENGTH, 0, 0, "2 before 3");
    refuses(urd_repack, 2, 0, 1, GOOD " " FIELD, URD_FIELD, 0, 1, "3 before 4 in record 1");
    refuses(urd_repack, 2, 0, 1, GOOD " " RESERVED " " FIELD, URD_RESERVED, 0, 1, "4 of an earlier record");
    refuses(harvest, 1, 0, 1, "02 00 00 00 00 00 00 00 10 00 00 00 00 00 00 00", URD_FIELD, 0, 1, "3 before 14");
    judged(0x1FFF, 257, 8, 3, 3, URD_BUS, "7 first");
    judged(0x1FFF, 257, 8, 3, 4, URD_SIZE, "8 before 9");
    judged(0x1FFF, 257, 2, 3, 4, URD_TYPE, "9 before 10");
    burst_is(urd_burst_beat(0xFF2, 4, 2, URD_INCR, 4, 5), URD_FENCE, 0, 0, 0, 0, "12 before 13");
}

/* Any number may be passed in; the second program asks many more of these. */
static void edges(void)
{
    static const size_t width[] = {0, 17, 255, 256, 65536, SIZE_MAX - 6, SIZE_MAX / 2, SIZE_MAX};
    static const uint32_t big[] = {256, 0x7FFFFFFF, 0x80000000, 0xFFFFFFFF};
    static uint8_t over[65537], out[8];
    for (size_t i = 0; i < sizeof width / sizeof width[0]; i++) {
        stream_is(urd_judge(width[i], 0, over, 8), URD_WIDTH, 0, 0, 0, "judge");
        stream_is(urd_fill_in(width[i], 0, over, 8, 1), URD_WIDTH, 0, 0, 0, "fill-in");
        stream_is(urd_repack(width[i], 0, 1, over, 8, out, 8), URD_WIDTH, 0, 0, 0, "repack from");
        stream_is(urd_repack(1, 0, width[i], over, 8, out, 8), URD_WIDTH, 0, 0, 0, "repack to");
        stream_is(urd_downsize(width[i], 0, width[i], over, 8, out, 8), URD_WIDTH, 0, 0, 0, "downsize");
        merge_is(urd_merge(width[i], 0, over, 8, over, 0, out, 8), URD_WIDTH, 0, 0, 0, "merge");
        merge_is(urd_merge(1, width[i] | 5, over, 8, over, 0, out, 8), URD_USERBITS, 0, 0, 0, "merge, user bits of 5 and more");
    }
    for (size_t w = 1; w <= 16; w++)
        stream_is(urd_judge(w, 0, over, sizeof over), URD_LENGTH, 0, 0, 0, "65,537 octets");
    for (size_t i = 0; i < sizeof big / sizeof big[0]; i++) {
        burst_is(urd_burst_judge(0, 0, 0, 1, big[i]), URD_BUS, 0, 0, 0, 0, "bus");
        burst_is(urd_burst_judge(0, 0, big[i], 1, 4), URD_SIZE, 0, 0, 0, 0, "size");
        burst_is(urd_burst_judge(0, 0, 0, big[i], 4), URD_TYPE, 0, 0, 0, 0, "kind");
        burst_is(urd_burst_judge(0, big[i], 0, 1, 4), URD_COUNT, 0, 0, 0, 0, "len");
        burst_is(urd_burst_beat(0, 0, 0, 1, 4, big[i]), URD_INDEX, 0, 0, 0, 0, "beat");
        burst_is(urd_burst_step(0, 0, 0, 1, 4, big[i]), URD_INDEX, 0, 0, 0, 0, "step");
    }
    burst_is(urd_burst_beat(0xFFFFFFFB, 1, 2, 1, 8, 1), 0, 0xFFFFFFFC, 4, 7, 0, "up to the last byte of memory");
}

static void run_bench_cases(void)
{
    run("P1", p1);
    run("P1, the report", p1_report);
    run("the report refused, and broken", report_refusals);
    run("S1", s1);
    run("S2", s2);
    run("S3", s3);
    run("S4", s4);
    run("S5", s5);
    run("S6", s6);
    run("S7", s7);
    run("B1", b1);
    run("B2", b2);
    run("B3", b3);
    run("B4", b4);
    run("B5", b5);
    run("B6", b6);
}

static void run_requests(void)
{
    run("T-02, cuts", cuts);
    run("T-02, the longest", cut_longest);
    run("T-02, others and refusals", cut_others);
    run("T-05, write beats", write_lanes);
    run("T-05, W1 to W5", write_rules);
    run("T-05, every bus, the longest", write_lengths);
    run("T-05, refusals", write_refusals);
    run("T-06, user bits", user_bits);
    run("T-06, each user bit with its byte", user_places);
    run("T-06, R3 and the padding", user_octets);
    run("T-06, the longest", user_lengths);
    run("T-06, refusals", user_refusals);
    run("T-06, the report", user_report);
    run("T-08, turns", merge_turns);
    run("T-08, each record as it is", merge_records);
    run("T-08, every shape, the same octets", merge_shapes);
    run("T-08, every TID", merge_tids);
    run("T-08, each bit of a record", merge_bits);
    run("T-08, refusals", merge_refusals);
    run("T-08, the longest", merge_longest);
    run("slices repack as their original", slices_repack);
    run("the archived folder", archived_folder);
}

int main(void)
{
    run_bench_cases();
    run_requests();
    run("layout of the structs", layout);
    run("fill-in", fill_in);
    run("data octets", data_octets);
    run("findings R1 to R4", findings);
    run("refusals in order", refusals);
    run("numbers at the edges", edges);
    printf("%d passed, %d failed\n", passed, failed);
    return failed != 0;
}
