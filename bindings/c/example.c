/* A short tour in C: judge a capture, harvest it, repack it to another width, merge two cameras onto one link,
 * walk through a burst, cut one for an older board, judge the write beats of one, and make a report.
 * It prints bindings/example.out. `make lib` first, then: gcc -std=c99 -Iinclude bindings/c/example.c build/lib/liburdhvasolk.a -o build/example */
#include "urdhvasolk.h"

#include <inttypes.h>
#include <stdio.h>

/* One cycle of a port of 4 byte lanes without user bits: all four flags high, TID 1, TDEST 2, data on lanes 0 and 3, a position on lane 2. */
static const uint8_t capture[] = {0x0F, 0x01, 0x02, 0x0D, 0x00, 0x09, 0x00, 0x11, 0x22, 0x33, 0x44};

static void print_records(const uint8_t *octets, uint64_t records, size_t width)
{
    for (uint64_t i = 0; i < records * (7 + width); i++)
        printf("%02X%s", octets[i], (i + 1) % (7 + width) == 0 ? "\n" : " ");
}

static void stream(void)
{
    uint8_t transfers[sizeof capture], packed[64];

    urd_stream_answer judged = urd_judge(4, 0, capture, sizeof capture);
    if (judged.refusal != 0 || judged.rule != 0) {
        printf("refusal %" PRIu32 ", rule %" PRIu32 " at %" PRIu64 "\n", judged.refusal, judged.rule, judged.place);
        return;
    }
    printf("clean, %" PRIu64 " transfers\n", judged.count);

    urd_stream_answer harvested = urd_harvest(4, 0, capture, sizeof capture, transfers, sizeof transfers);
    size_t length = (size_t)harvested.count * (7 + 4);
    urd_stream_answer repacked = urd_repack(4, 0, 2, transfers, length, packed, sizeof packed);
    printf("%" PRIu64 " records of width 2\n", repacked.count);
    print_records(packed, repacked.count, 2);
}

/* Two cameras on one link, both with TID 1: by turns up to TLAST, and the second camera's TIDs have 128 added. */
static void cameras(void)
{
    static const uint8_t first[] = {0x00, 0x01, 0x00, 0x01, 0x00, 0x01, 0x00, 0xA1, 0x01, 0x01, 0x00, 0x01, 0x00, 0x01, 0x00, 0xA2,
                                    0x01, 0x01, 0x00, 0x01, 0x00, 0x01, 0x00, 0xA3};
    static const uint8_t second[] = {0x01, 0x01, 0x00, 0x01, 0x00, 0x01, 0x00, 0xB1};
    uint8_t merged[sizeof first + sizeof second], more[sizeof first + sizeof merged];

    urd_merge_answer both = urd_merge(1, 0, first, sizeof first, second, sizeof second, merged, sizeof merged);
    printf("%" PRIu64 " records of two cameras\n", both.count);
    print_records(merged, both.count, 1);

    /* A third camera finds no place: TIDs of a merged list go up to 255, and a port takes them up to 127. */
    urd_merge_answer third = urd_merge(1, 0, first, sizeof first, merged, sizeof merged, more, sizeof more);
    printf("a third: refusal %" PRIu32 ", port %" PRIu32 ", record %" PRIu64 "\n", third.refusal, third.port, third.place);
}

/* Each beat of a WRAP burst of four 4-byte beats on a bus of 8 bytes; 13 (URD_INDEX) ends the walk. */
static void burst(void)
{
    for (uint32_t k = 0;; k++) {
        urd_burst_answer beat = urd_burst_beat(0x34, 3, 2, URD_WRAP, 8, k);
        if (beat.refusal != 0)
            break;
        urd_burst_answer next = urd_burst_step(0x34, 3, 2, URD_WRAP, 8, k);
        printf("beat %" PRIu32 " at 0x%" PRIx64 ", lanes %" PRIu32 " to %" PRIu32, k, beat.address, beat.lower, beat.upper);
        if (next.refusal == 0)
            printf(", next %+" PRId32, next.step);
        printf("\n");
    }
}

/* For an older board, which takes at most 16 beats, an INCR burst of 20 is cut in two. */
static void axi3(void)
{
    urd_burst row[16];

    urd_cut_answer cut = urd_axi3_cut(0x1002, 19, 2, URD_INCR, 4, (uint64_t *)row, 5 * 16);
    for (uint64_t j = 0; j < cut.count; j++)
        printf("%" PRIu64 " beats from 0x%" PRIx64 "\n", row[j].len + 1, row[j].start);
}

/* The write beats of that WRAP burst, WLAST and then a strobe for each lane: beat 2 has a stray one, on lane 3. */
static void writes(void)
{
    uint8_t beats[] = {0x00, 0xF0, 0x00, 0x0F, 0x00, 0xF8, 0x01, 0x0F};

    urd_write_answer stray = urd_judge_writes(0x34, 3, 2, URD_WRAP, 8, beats, sizeof beats);
    printf("write beat %" PRIu64 " breaks W%" PRIu32 "\n", stray.place, stray.rule);
    beats[5] = 0xF0;
    urd_write_answer clean = urd_judge_writes(0x34, 3, 2, URD_WRAP, 8, beats, sizeof beats);
    printf("without the stray one clean, %" PRIu64 " strobes\n", clean.strobes);
}

/* All of it in one call: a setup sheet and a take give the report's lines and the result. */
static void report(void)
{
    static const char sheet[] = "width_in=4\nwidth_out=2\nmode=pack\ntlast=wired\nuser=0\n";
    uint8_t out[64], text[128];

    urd_report_answer answer = urd_report((const uint8_t *)sheet, sizeof sheet - 1, 1, capture, sizeof capture, 1,
                                          out, sizeof out, text, sizeof text);
    fwrite(text, 1, (size_t)answer.text, stdout);
}

int main(void)
{
    stream();
    cameras();
    burst();
    axi3();
    writes();
    report();
    return 0;
}
