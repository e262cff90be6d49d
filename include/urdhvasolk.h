/* urdhvasolk.h: the library for C and for whatever calls C. Here is every call, on plain numbers and octets; each answers
 * a struct of paper 01's numbers by value, and a number that an answer does not have is 0. Nothing is decided here.
 *
 * What the library takes care of: no number passed in, and no content of the octets, makes a call misbehave. Each call
 * returns, keeps nothing of its own between calls, allocates nothing, calls nothing back, prints nothing and reads no file.
 *
 * What the caller takes care of:
 *   - each pointer points to that many readable octets as the length after it says (for `out`, for `text`, and for
 *     `capture` of urd_fill_in: writable ones; for `row`: writable numbers of 64 bits), and is not NULL, even where
 *     its length is 0;
 *   - `out` and `text` share no octet with each other, nor with any input of the same call (two inputs may share octets);
 *   - nothing else writes those octets until the call has returned. Calls on other octets may run at the same time;
 *   - so much stack is free: 254 KB for urd_report, 126 KB for urd_repack, 2 KB for any other call. (tests/bindings
 *     measures each of them; here they use 250.0, 121.8 and at most 0.9 KB, most of it arrays.)
 *
 * Octets. A capture (paper 01: a take) is records of 7 + width + width * user / 8 octets, the last number rounded up, width being
 * 1 to 16 byte lanes and user 0 to 4 user bits (TUSER) to a byte. So a record has 8 to 31 octets; a capture at most 65,536 in all:
 *   octet 0     bit 0 TLAST, bit 1 TVALID, bit 2 TREADY, bit 3 ARESETn; in a transfer record bit 0 alone
 *   octet 1, 2  TID 0 to 255, TDEST 0 to 15
 *   octet 3, 4  TKEEP, low octet first; octet 5, 6 TSTRB, the same way; bits at or above width are zero
 *   octet 7 on  data of lane 0, lane 1, up to width - 1
 *   then        user bits, low octet first: those of lane x are bits x * user to x * user + user - 1; bits at or above
 *               width * user are zero. A null lane may have any in a record that is read, and has zeros where urd_repack or
 *               urd_downsize wrote it; where user is 0 there are no such octets
 * A take of write beats is records of 1 + bus/8 octets, bus/8 rounded up, at most 65,536 octets in all, too:
 *   octet 0     bit 0 WLAST; the other bits are zero
 *   octet 1 on  WSTRB, low octet first, lane 0 in the lowest bit; bits at or above bus are zero
 * Records, cycles and beats count from 0. The refusals of a call stand in the order in which they are tested.
 *
 * Built by `make lib` for x86-64: build/lib/liburdhvasolk.a and build/lib/liburdhvasolk.so. Plain C99; C++ can include it. */
#ifndef URDHVASOLK_H
#define URDHVASOLK_H

#include <stddef.h>
#include <stdint.h>

#ifdef __cplusplus
extern "C" {
#endif

/* The refusal numbers of papers 01 and 02, each with when exactly it is given. 0 is no refusal. */
#define URD_WIDTH 1     /* a width is 0 or above 16 */
#define URD_LENGTH 2    /* input is over 65,536 octets or no whole number of records */
#define URD_FIELD 3     /* a bit that must be zero is set, or TDEST is above 15 */
#define URD_RESERVED 4  /* a transfer record has a lane with TKEEP low and TSTRB high */
#define URD_ROOM 5      /* the lent output, or the lent row, is shorter than the answer */
#define URD_RATIO 6     /* downsizing: v does not divide width */
#define URD_BUS 7       /* bus is none of 1, 2, 4, 8, 16, 32, 64, 128 */
#define URD_SIZE 8      /* AxSIZE is above 7, or a beat is wider than the bus */
#define URD_TYPE 9      /* kind is 3 or more */
#define URD_COUNT 10    /* that many beats are not allowed for the kind, or AxLEN is above 255 */
#define URD_ALIGN 11    /* the start of a WRAP is not a multiple of a beat's bytes */
#define URD_FENCE 12    /* a byte of a beat lies in another 4,096-byte block than the start */
#define URD_INDEX 13    /* no such record or beat; for a step, no next beat */
#define URD_UNCLEAN 14  /* harvest of a broken capture */
#define URD_SHEET 15    /* the setup sheet is not as it must be: the report only */
#define URD_USERBITS 16 /* user is above 4 */
#define URD_TAGS 17     /* merging: a transfer record has a TID of 128 or more */

/* The kinds of a burst, AxBURST. */
#define URD_FIXED 0
#define URD_INCR 1
#define URD_WRAP 2

/* ---- bursts ---- */

/* What a burst call answers. The place and the rule of a burst refusal are always 0, so they have no field. */
typedef struct urd_burst_answer {
    uint32_t refusal; /* the refusal's number, or 0 */
    uint32_t lower;   /* urd_burst_beat: lowest byte lane of the beat */
    uint32_t upper;   /* urd_burst_beat: highest byte lane of the beat */
    int32_t step;     /* urd_burst_step: from -1,920 to 128 */
    uint64_t address; /* urd_burst_beat: address of the beat */
} urd_burst_answer;

/* start is the address, len AxLEN (beats less one), size AxSIZE (a beat has 2 to the power size bytes), kind one of the
 * three above, bus the bytes of the data bus. A call may be asked about any of these numbers. */

/* Whether the burst is allowed: refusal 0, and nothing else.
 * Refusals: 7, 8, 9, 10, 11, 12.
 * Lent memory: none. */
urd_burst_answer urd_burst_judge(uint32_t start, uint32_t len, uint32_t size, uint32_t kind, uint32_t bus);

/* Beat k: its address, and its byte lanes lower to upper. Worked out by masks: judge, beat and step divide nowhere.
 * Refusals: 7, 8, 9, 10, 11, 12, then 13 where the burst has no beat k.
 * Lent memory: none. */
urd_burst_answer urd_burst_beat(uint32_t start, uint32_t len, uint32_t size, uint32_t kind, uint32_t bus, uint32_t k);

/* The step from beat k to beat k + 1, in bytes: 0 for FIXED, negative where a WRAP wraps.
 * Refusals: 7, 8, 9, 10, 11, 12, then 13 where the burst has no beat k + 1.
 * Lent memory: none. */
urd_burst_answer urd_burst_step(uint32_t start, uint32_t len, uint32_t size, uint32_t kind, uint32_t bus, uint32_t k);

/* A burst as urd_axi3_cut writes it: five numbers, in this order. */
typedef struct urd_burst {
    uint64_t start; /* the address */
    uint64_t len;   /* AxLEN, 0 to 15 */
    uint64_t size;  /* AxSIZE */
    uint64_t kind;  /* one of the three above */
    uint64_t bus;   /* the bytes of the data bus */
} urd_burst;

/* What urd_axi3_cut answers. The place and the rule of its refusals are always 0, so they have no field. */
typedef struct urd_cut_answer {
    uint32_t refusal; /* the refusal's number, or 0 */
    uint64_t count;   /* the bursts written: 1 to 16 */
} urd_cut_answer;

/* Cuts a burst for AXI3 boards, which take at most 16 beats. An INCR of more becomes bursts of 16 beats, the last of 1 to 16: the first
 * at the old start, the others at their aligned beat address, size, kind and bus unchanged. Any other burst comes out as itself. The
 * beats of the bursts, one burst after another, are the beats of the old one. `row_length` counts numbers, five a burst: 80 are always
 * enough, and a rest of fewer than five is no room. Lend an array of n bursts as (uint64_t *)array and 5 * n.
 * Refusals: 7, 8, 9, 10, 11, 12, then 5 where the row is too short.
 * Lent memory: `row` gets the bursts and is unchanged after them; refused, it is unchanged. */
urd_cut_answer urd_axi3_cut(uint32_t start, uint32_t len, uint32_t size, uint32_t kind, uint32_t bus, uint64_t *row, size_t row_length);

/* What urd_judge_writes answers. */
typedef struct urd_write_answer {
    uint32_t refusal; /* the refusal's number, or 0 */
    uint32_t rule;    /* broken rule 1 to 5, or 0 */
    uint64_t place;   /* the record of refusal 3; the beat of rules 1 to 4; of rule 5 how many beats were given */
    uint64_t strobes; /* clean: the strobes that are high, in all beats */
} urd_write_answer;

/* Judges the write beats of a burst. Clean: rule 0, the number of high strobes. Broken: the lowest rule at beat `place`, the first one that
 * breaks any: 1 a strobe high outside the lanes of the beat (urd_burst_beat: lower to upper), 2 WLAST before the last beat, 3 the last beat
 * without WLAST, 4 a beat past the last, which no other rule reads; or, where no beat breaks one of these, 5 too few beats, `place` being
 * how many were given. A beat may have no strobe at all, and an empty take is rule 5.
 * Refusals: 7, 8, 9, 10, 11, 12, 2, then 3 (place: the record), in records past the last beat too, and before any rule.
 * Lent memory: read only. */
urd_write_answer urd_judge_writes(uint32_t start, uint32_t len, uint32_t size, uint32_t kind, uint32_t bus, const uint8_t *beats, size_t beats_length);

/* ---- streams ---- */

/* width and user say what a record is, above; urd_repack, urd_downsize and urd_merge read and write records of the same user. The number `user`
 * is there since T-06: what a program compiled before asks is refused with 1 or 16, so compile it anew, with user 0. */

/* What a stream call answers. */
typedef struct urd_stream_answer {
    uint32_t refusal; /* the refusal's number, or 0 */
    uint32_t rule;    /* broken rule 1 to 4: of urd_judge (refusal 0), and of refusal 14 */
    uint64_t place;   /* the record of refusals 3 and 4; the broken cycle where there is a rule */
    uint64_t count;   /* transfers counted, or records written */
} urd_stream_answer;

/* What urd_data_octets answers: a part of the caller's own capture, empty where refused. */
typedef struct urd_part_answer {
    uint32_t refusal; /* the refusal's number, or 0 */
    uint64_t start;   /* offset of the first data octet in the capture */
    uint64_t length;  /* how many there are: width */
} urd_part_answer;

/* Judges cycle records. Clean: rule 0, count of transfers. Broken: the lowest rule at cycle `place`, the earliest one: 1 TVALID high with
 * ARESETn low now or in the cycle before, 2 TVALID gone while it waited for TREADY, 3 TLAST or an octet from 1 on changed while it waited,
 * 4 a reserved lane.
 * Refusals: 1, 16, 2, 3 (place: the record).
 * Lent memory: read only. */
urd_stream_answer urd_judge(size_t width, size_t user, const uint8_t *capture, size_t capture_length);

/* Writes the transfers of a clean capture of cycle records, in order, as transfer records: count of records.
 * Refusals: 1, 16, 2, 3 (place: the record), 14 (place: the cycle; rule), 5.
 * Lent memory: `out` gets the records and is unchanged after them; refused, it is unchanged. */
urd_stream_answer urd_harvest(size_t width, size_t user, const uint8_t *capture, size_t capture_length, uint8_t *out, size_t out_length);

/* Sets TLAST of every record to a level, for ports with no TLAST wire: count of records. `level` 0 is low, anything else high. Arm
 * recommends high where nobody knows what stands in between (IHI 0051A 3.1.3). The level is there since T-03: a program compiled before
 * passes none and gets either level, so compile it anew.
 * Refusals: 1, 16, 2.
 * Lent memory: bit 0 of octet 0 of each record of `capture` becomes the level, nothing else changes; refused, it is unchanged. */
urd_stream_answer urd_fill_in(size_t width, size_t user, uint8_t *capture, size_t capture_length, uint32_t level);

/* Writes the packed form, at width v, of a stream of transfer records: count of records. Data and position bytes keep their user
 * bits. No legal stream of v lanes and the same user that carries the same data and position bytes, user bits and packet ends, each with
 * its TID and TDEST, in the same order, has fewer records (T-07). No result is longer than 377,424 octets: 2,621 records of 16 items with
 * a user bit each, to records of one lane.
 * Refusals: 1 (either width), 16, 2, then record by record 3 and 4 (place: the record), 5.
 * Lent memory: `out` gets the records and is unchanged after them; refused, it is unchanged. */
urd_stream_answer urd_repack(size_t width, size_t user, size_t v, const uint8_t *input, size_t input_length, uint8_t *out, size_t out_length);

/* Cuts each transfer record into width/v records of width v, lane by lane, nulls kept: count of records. Data and position bytes keep
 * their user bits. 377,424 octets are always enough, as for urd_repack.
 * Refusals: 1 (either width), 16, 6, 2, then record by record 3 and 4 (place: the record), 5.
 * Lent memory: `out` gets the records and is unchanged after them; refused, it is unchanged. */
urd_stream_answer urd_downsize(size_t width, size_t user, size_t v, const uint8_t *input, size_t input_length, uint8_t *out, size_t out_length);

/* What urd_merge answers. The rule of its refusals is always 0, so it has no field. */
typedef struct urd_merge_answer {
    uint32_t refusal; /* the refusal's number, or 0 */
    uint32_t port;    /* refused: the port whose list or record it is, 0 or 1; of refusals 1, 16 and 5 it is 0 */
    uint64_t place;   /* the record of refusals 3, 4 and 17, in its own list */
    uint64_t count;   /* records written: those of both lists */
} urd_merge_answer;

/* Merges the transfer records `first` of port 0 and `second` of port 1 onto one port, by turns, port 0 first: count of records. A turn
 * passes on a port's records up to and with its next TLAST, whatever the TID and TDEST, or to the end of its list; a port with nothing
 * left is skipped. Every record goes out as it is, all-null ones too, but port 1's TIDs have 128 added: a TID of 128 or more in `out` says
 * port 1. What is written has the octets of both lists together, 131,072 at most, where other calls take 65,536. For urd_repack cut it
 * behind each record with TLAST and wherever the next record is the other port's: these are the turns, none longer than a list, and the
 * packed forms of one or several of them at a time, joined in order, are the packed form of all.
 * Refusals: 1 and 16, 2 for `first`, 2 for `second`, then record by record of `first` and then of `second` 3, 4 and 17 (place: the
 * record), 5.
 * Lent memory: `out` gets the records and is unchanged after them; refused, it is unchanged. */
urd_merge_answer urd_merge(size_t width, size_t user, const uint8_t *first, size_t first_length, const uint8_t *second, size_t second_length, uint8_t *out, size_t out_length);

/* Where the data octets of record k stand, without its user bits: `length` octets from offset `start` of the capture.
 * Refusals: 1, 16, 2, 13.
 * Lent memory: read only; the part is the capture's own octets, not a copy. */
urd_part_answer urd_data_octets(size_t width, size_t user, const uint8_t *capture, size_t capture_length, size_t k);

/* ---- the report ---- */

/* The verdicts. */
#define URD_CLEAN 0
#define URD_BROKEN 1
#define URD_REFUSED 2

/* What urd_report answers. */
typedef struct urd_report_answer {
    uint32_t verdict;   /* one of the three above */
    uint32_t refusal;   /* refused: the refusal's number */
    uint32_t rule;      /* broken: the rule, 1 to 4 */
    uint64_t place;     /* refused: the record of refusal 3; broken: the cycle */
    uint64_t transfers; /* clean: the transfers harvested */
    uint64_t packets;   /* clean: how many of them have TLAST, after fill-in */
    uint64_t records;   /* clean: the records written to `out` */
    uint64_t text;      /* octets of the report's text at the front of `text`; 0 where it does not fit (103 are enough) */
    uint64_t octets;    /* clean: octets of the result at the front of `out` */
} urd_report_answer;

/* The report on cycle records by a setup sheet. `sheet_read` and `capture_read` are 0 where the file can't be read, else not.
 * In the sheet `tlast=none` fills in high and `tlast=low` low; before T-03 `none` was low. Since T-06 each sheet has a fifth line,
 * `user=0` to `user=9`, and one of four lines is refused (15).
 * Refusals: 15, 1 (either width), 16, 6 (lanes mode), 2 (a capture that can't be read, too), 3 (place: the record), 5.
 * Lent memory: `out` gets the result if clean, `text` the report's lines if they fit; nothing else in them changes. */
urd_report_answer urd_report(const uint8_t *sheet, size_t sheet_length, uint32_t sheet_read, const uint8_t *capture, size_t capture_length, uint32_t capture_read, uint8_t *out, size_t out_length, uint8_t *text, size_t text_length);

#ifdef __cplusplus
}
#endif

#endif
