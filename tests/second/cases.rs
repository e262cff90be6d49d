//! Paper 01's bench cases, and cases of change requests, typed literally. They run against
//! any set of calls: the model in the self test, and the library in the compare programs.
use crate::model::{Burst, BurstAnswer, StreamAnswer};
use crate::model_axi3::CutAnswer;
use crate::tally::Tally;

pub struct BurstCalls {
    pub judge: fn(Burst) -> BurstAnswer,
    pub beat: fn(Burst, u32) -> BurstAnswer,
    pub step: fn(Burst, u32) -> BurstAnswer,
}

/// Each call gets the width, then T-06's user bits to a byte, then the output width where it has one.
pub struct StreamCalls {
    pub judge: fn(usize, usize, &[u8]) -> StreamAnswer,
    pub harvest: fn(usize, usize, &[u8], &mut [u8]) -> StreamAnswer,
    pub fill_in: FillInCall,
    pub data_octets: fn(usize, usize, &[u8], usize) -> (StreamAnswer, [u64; 2]),
    pub repack: ConvertCall,
    pub downsize: ConvertCall,
}

pub type ConvertCall = fn(usize, usize, usize, &[u8], &mut [u8]) -> StreamAnswer;

/// Width, user bits, the lent take, and the number that says the level: 0 is low, each other one high.
pub type FillInCall = fn(usize, usize, &mut [u8], u32) -> StreamAnswer;

/// A burst, and the lent row as numbers, five a description.
pub type CutCall = fn(Burst, &mut [u64]) -> CutAnswer;

fn burst(start: u32, beats: u32, size: u32, kind: u32, bus: u32) -> Burst {
    Burst { start, len: beats - 1, size, kind, bus }
}

/// Every beat as (address, lower, upper), every step, then 13 after the last.
fn beats_are(t: &mut Tally, c: &BurstCalls, b: Burst, beats: &[(u64, u32, u32)], steps: &[i32]) {
    refusal_is(t, c, b, 0);
    for (k, &(address, lower, upper)) in beats.iter().enumerate() {
        t.same((c.beat)(b, k as u32), BurstAnswer { address, lower, upper, ..Default::default() }, || format!("{b:?} beat {k}"));
    }
    for (k, &step) in steps.iter().enumerate() {
        t.same((c.step)(b, k as u32), BurstAnswer { step, ..Default::default() }, || format!("{b:?} step {k}"));
    }
    let none = BurstAnswer { refusal: 13, ..Default::default() };
    t.same((c.beat)(b, beats.len() as u32), none, || format!("{b:?} beat after the last"));
    t.same((c.step)(b, steps.len() as u32), none, || format!("{b:?} step after the last"));
}

fn refusal_is(t: &mut Tally, c: &BurstCalls, b: Burst, refusal: u32) {
    t.same((c.judge)(b), BurstAnswer { refusal, ..Default::default() }, || format!("{b:?}"));
}

pub fn bursts(t: &mut Tally, c: &BurstCalls) {
    t.group("case B1", |t| beats_are(t, c, burst(0x1002, 3, 2, 1, 4), &[(0x1002, 2, 3), (0x1004, 0, 3), (0x1008, 0, 3)], &[2, 4]));
    t.group("case B2", |t| beats_are(t, c, burst(0x1002, 3, 2, 0, 4), &[(0x1002, 2, 3); 3], &[0, 0]));
    t.group("case B3", |t| beats_are(t, c, burst(0x34, 4, 2, 2, 8), &[(0x34, 4, 7), (0x38, 0, 3), (0x3C, 4, 7), (0x30, 0, 3)], &[4, 4, -12]));
    t.group("case B4", |t| for bus in [4, 8, 16, 32, 64, 128] {
        refusal_is(t, c, burst(0xFF2, 4, 2, 1, bus), 0);
        refusal_is(t, c, burst(0xFF2, 5, 2, 1, bus), 12);
    });
    t.group("case B5", |t| {
        refusal_is(t, c, burst(0x1001, 256, 4, 1, 16), 0);
        refusal_is(t, c, burst(0x1010, 256, 4, 1, 16), 12);
    });
    t.group("case B6", |t| {
        refusal_is(t, c, burst(0x1000, 16, 2, 0, 4), 0);
        refusal_is(t, c, burst(0x1000, 17, 2, 0, 4), 10);
        refusal_is(t, c, burst(0x1000, 3, 2, 2, 4), 10);
        refusal_is(t, c, burst(0x32, 4, 2, 2, 4), 11);
    });
    // Each one also breaks as many later rules as can be broken with it.
    t.group("burst refusals in order", |t| {
        let mut b = Burst { start: 0x1FFF, len: 256, size: 8, kind: 3, bus: 3 };
        refusal_is(t, c, b, 7);
        b.bus = 2;
        refusal_is(t, c, b, 8);
        b.size = 2;
        refusal_is(t, c, b, 8);
        b.bus = 4;
        refusal_is(t, c, b, 9);
        b.kind = 2;
        refusal_is(t, c, b, 10);
        b.len = 15;
        refusal_is(t, c, b, 11);
        b.kind = 1;
        refusal_is(t, c, b, 12);
        let fence = BurstAnswer { refusal: 12, ..Default::default() };
        t.same(((c.beat)(b, 16), (c.step)(b, 15)), (fence, fence), || format!("{b:?}: 12 before 13"));
    });
    // A burst may end exactly at 2^32.
    t.group("burst up to 2^32", |t| beats_are(t, c, burst(0xFFFF_FFFB, 2, 2, 1, 8), &[(0xFFFF_FFFB, 3, 3), (0xFFFF_FFFC, 4, 7)], &[1]));
}

const UNTOUCHED: u64 = 0xC3C3_C3C3_C3C3_C3C3;

/// The answer, and the row with these numbers at its front; all else, and one number on either side, unchanged.
fn cut_leaves(t: &mut Tally, cut: CutCall, b: Burst, room: usize, answer: CutAnswer, front: &[u64]) {
    let mut lent = vec![UNTOUCHED; room + 2];
    let mut expected = lent.clone();
    expected[1..=front.len()].copy_from_slice(front);
    let got = cut(b, &mut lent[1..=room]);
    t.same((got, lent), (answer, expected), || format!("cut {b:?}, row of {room}"));
}

fn cut_refused(t: &mut Tally, cut: CutCall, b: Burst, refusal: u32, room: usize) {
    cut_leaves(t, cut, b, room, CutAnswer { refusal, count: 0 }, &[]);
}

/// An accepted cut: its bursts as (start, AxLEN), all else as in the old one. With one number less it is ROOM.
fn cuts_into(t: &mut Tally, cut: CutCall, b: Burst, bursts: &[(u64, u64)]) {
    let (size, kind, bus) = (u64::from(b.size), u64::from(b.kind), u64::from(b.bus));
    let front: Vec<u64> = bursts.iter().flat_map(|&(start, len)| [start, len, size, kind, bus]).collect();
    let answer = CutAnswer { refusal: 0, count: bursts.len() as u64 };
    for more in [0, 1, 4, 5, 13] { cut_leaves(t, cut, b, front.len() + more, answer, &front); }
    cut_refused(t, cut, b, 5, front.len() - 1);
}

/// Change request T-02, worked out by hand from its text.
pub fn cuts(t: &mut Tally, cut: CutCall) {
    t.group("T-02 by hand", |t| {
        cuts_into(t, cut, burst(0x1002, 17, 2, 1, 4), &[(0x1002, 15), (0x1040, 0)]);
        cuts_into(t, cut, burst(0x1002, 16, 2, 1, 4), &[(0x1002, 15)]);
        cuts_into(t, cut, burst(0x1002, 15, 2, 1, 4), &[(0x1002, 14)]);
        cuts_into(t, cut, burst(0x1FFF, 1, 2, 1, 4), &[(0x1FFF, 0)]);
        cuts_into(t, cut, burst(0x1003, 31, 0, 1, 1), &[(0x1003, 15), (0x1013, 14)]);
        cuts_into(t, cut, burst(0x1000, 32, 2, 1, 8), &[(0x1000, 15), (0x1040, 15)]);
        cuts_into(t, cut, burst(0x1007, 33, 3, 1, 64), &[(0x1007, 15), (0x1080, 15), (0x1100, 0)]);
        cuts_into(t, cut, burst(0x1036, 18, 2, 1, 32), &[(0x1036, 15), (0x1074, 1)]);
        cuts_into(t, cut, burst(0x2045, 32, 7, 1, 128), &[(0x2045, 15), (0x2800, 15)]);
        cuts_into(t, cut, burst(0xFFFF_FF05, 32, 3, 1, 8), &[(0xFFFF_FF05, 15), (0xFFFF_FF80, 15)]); // up to 2^32
        cuts_into(t, cut, burst(0x1001, 256, 4, 1, 16), &[
            (0x1001, 15), (0x1100, 15), (0x1200, 15), (0x1300, 15), (0x1400, 15), (0x1500, 15), (0x1600, 15), (0x1700, 15),
            (0x1800, 15), (0x1900, 15), (0x1A00, 15), (0x1B00, 15), (0x1C00, 15), (0x1D00, 15), (0x1E00, 15), (0x1F00, 15),
        ]);
        cuts_into(t, cut, burst(0x1002, 16, 2, 0, 4), &[(0x1002, 15)]); // FIXED and WRAP come out as themselves
        cuts_into(t, cut, burst(0x34, 4, 2, 2, 8), &[(0x34, 3)]);
        cuts_into(t, cut, burst(0x34, 16, 2, 2, 8), &[(0x34, 15)]);
    });
    cut_refusals(t, cut);
}

/// Each burst also breaks later rules; the last one is good, and only some rows are too short for it.
fn cut_refusals(t: &mut Tally, cut: CutCall) {
    t.group("T-02 refusals in order", |t| for room in [0, 4, 9, 80] {
        let mut b = Burst { start: 0x1FFF, len: 256, size: 8, kind: 3, bus: 3 };
        cut_refused(t, cut, b, 7, room);
        b.bus = 2;
        cut_refused(t, cut, b, 8, room);
        b.size = 2;
        cut_refused(t, cut, b, 8, room);
        b.bus = 4;
        cut_refused(t, cut, b, 9, room);
        for (kind, len) in [(0, 16), (1, 256), (2, 31)] { // none of them is cut
            (b.kind, b.len) = (kind, len);
            cut_refused(t, cut, b, 10, room);
        }
        b.len = 15;
        cut_refused(t, cut, b, 11, room);
        (b.kind, b.len) = (1, 16);
        cut_refused(t, cut, b, 12, room);
        b.start = 0x1FBD; // 17 beats up to the last byte of the block: two bursts, ten numbers
        if room < 10 { cut_refused(t, cut, b, 5, room); } else { cuts_into(t, cut, b, &[(0x1FBD, 15), (0x1FFC, 0)]); }
    });
}

const TAIL: u8 = 0xC3;

pub fn hex(text: &str) -> Vec<u8> { text.split_whitespace().map(|h| u8::from_str_radix(h, 16).expect("a typed octet")).collect() }

/// An accepted writing call: the octets, the count, and an unchanged tail.
pub fn writes(t: &mut Tally, call: impl Fn(&mut [u8]) -> StreamAnswer, count: u64, octets: &str) {
    let mut room = vec![TAIL; hex(octets).len() + 9];
    let mut expected = hex(octets);
    expected.extend([TAIL; 9]);
    let answer = call(&mut room);
    t.same((answer, room), (StreamAnswer { count, ..Default::default() }, expected), || "writing call".to_string());
}

/// The answer, and the lent take afterwards. The octet on either side has the other level in bit 0, so that a change shows.
pub fn fill_leaves(t: &mut Tally, fill_in: FillInCall, w: usize, m: usize, level: u32, take: &[u8], answer: StreamAnswer, after: &[u8]) {
    let side = [if level == 0 { TAIL } else { TAIL - 1 }];
    let mut lent = [&side, take, &side].concat();
    let got = fill_in(w, m, &mut lent[1..=take.len()], level);
    let inputs = || format!("fill-in {w}, user bits {m}, level {level:#x}, {} octets {:02x?}", take.len(), &take[..take.len().min(40)]);
    t.same(got, answer, inputs);
    t.check(lent == [&side, after, &side].concat(), || format!("{}\n    other octets {:02x?}", inputs(), &lent[..lent.len().min(42)]));
}

fn fills(t: &mut Tally, fill_in: FillInCall, w: usize, level: u32, take: &[u8], count: u64, after: &[u8]) {
    fill_leaves(t, fill_in, w, 0, level, take, StreamAnswer { count, ..Default::default() }, after);
}

/// Four records of width 1 as sampled, filled in low, and high; then the same octets as two records of width 9, low and high.
/// Fill-in asks nothing of a record, so there are bits in them that other calls refuse.
const FILLED: [&str; 5] = [
    "0F 00 00 01 00 01 00 5A FF FF FF FF FF FF FF FF B0 01 10 01 01 01 01 01 00 00 00 00 00 00 00 00",
    "0E 00 00 01 00 01 00 5A FE FF FF FF FF FF FF FF B0 01 10 01 01 01 01 01 00 00 00 00 00 00 00 00",
    "0F 00 00 01 00 01 00 5A FF FF FF FF FF FF FF FF B1 01 10 01 01 01 01 01 01 00 00 00 00 00 00 00",
    "0E 00 00 01 00 01 00 5A FF FF FF FF FF FF FF FF B0 01 10 01 01 01 01 01 00 00 00 00 00 00 00 00",
    "0F 00 00 01 00 01 00 5A FF FF FF FF FF FF FF FF B1 01 10 01 01 01 01 01 00 00 00 00 00 00 00 00",
];

/// Change request T-03's level: 0 is low, and each other number high.
fn fill_ins(t: &mut Tally, fill_in: FillInCall) {
    let [take, low, high, wide_low, wide_high] = FILLED.map(hex);
    t.group("T-03 by hand", |t| for level in [0, 1, 2, 256, 0x8000_0000, u32::MAX] {
        let (narrow, wide) = if level == 0 { (&low, &wide_low) } else { (&high, &wide_high) };
        for before in [&take, &low, &high] { fills(t, fill_in, 1, level, before, 4, narrow); }
        fills(t, fill_in, 9, level, &take, 2, wide);
        fills(t, fill_in, 1, level, &[], 0, &[]);
        let (bit, other) = if level == 0 { (0, 1) } else { (1, 0) };
        fills(t, fill_in, 1, level, &[other; 65_536], 8_192, &[bit, other, other, other, other, other, other, other].repeat(8_192));
        for (w, octets, refusal) in [(0, 31, 1), (0, 65_544, 1), (17, 48, 1), (usize::MAX - 6, 32, 1), (usize::MAX, 36, 1),
            (1, 1, 2), (1, 31, 2), (1, 33, 2), (16, 45, 2), (16, 47, 2), (1, 65_537, 2), (1, 65_544, 2), (9, 65_552, 2)] {
            let refused = StreamAnswer { refusal, ..Default::default() };
            fill_leaves(t, fill_in, w, 0, level, &vec![other; octets], refused, &vec![other; octets]);
        }
    });
}

pub const P1_TAKE: &str = "0F 01 02 0D 00 09 00 11 22 33 44";
pub const P1_TRANSFER: &str = "01 01 02 0D 00 09 00 11 22 33 44";
pub const S1: &str = "01 01 02 07 00 05 00 11 00 44 00";
const END_ONLY: &str = "01 00 00 00 00 00 00 00"; // the second record of S3

pub fn streams(t: &mut Tally, c: &StreamCalls) {
    let p1 = hex(P1_TRANSFER);
    let pack = |t: &mut Tally, w: usize, v: usize, input: &str, count: u64, octets: &str| {
        writes(t, |out| (c.repack)(w, 0, v, &hex(input), out), count, octets)
    };
    t.group("case P1", |t| {
        let take = hex(P1_TAKE);
        t.same((c.judge)(4, 0, &take), StreamAnswer { count: 1, ..Default::default() }, || "P1 judged".to_string());
        writes(t, |out| (c.harvest)(4, 0, &take, out), 1, P1_TRANSFER);
        pack(t, 4, 2, P1_TRANSFER, 2, "00 01 02 03 00 01 00 11 00 01 01 02 01 00 01 00 44 00");
        let part = (StreamAnswer::default(), [7, 4]);
        t.same((c.data_octets)(4, 0, &take, 0), part, || "P1's data octets".to_string());
        let low = hex("0E 01 02 0D 00 09 00 11 22 33 44");
        fills(t, c.fill_in, 4, 0, &take, 1, &low);
        fills(t, c.fill_in, 4, 1, &low, 1, &take);
    });
    t.group("case S1", |t| pack(t, 4, 4, P1_TRANSFER, 1, S1));
    t.group("case S2", |t| writes(t, |out| (c.downsize)(4, 0, 2, &p1, out), 2, "00 01 02 01 00 01 00 11 00 01 01 02 03 00 02 00 00 44"));
    t.group("case S3", |t| pack(t, 1, 1, &format!("00 00 00 01 00 01 00 AA {END_ONLY}"), 1, "01 00 00 01 00 01 00 AA"));
    t.group("case S4", |t| pack(t, 1, 1, &format!("{END_ONLY} {END_ONLY}"), 2, &format!("{END_ONLY} {END_ONLY}")));
    t.group("case S5", |t| pack(t, 1, 1, "00 00 00 00 00 00 00 00", 0, ""));
    t.group("case S6", |t| for w in 1..=16 { pack(t, w, 17 - w, "", 0, "") });
    t.group("case S7", |t| for v in 1..=16 {
        let nulls = "00 ".repeat(v - 1);
        let out: Vec<String> = ["01", "02", "01"].iter().map(|id| format!("00 {id} 00 01 00 01 00 5A {nulls}")).collect();
        pack(t, 1, v, "00 01 00 01 00 01 00 5A 00 02 00 01 00 01 00 5A 00 01 00 01 00 01 00 5A", 3, &out.join(" "));
    });
    // "Errors that look right": a wait is not carried across reset; R1 to R4, R1 as T-01 has it.
    t.group("handshake findings", |t| {
        let idle = "01 00 01 00 55"; // octets 3 on of a one-lane cycle
        for (flags, place, rule) in [(["0A", "00", "08"], 0, 0), (["0A", "08", "08"], 1, 2), (["0A", "0B", "08"], 1, 3), (["08", "02", "08"], 1, 1),
            (["00", "0A", "0A"], 1, 1), (["00", "02", "08"], 1, 1), (["00", "08", "0A"], 0, 0), (["0A", "00", "0A"], 2, 1)] {
            let take: Vec<String> = flags.iter().map(|f| format!("{f} 00 00 {idle}")).collect();
            t.same((c.judge)(1, 0, &hex(&take.join(" "))), StreamAnswer { rule, place, ..Default::default() }, || format!("{flags:?}"));
        }
        let (reset, reserved) = (format!("00 00 00 {idle}"), "0E 00 00 00 00 01 00 55");
        t.same((c.judge)(1, 0, &hex(reserved)), StreamAnswer { rule: 4, ..Default::default() }, || "R4".to_string());
        let first = StreamAnswer { rule: 1, place: 1, ..Default::default() };
        t.same((c.judge)(1, 0, &hex(&format!("{reset} {reserved}"))), first, || "R1 before R4".to_string());
        let unclean = StreamAnswer { refusal: 14, ..first };
        t.same((c.harvest)(1, 0, &hex(&format!("{reset} {reserved}")), &mut [0; 8]), unclean, || "14 with R1".to_string());
    });
    // Each refusal stands before all later ones: the input breaks those too.
    t.group("stream refusals in order", |t| {
        let refused = |refusal, place, rule| StreamAnswer { refusal, rule, place, count: 0 };
        let good = "00 00 00 03 00 03 00 11 22";
        let field = "02 00 00 00 00 03 00 11 22"; // octet 0 wrong, both lanes reserved
        let reserved = "00 00 00 01 00 03 00 11 22";
        let calls: [(&str, fn(&StreamCalls, &[u8]) -> StreamAnswer, String, StreamAnswer); 11] = [
            ("downsize 2 to 0", |c, i| (c.downsize)(2, 0, 0, i, &mut []), format!("{field} 00"), refused(1, 0, 0)),
            ("downsize 2 to 3", |c, i| (c.downsize)(2, 0, 3, i, &mut []), format!("{field} 00"), refused(6, 0, 0)),
            ("downsize 2 to 1", |c, i| (c.downsize)(2, 0, 1, i, &mut []), format!("{field} 00"), refused(2, 0, 0)),
            ("repack 2 to 17", |c, i| (c.repack)(2, 0, 17, i, &mut []), format!("{field} 00"), refused(1, 0, 0)),
            ("3 before 4 in a record", |c, i| (c.repack)(2, 0, 1, i, &mut []), format!("{good} {field}"), refused(3, 1, 0)),
            ("4 of an earlier record", |c, i| (c.repack)(2, 0, 1, i, &mut []), format!("{good} {reserved} {field}"), refused(4, 1, 0)),
            ("repack without room", |c, i| (c.repack)(2, 0, 1, i, &mut []), good.to_string(), refused(5, 0, 0)),
            ("judge 3 before a finding", |c, i| (c.judge)(2, 0, i), format!("{field} 10{}", &good[2..]), refused(3, 1, 0)),
            ("harvest 3 before 14", |c, i| (c.harvest)(2, 0, i, &mut []), format!("{field} 10{}", &good[2..]), refused(3, 1, 0)),
            ("harvest 14 before 5", |c, i| (c.harvest)(2, 0, i, &mut []), format!("0E{} {field}", &good[2..]), refused(14, 1, 1)),
            ("harvest without room", |c, i| (c.harvest)(2, 0, i, &mut []), format!("0E{}", &good[2..]), refused(5, 0, 0)),
        ];
        for (name, call, input, expected) in calls {
            t.same(call(c, &hex(&input)), expected, || format!("{name}: {input}"));
        }
        let none = refused(13, 0, 0);
        t.same((c.data_octets)(2, 0, &hex(field), 1), (none, [0, 0]), || "data octets 13".to_string());
    });
    fill_ins(t, c.fill_in);
}
