//! Change request T-06, user bits, worked out by hand from its text. The cases run against any set of calls: the model in the
//! self test, and the library in the comparison.
use crate::cases::{ConvertCall, StreamCalls, fill_leaves, hex, writes};
use crate::model::StreamAnswer;
use crate::tally::{Random, Tally};

/// The octets of a record.
pub fn size(w: usize, m: usize) -> usize { 7 + w + (w * m + 7) / 8 }

/// A conversion: width, user bits, output width, the transfers, and the records written. A `|` stands between records.
pub type Hand = (usize, usize, usize, &'static str, &'static str);

// P1's transfer (data 11, null, position, data 44) with the lanes' bits 0 1 1 1; 1 2 3 0; 7 5 2 6; 8 F 4 1.
const P1_1: &str = "01 01 02 0D 00 09 00 11 22 33 44 0E";
const P1_2: &str = "01 01 02 0D 00 09 00 11 22 33 44 39";
const P1_3: &str = "01 01 02 0D 00 09 00 11 22 33 44 AF 0C";
const P1_4: &str = "01 01 02 0D 00 09 00 11 22 33 44 F8 14";
// Three lanes with the bits 5 6 4 of three each: lane 2 has bits 6 to 8, so that its highest stands in the second octet.
const DATA: &str = "01 09 03 07 00 07 00 A1 A2 A3 35 01";
const NULL: &str = "01 09 03 05 00 05 00 A1 A2 A3 35 01"; // lane 1 null
const POSITION: &str = "01 09 03 07 00 05 00 A1 A2 A3 35 01"; // lane 1 a position
// Five lanes with the bits 3 2 1 0 3 of two each: data, position, null, data, position.
const FIVE: &str = "00 00 00 1B 00 09 00 B0 B1 B2 B3 B4 1B 03";
// Nine lanes of one bit; only lane 8 has it, in the second octet.
const NINE: &str = "00 00 00 FF 01 FF 01 90 91 92 93 94 95 96 97 98 00 01";
// Sixteen lanes: lane x has the four bits x, or x mod 8 as three bits.
const NIBBLES: &str = "00 00 00 FF FF FF FF 60 61 62 63 64 65 66 67 68 69 6A 6B 6C 6D 6E 6F 10 32 54 76 98 BA DC FE";
const TRIPLES: &str = "00 00 00 FF FF FF FF 60 61 62 63 64 65 66 67 68 69 6A 6B 6C 6D 6E 6F 88 C6 FA 88 C6 FA";
// Records of one lane: three with items, bits 5 6 4; one that vanishes and an end alone, both with bits on their null lane.
const SINGLES: &str = "00 07 00 01 00 01 00 E0 05 00 07 00 01 00 00 00 E1 06 01 07 00 01 00 01 00 E2 04";
const NO_ITEM: &str = "00 07 00 00 00 00 00 DD 07";
const END_ONLY: &str = "01 07 00 00 00 00 00 DD 07";
// The same pair with other bits, and another pair with the same bits.
const PAIRS: &str = "00 01 00 01 00 01 00 5A 03 00 01 00 01 00 01 00 5B 00 00 02 00 01 00 01 00 5C 00";

const PACKED: [Hand; 35] = [
    (4, 1, 1, P1_1, "00 01 02 01 00 01 00 11 00 | 00 01 02 01 00 00 00 00 01 | 01 01 02 01 00 01 00 44 01"),
    (4, 1, 2, P1_1, "00 01 02 03 00 01 00 11 00 02 | 01 01 02 01 00 01 00 44 00 01"),
    (4, 1, 4, P1_1, "01 01 02 07 00 05 00 11 00 44 00 06"),
    (4, 1, 9, P1_1, "01 01 02 07 00 05 00 11 00 44 00 00 00 00 00 00 06 00"),
    (4, 2, 1, P1_2, "00 01 02 01 00 01 00 11 01 | 00 01 02 01 00 00 00 00 03 | 01 01 02 01 00 01 00 44 00"),
    (4, 2, 2, P1_2, "00 01 02 03 00 01 00 11 00 0D | 01 01 02 01 00 01 00 44 00 00"),
    (4, 2, 5, P1_2, "01 01 02 07 00 05 00 11 00 44 00 00 0D 00"),
    (4, 3, 1, P1_3, "00 01 02 01 00 01 00 11 07 | 00 01 02 01 00 00 00 00 02 | 01 01 02 01 00 01 00 44 06"),
    (4, 3, 2, P1_3, "00 01 02 03 00 01 00 11 00 17 | 01 01 02 01 00 01 00 44 00 06"),
    (4, 3, 3, P1_3, "01 01 02 07 00 05 00 11 00 44 97 01"),
    (4, 4, 2, P1_4, "00 01 02 03 00 01 00 11 00 48 | 01 01 02 01 00 01 00 44 00 01"),
    (4, 4, 3, P1_4, "01 01 02 07 00 05 00 11 00 44 48 01"),
    (3, 3, 1, DATA, "00 09 03 01 00 01 00 A1 05 | 00 09 03 01 00 01 00 A2 06 | 01 09 03 01 00 01 00 A3 04"),
    (3, 3, 2, DATA, "00 09 03 03 00 03 00 A1 A2 35 | 01 09 03 01 00 01 00 A3 00 04"),
    (3, 3, 3, DATA, "01 09 03 07 00 07 00 A1 A2 A3 35 01"),
    (3, 3, 4, DATA, "01 09 03 07 00 07 00 A1 A2 A3 00 35 01"),
    (3, 3, 2, NULL, "01 09 03 03 00 03 00 A1 A3 25"),
    (3, 3, 3, NULL, "01 09 03 03 00 03 00 A1 A3 00 25 00"),
    (3, 3, 2, POSITION, "00 09 03 03 00 01 00 A1 00 35 | 01 09 03 01 00 01 00 A3 00 04"),
    (3, 3, 3, POSITION, "01 09 03 07 00 05 00 A1 00 A3 35 01"),
    (5, 2, 2, FIVE, "00 00 00 03 00 01 00 B0 00 0B | 00 00 00 03 00 01 00 B3 00 0C"),
    (5, 2, 4, FIVE, "00 00 00 0F 00 05 00 B0 00 B3 00 CB"),
    (9, 1, 8, NINE, "00 00 00 FF 00 FF 00 90 91 92 93 94 95 96 97 00 | 00 00 00 01 00 01 00 98 00 00 00 00 00 00 00 01"),
    (9, 1, 9, NINE, "00 00 00 FF 01 FF 01 90 91 92 93 94 95 96 97 98 00 01"),
    (16, 4, 8, NIBBLES, "00 00 00 FF 00 FF 00 60 61 62 63 64 65 66 67 10 32 54 76 | 00 00 00 FF 00 FF 00 68 69 6A 6B 6C 6D 6E 6F 98 BA DC FE"),
    (16, 4, 5, NIBBLES, "00 00 00 1F 00 1F 00 60 61 62 63 64 10 32 04 | 00 00 00 1F 00 1F 00 65 66 67 68 69 65 87 09 | \
        00 00 00 1F 00 1F 00 6A 6B 6C 6D 6E BA DC 0E | 00 00 00 01 00 01 00 6F 00 00 00 00 0F 00 00"),
    (16, 4, 16, NIBBLES, NIBBLES),
    (16, 3, 8, TRIPLES, "00 00 00 FF 00 FF 00 60 61 62 63 64 65 66 67 88 C6 FA | 00 00 00 FF 00 FF 00 68 69 6A 6B 6C 6D 6E 6F 88 C6 FA"),
    (16, 3, 16, TRIPLES, TRIPLES),
    (1, 3, 3, SINGLES, "01 07 00 07 00 05 00 E0 00 E2 35 01"),
    (1, 3, 3, NO_ITEM, ""),
    (1, 3, 3, END_ONLY, "01 07 00 00 00 00 00 00 00 00 00 00"),
    (1, 2, 3, PAIRS, "00 01 00 03 00 03 00 5A 5B 00 03 | 00 02 00 01 00 01 00 5C 00 00 00"),
    (1, 2, 1, PAIRS, "00 01 00 01 00 01 00 5A 03 | 00 01 00 01 00 01 00 5B 00 | 00 02 00 01 00 01 00 5C 00"),
    (1, 4, 2, "00 00 00 01 00 01 00 77 0F 01 00 00 01 00 01 00 78 06", "01 00 00 03 00 03 00 77 78 6F"),
];

pub const SLICED: [Hand; 14] = [
    (4, 1, 2, P1_1, "00 01 02 01 00 01 00 11 00 00 | 01 01 02 03 00 02 00 00 44 03"),
    (4, 1, 4, P1_1, "01 01 02 0D 00 09 00 11 00 00 44 0C"),
    (4, 2, 2, P1_2, "00 01 02 01 00 01 00 11 00 01 | 01 01 02 03 00 02 00 00 44 03"),
    (4, 3, 2, P1_3, "00 01 02 01 00 01 00 11 00 07 | 01 01 02 03 00 02 00 00 44 32"),
    (4, 3, 4, P1_3, "01 01 02 0D 00 09 00 11 00 00 44 87 0C"),
    (4, 4, 1, P1_4, "00 01 02 01 00 01 00 11 08 | 00 01 02 00 00 00 00 00 00 | 00 01 02 01 00 00 00 00 04 | 01 01 02 01 00 01 00 44 01"),
    (4, 4, 2, P1_4, "00 01 02 01 00 01 00 11 00 08 | 01 01 02 03 00 02 00 00 44 14"),
    (3, 3, 1, NULL, "00 09 03 01 00 01 00 A1 05 | 00 09 03 00 00 00 00 00 00 | 01 09 03 01 00 01 00 A3 04"),
    (3, 3, 3, NULL, "01 09 03 05 00 05 00 A1 00 A3 05 01"),
    (5, 2, 5, FIVE, "00 00 00 1B 00 09 00 B0 00 00 B3 00 0B 03"),
    (5, 2, 1, FIVE, "00 00 00 01 00 01 00 B0 03 | 00 00 00 01 00 00 00 00 02 | 00 00 00 00 00 00 00 00 00 | 00 00 00 01 00 01 00 B3 00 | 00 00 00 01 00 00 00 00 03"),
    (16, 4, 8, NIBBLES, "00 00 00 FF 00 FF 00 60 61 62 63 64 65 66 67 10 32 54 76 | 00 00 00 FF 00 FF 00 68 69 6A 6B 6C 6D 6E 6F 98 BA DC FE"),
    (16, 3, 8, TRIPLES, "00 00 00 FF 00 FF 00 60 61 62 63 64 65 66 67 88 C6 FA | 00 00 00 FF 00 FF 00 68 69 6A 6B 6C 6D 6E 6F 88 C6 FA"),
    (1, 3, 1, END_ONLY, "01 07 00 00 00 00 00 00 00"),
];

/// The octets of records with a `|` between them.
pub fn octets(records: &str) -> Vec<u8> { hex(&records.replace('|', " ")) }

pub fn converts(t: &mut Tally, call: ConvertCall, (w, m, v, input, output): Hand) {
    let count = output.split('|').filter(|record| !record.is_empty()).count() as u64;
    writes(t, |out| call(w, m, v, &octets(input), out), count, &output.replace('|', " "));
}

/// Two cycles: width, user bits, both, and (refusal, place, rule, count) of judging.
type Finding = (usize, usize, &'static str, (u32, u64, u32, u64));

const FINDINGS: [Finding; 12] = [
    (1, 1, "0A 00 00 01 00 01 00 55 01 | 0E 00 00 01 00 01 00 55 01", (0, 0, 0, 1)),
    (1, 1, "0A 00 00 01 00 01 00 55 01 | 0E 00 00 01 00 01 00 55 00", (0, 1, 3, 0)),
    (1, 1, "0A 00 00 01 00 00 00 55 00 | 0E 00 00 01 00 00 00 55 01", (0, 1, 3, 0)), // a position lane
    (1, 1, "0A 00 00 00 00 00 00 55 00 | 0E 00 00 00 00 00 00 55 01", (0, 1, 3, 0)), // a null lane
    (1, 1, "0E 00 00 01 00 01 00 55 00 | 0E 00 00 01 00 01 00 55 01", (0, 0, 0, 2)), // nothing waited
    (1, 1, "0A 00 00 01 00 01 00 55 00 | 0E 00 00 01 00 01 00 55 02", (3, 1, 0, 0)), // padding
    (1, 4, "0A 00 00 01 00 01 00 55 07 | 0E 00 00 01 00 01 00 55 0F", (0, 1, 3, 0)),
    (1, 4, "0A 00 00 01 00 01 00 55 07 | 0E 00 00 01 00 01 00 55 17", (3, 1, 0, 0)),
    (3, 3, "0A 00 00 07 00 07 00 A1 A2 A3 35 01 | 0E 00 00 07 00 07 00 A1 A2 A3 35 00", (0, 1, 3, 0)),
    (3, 3, "0A 00 00 07 00 07 00 A1 A2 A3 35 01 | 0E 00 00 07 00 07 00 A1 A2 A3 35 03", (3, 1, 0, 0)),
    (2, 4, "0A 00 00 03 00 03 00 A1 A2 7F | 0E 00 00 03 00 03 00 A1 A2 FF", (0, 1, 3, 0)), // no padding at all
    (1, 2, "02 00 00 01 00 01 00 55 03 | 08 00 00 01 00 01 00 55 04", (3, 1, 0, 0)), // 3 before a finding
];

fn finds(t: &mut Tally, c: &StreamCalls, (w, m, cycles, (refusal, place, rule, count)): Finding) {
    let take = hex(&cycles.replace('|', " "));
    t.same((c.judge)(w, m, &take), StreamAnswer { refusal, rule, place, count }, || format!("judge {w}, user bits {m}, {cycles}"));
    if count > 0 { return; }
    let refusal = if refusal == 0 { 14 } else { refusal };
    t.same((c.harvest)(w, m, &take, &mut []), StreamAnswer { refusal, rule, place, count: 0 }, || format!("harvest {w}, user bits {m}, {cycles}"));
}

/// Octets are kept as sampled, fill-in touches octet 0 of each record only, and data octets are the lanes alone.
fn other_calls(t: &mut Tally, c: &StreamCalls) {
    let take = "0E 01 02 0D 00 09 00 11 22 33 44 AF 0C 08 00 00 00 00 00 00 01 02 03 04 FF 0F 0B 01 02 0D 00 09 00 11 22 33 44 50 03 0F 01 02 0D 00 09 00 11 22 33 44 50 03";
    let kept = "00 01 02 0D 00 09 00 11 22 33 44 AF 0C 01 01 02 0D 00 09 00 11 22 33 44 50 03";
    writes(t, |out| (c.harvest)(4, 3, &hex(take), out), 2, kept);
    for (level, flags) in [(0, [0x0E, 0x08, 0x0A, 0x0E]), (1, [0x0F, 0x09, 0x0B, 0x0F])] {
        let mut after = hex(take);
        for (k, flag) in flags.into_iter().enumerate() { after[13 * k] = flag; }
        fill_leaves(t, c.fill_in, 4, 3, level, &hex(take), StreamAnswer { count: 4, ..Default::default() }, &after);
    }
    for (k, start) in [(0, 7), (1, 20), (2, 33), (3, 46)] {
        t.same((c.data_octets)(4, 3, &hex(take), k), (StreamAnswer::default(), [start, 4]), || format!("data octets of record {k}"));
    }
    t.same((c.data_octets)(4, 3, &hex(take), 4), (StreamAnswer { refusal: 13, ..Default::default() }, [0, 0]), || "no record 4".to_string());
}

/// Refusals of every call in order: widths, user bits and what all of them give on two octets, which are no record of any shape.
fn in_order(t: &mut Tally, c: &StreamCalls) {
    for (w, m, v, cycles, pack, slice) in [
        (17, 5, 3, 1, 1, 1), (0, 5, 3, 1, 1, 1), (4, 5, 17, 16, 1, 1), (4, 5, 0, 16, 1, 1), (17, 4, 3, 1, 1, 1), (4, 4, 17, 2, 1, 1),
        (17, usize::MAX, 17, 1, 1, 1), (4, usize::MAX, 17, 16, 1, 1), (4, 5, 3, 16, 16, 16), (4, usize::MAX, 3, 16, 16, 16),
        (16, 1 << 60, 3, 16, 16, 16), (4, 5, 2, 16, 16, 16), (4, 4, 3, 2, 2, 6), (4, 4, 2, 2, 2, 2), (4, 0, 3, 2, 2, 6),
    ] {
        let refused = |refusal| StreamAnswer { refusal, ..Default::default() };
        let text = || format!("{w} to {v}, user bits {m}");
        let two = [0xFF; 2];
        t.same((c.judge)(w, m, &two), refused(cycles), text);
        t.same((c.harvest)(w, m, &two, &mut []), refused(cycles), text);
        for level in [0, 1] { fill_leaves(t, c.fill_in, w, m, level, &two, refused(cycles), &two); }
        t.same((c.data_octets)(w, m, &two, 9), (refused(cycles), [0, 0]), text);
        t.same((c.repack)(w, m, v, &two, &mut []), refused(pack), text);
        t.same((c.downsize)(w, m, v, &two, &mut []), refused(slice), text);
    }
    let (reserved, both, good) = ("00 00 00 00 00 01 00 55 01", "00 00 00 00 00 01 00 55 02", "00 00 00 01 00 01 00 55 01");
    for (records, refusal, place) in [(format!("{good} {both}"), 3, 1), (format!("{reserved} {both}"), 4, 0), (good.to_string(), 5, 0)] {
        for call in [c.repack, c.downsize] {
            t.same(call(1, 1, 1, &hex(&records), &mut []), StreamAnswer { refusal, place, ..Default::default() }, || records.clone());
        }
    }
}

/// Three null records of this shape with every user bit high, and then these of the padding, in the record `at`.
fn all_high(w: usize, m: usize, at: usize, padding: u64) -> Vec<u8> {
    let octets = size(w, m) - 7 - w;
    let high = u64::MAX >> (64 - w * m);
    (0..3).flat_map(|k| [vec![0; 7 + w], (high | if k == at { padding } else { 0 }).to_le_bytes()[..octets].to_vec()].concat()).collect()
}

/// At every shape: each user bit is free, on null lanes too; each bit above them in the last octet is FIELD, in each record.
fn padding(t: &mut Tally, c: &StreamCalls) {
    for (w, m) in (1..=16).flat_map(|w| (1..=4).map(move |m| (w, m))) {
        let text = || format!("width {w}, user bits {m}");
        let good = all_high(w, m, 0, 0);
        t.same((c.judge)(w, m, &good), StreamAnswer::default(), text);
        t.same((c.repack)(w, m, w, &good, &mut []), StreamAnswer::default(), text);
        for (bit, at) in (w * m..8 * (size(w, m) - 7 - w)).flat_map(|bit| (0..3).map(move |at| (bit, at))) {
            let bad = all_high(w, m, at, 1 << bit);
            let field = StreamAnswer { refusal: 3, place: at as u64, ..Default::default() };
            let got = [(c.judge)(w, m, &bad), (c.harvest)(w, m, &bad, &mut []), (c.repack)(w, m, 1, &bad, &mut []), (c.downsize)(w, m, 1, &bad, &mut [])];
            t.same(got, [field; 4], text);
            t.same((c.data_octets)(w, m, &bad, at).0, StreamAnswer::default(), text);
            t.same((c.fill_in)(w, m, &mut bad.clone(), 1), StreamAnswer { count: 3, ..Default::default() }, text);
        }
    }
}

// ---- the octets read another way: all user bits of a record as one number ----

/// A record's TKEEP, TSTRB and user bits as numbers; lane x has bits x * m on of the last.
fn numbers(record: &[u8], w: usize) -> (u16, u16, u64) {
    let user = record[7 + w..].iter().rev().fold(0, |number, octet| number << 8 | u64::from(*octet));
    (u16::from_le_bytes([record[3], record[4]]), u16::from_le_bytes([record[5], record[6]]), user)
}

/// TKEEP, TSTRB, octet and user bits of a lane.
pub type Lane = (bool, bool, u8, u64);

/// Each lane of all records.
pub fn lanes(w: usize, m: usize, stream: &[u8]) -> Vec<Lane> {
    stream.chunks(size(w, m)).flat_map(|record| {
        let (keep, strb, user) = numbers(record, w);
        (0..w).map(move |x| (keep >> x & 1 == 1, strb >> x & 1 == 1, record[7 + x], user >> (x * m) & ((1 << m) - 1))).collect::<Vec<_>>()
    }).collect()
}

/// Data lanes with octet and bits, position lanes with their bits alone.
fn kept(lanes: &[Lane]) -> Vec<(Option<u8>, u64)> {
    lanes.iter().filter(|lane| lane.0).map(|lane| (Some(lane.2).filter(|_| lane.1), lane.3)).collect()
}

/// Transfers of any kinds of lanes and any user bits, on null lanes too.
fn some_transfers(r: &mut Random, w: usize, m: usize) -> Vec<u8> {
    let mut stream = Vec::new();
    for _ in 0..1 + r.below(6) {
        let keep = (r.next() | if r.one_in(3) { u64::MAX } else { 0 }) as u16 & (u16::MAX >> (16 - w));
        let strb = keep & r.next() as u16;
        let bits = if m == 0 { 0 } else { r.next() & u64::MAX >> (64 - w * m) };
        stream.extend([u8::from(r.one_in(3)), r.pick(&[0, 0, 0, 9]), 0]);
        stream.extend(keep.to_le_bytes().into_iter().chain(strb.to_le_bytes()));
        stream.extend((0..w).map(|_| r.next() as u8));
        stream.extend(&bits.to_le_bytes()[..size(w, m) - 7 - w]);
    }
    stream
}

pub fn result(call: ConvertCall, w: usize, m: usize, v: usize, input: &[u8]) -> (StreamAnswer, Vec<u8>) {
    let mut room = vec![0xC3; input.len() * 16];
    let answer = call(w, m, v, input, &mut room);
    room.truncate((answer.count as usize).saturating_mul(size(v, m)));
    (answer, room)
}

/// Items keep their octets and bits in order; null lanes, and what is above the last lane, are zero.
fn bits_stay(t: &mut Tally, call: ConvertCall, w: usize, m: usize, v: usize, input: &[u8]) {
    let (answer, out) = result(call, w, m, v, input);
    let (before, after) = (lanes(w, m, input), lanes(v, m, &out));
    let inputs = || format!("{w} to {v}, user bits {m}, {input:02x?}, answer {answer:?}, written {out:02x?}");
    t.check(answer.refusal == 0 && kept(&before) == kept(&after), inputs);
    t.check(after.iter().all(|lane| lane.0 || (lane.2, lane.3) == (0, 0)), inputs);
    t.check(m == 0 || out.chunks(size(v, m)).all(|record| v * m == 64 || numbers(record, v).2 >> (v * m) == 0), inputs);
}

/// The same transfers with and without bits on their null lanes give the same records.
fn nulls_are_free(t: &mut Tally, c: &StreamCalls, r: &mut Random, w: usize, m: usize) {
    let with = some_transfers(r, w, m);
    let mut without = with.clone();
    for record in without.chunks_mut(size(w, m)) { clear_nulls(record, w, m); }
    for v in 1..=16 { t.same(result(c.repack, w, m, v, &with), result(c.repack, w, m, v, &without), || format!("repack {w} to {v}, user bits {m}, {with:02x?}")); }
    for v in (1..=w).filter(|v| w % v == 0) {
        t.same(result(c.downsize, w, m, v, &with), result(c.downsize, w, m, v, &without), || format!("downsize {w} to {v}, user bits {m}, {with:02x?}"));
    }
    for stream in [with, without] { harvested_as_sampled(t, c, w, m, &stream); }
}

fn clear_nulls(record: &mut [u8], w: usize, m: usize) {
    let (keep, _, user) = numbers(record, w);
    let bits = (0..w).filter(|x| keep >> x & 1 == 1).map(|x| user & ((1 << m) - 1) << (x * m)).fold(0, |a, b| a | b);
    let octets = record.len() - 7 - w;
    record[7 + w..].copy_from_slice(&bits.to_le_bytes()[..octets]);
}

/// Every record as a handshaken cycle: the harvest has all its octets, those of null lanes too.
fn harvested_as_sampled(t: &mut Tally, c: &StreamCalls, w: usize, m: usize, stream: &[u8]) {
    let size = size(w, m);
    let mut take = stream.to_vec();
    for cycle in take.chunks_mut(size) { cycle[0] |= 0x0E; }
    let mut room = vec![0xC3; stream.len()];
    let answer = (c.harvest)(w, m, &take, &mut room);
    t.check(answer.count as usize == stream.len() / size && room == stream, || format!("harvest {w}, user bits {m}, {take:02x?}, answer {answer:?}, written {room:02x?}"));
}

pub fn users(t: &mut Tally, c: &StreamCalls) {
    t.group("T-06 packed by hand", |t| for hand in PACKED { converts(t, c.repack, hand) });
    t.group("T-06 sliced by hand", |t| for hand in SLICED { converts(t, c.downsize, hand) });
    t.group("T-06 findings by hand", |t| for finding in FINDINGS { finds(t, c, finding) });
    t.group("T-06 other calls by hand", |t| other_calls(t, c));
    t.group("T-06 refusals in order", |t| in_order(t, c));
    t.group("T-06 padding bit by bit", |t| padding(t, c));
    t.seeded_group("T-06 bits stay with their byte", |t, r| for _ in 0..2_000 {
        let (w, m) = (1 + r.below(16), r.below(5));
        let input = some_transfers(r, w, m);
        for v in 1..=16 { bits_stay(t, c.repack, w, m, v, &input); }
        for v in (1..=w).filter(|v| w % v == 0) { bits_stay(t, c.downsize, w, m, v, &input); }
    });
    t.seeded_group("T-06 bits of null lanes", |t, r| for _ in 0..600 {
        let (w, m) = (1 + r.below(16), 1 + r.below(4));
        nulls_are_free(t, c, r, w, m);
    });
}
