//! Cases of change request T-05, the write data channel, worked out by hand from its text and typed literally.
//! They run against the model in the self test, and against the library in the comparison.
use crate::cases::hex;
use crate::model::Burst;
use crate::model_writes::WriteAnswer;
use crate::tally::Tally;

/// A burst and the lent take of write beats, which stays as it is.
pub type WriteCall = fn(Burst, &mut [u8]) -> WriteAnswer;

fn burst(start: u32, beats: u32, size: u32, kind: u32, bus: u32) -> Burst {
    Burst { start, len: beats - 1, size, kind, bus }
}

/// The answer, and the take and the octet on either side of it unchanged. Those would be FIELD if they were read.
fn answers(t: &mut Tally, judge: WriteCall, b: Burst, take: &[u8], answer: WriteAnswer) {
    let mut lent = [&[0xC2], take, &[0xC2]].concat();
    let kept = lent.clone();
    let got = judge(b, &mut lent[1..=take.len()]);
    let inputs = || format!("writes of {b:?}, {} octets {:02x?}", take.len(), &take[..take.len().min(40)]);
    t.same(got, answer, inputs);
    t.check(lent == kept, || format!("{}: take changed", inputs()));
}

fn clean(t: &mut Tally, judge: WriteCall, b: Burst, take: &str, strobes: u64) {
    answers(t, judge, b, &hex(take), WriteAnswer { strobes, ..Default::default() });
}

fn broken(t: &mut Tally, judge: WriteCall, b: Burst, take: &str, rule: u32, place: u64) {
    answers(t, judge, b, &hex(take), WriteAnswer { rule, place, ..Default::default() });
}

fn refused(t: &mut Tally, judge: WriteCall, b: Burst, take: &str, refusal: u32, place: u64) {
    answers(t, judge, b, &hex(take), WriteAnswer { refusal, place, ..Default::default() });
}

pub fn writes(t: &mut Tally, judge: WriteCall) {
    t.group("T-05 lanes of B1, B2 and B3", |t| paper_lanes(t, judge));
    t.group("T-05 narrow buses by hand", |t| narrow_buses(t, judge));
    t.group("T-05 wide buses by hand", |t| wide_buses(t, judge));
    t.group("T-05 rules by hand", |t| rules(t, judge));
    t.group("T-05 most beats and octets by hand", |t| bounds(t, judge));
    t.group("T-05 refusals in order", |t| refusals(t, judge));
}

/// Paper 01 has the lanes of these: 2-3, 0-3, 0-3; then 2-3 each time; then 4-7, 0-3, 4-7, 0-3.
fn paper_lanes(t: &mut Tally, judge: WriteCall) {
    let (b1, b2, b3) = (burst(0x1002, 3, 2, 1, 4), burst(0x1002, 3, 2, 0, 4), burst(0x34, 4, 2, 2, 8));
    for (b, take, strobes) in [
        (b1, "00 0C 00 0F 01 0F", 10), (b1, "00 00 00 00 01 00", 0), (b1, "00 04 00 09 01 06", 5), (b1, "00 08 00 00 01 0E", 4),
        (b2, "00 0C 00 0C 01 0C", 6), (b2, "00 00 00 00 01 00", 0), (b2, "00 04 00 08 01 00", 2), (b2, "00 08 00 0C 01 04", 4),
        (b3, "00 F0 00 0F 00 F0 01 0F", 16), (b3, "00 00 00 00 00 00 01 00", 0), (b3, "00 90 00 09 00 60 01 06", 8),
    ] { clean(t, judge, b, take, strobes); }
    for (b, take, beat) in [
        (b1, "00 0E 00 0F 01 0F", 0), (b1, "00 0D 00 0F 01 0F", 0), (b1, "00 01 00 00 01 00", 0), (b1, "00 03 00 0C 01 0C", 0),
        (b2, "00 0E 00 0C 01 0C", 0), (b2, "00 0C 00 0F 01 0C", 1), (b2, "00 0C 00 01 01 0C", 1), (b2, "00 0C 00 0C 01 02", 2),
        (b2, "00 0C 00 0C 01 0E", 2), (b3, "00 F8 00 0F 00 F0 01 0F", 0), (b3, "00 01 00 0F 00 F0 01 0F", 0),
        (b3, "00 F0 00 1F 00 F0 01 0F", 1), (b3, "00 F0 00 80 00 F0 01 0F", 1), (b3, "00 F0 00 0F 00 F8 01 0F", 2),
        (b3, "00 F0 00 0F 00 0F 01 F0", 2), (b3, "00 F0 00 0F 00 F0 01 1F", 3), (b3, "00 F0 00 0F 00 F0 01 80", 3),
        (b3, "00 0F 00 F0 00 0F 01 F0", 0),
    ] { broken(t, judge, b, take, 1, beat); }
    for (b, take, record) in [
        (b1, "00 1C 00 0F 01 0F", 0), (b1, "00 0C 00 8F 01 0F", 1), (b1, "00 0C 00 0F 01 1F", 2), (b1, "02 0C 00 0F 01 0F", 0),
        (b2, "00 0C 80 0C 01 0C", 1), (b2, "00 0C 00 0C 01 2C", 2), (b3, "00 F0 00 0F 00 F0 03 0F", 3),
    ] { refused(t, judge, b, take, 3, record); }
}

/// Buses 1, 2, 4 and 8: records of two octets, and on the first three a strobe bit that must be zero.
fn narrow_buses(t: &mut Tally, judge: WriteCall) {
    let (b1, b2, b4) = (burst(0x1003, 2, 0, 1, 1), burst(0x1001, 2, 0, 1, 2), burst(0x1003, 2, 1, 1, 4)); // lane 0; 1, 0; 3, 0-1
    let (b8, fixed, wrap) = (burst(0x1005, 1, 3, 0, 8), burst(0x1002, 2, 1, 0, 8), burst(0x1006, 2, 1, 2, 8)); // 5-7; 2-3 twice; 6-7, 4-5
    for (b, take, strobes) in [
        (b1, "00 01 01 01", 2), (b1, "00 00 01 01", 1), (b1, "00 00 01 00", 0), (b2, "00 02 01 01", 2), (b2, "00 00 01 00", 0),
        (b4, "00 08 01 03", 3), (b4, "00 00 01 02", 1), (b8, "01 E0", 3), (b8, "01 A0", 2), (b8, "01 00", 0),
        (fixed, "00 0C 01 0C", 4), (wrap, "00 C0 01 30", 4), (wrap, "00 80 01 00", 1),
    ] { clean(t, judge, b, take, strobes); }
    for (b, take, rule, beat) in [
        (b2, "00 01 01 01", 1, 0), (b2, "00 03 01 01", 1, 0), (b2, "00 02 01 02", 1, 1), (b4, "00 0C 01 03", 1, 0),
        (b4, "00 09 01 03", 1, 0), (b4, "00 08 01 07", 1, 1), (b4, "00 08 01 08", 1, 1), (b8, "01 F0", 1, 0), (b8, "01 01", 1, 0),
        (b8, "00 E0", 3, 0), (fixed, "00 0C 01 30", 1, 1), (fixed, "00 1C 01 0C", 1, 0), (wrap, "00 E0 01 30", 1, 0),
        (wrap, "00 C0 01 70", 1, 1), (wrap, "00 C0 01 38", 1, 1), (wrap, "00 C0 01 03", 1, 1),
    ] { broken(t, judge, b, take, rule, beat); }
    for (b, take, record) in [
        (b1, "00 02 01 01", 0), (b1, "00 03 01 01", 0), (b1, "00 01 01 80", 1), (b1, "00 01 01 01 01 02", 2), (b2, "00 06 01 01", 0),
        (b2, "00 02 01 04", 1), (b2, "00 02 01 80", 1), (b4, "00 18 01 03", 0), (b4, "00 08 01 10", 1), (b4, "00 08 01 83", 1),
        (b8, "03 E0", 0), (b8, "05 E0", 0), (b8, "08 E0", 0), (b8, "10 E0", 0), (b8, "21 E0", 0), (b8, "40 E0", 0), (b8, "80 E0", 0),
    ] { refused(t, judge, b, take, 3, record); }
}

/// Buses 16, 32, 64 and 128: the low octet comes first. No strobe bit must be zero.
fn wide_buses(t: &mut Tally, judge: WriteCall) {
    let (b16, b32) = (burst(0x1006, 2, 2, 1, 16), burst(0x1018, 2, 3, 2, 32)); // 6-7, 8-11; 24-31, 16-23
    let (b64, b128, one) = (burst(0x103D, 2, 5, 0, 64), burst(0x1079, 2, 7, 1, 128), burst(0x1FFF, 1, 0, 1, 128)); // 61-63 twice; 121-127, all; 127
    let (low, high) = ("00 ".repeat(15), "FF ".repeat(16));
    clean(t, judge, b16, "00 C0 00 01 00 0F", 6);
    clean(t, judge, b32, "00 00 00 00 FF 01 00 00 FF 00", 16);
    clean(t, judge, b64, "00 00 00 00 00 00 00 00 E0 01 00 00 00 00 00 00 00 A0", 5);
    clean(t, judge, b128, &format!("00 {low} FE 01 {high}"), 135);
    clean(t, judge, b128, &format!("00 {low} 00 01 {low} 80"), 1);
    clean(t, judge, one, &format!("01 {low} 80"), 1);
    clean(t, judge, one, &format!("01 {low} 00"), 0);
    for (b, take, beat) in [
        (b16, "00 00 C0 01 0F 00", 0), (b16, "00 E0 00 01 00 0F", 0), (b16, "00 C0 01 01 00 0F", 0), (b16, "00 C0 00 01 80 0F", 1),
        (b16, "00 C0 00 01 00 1F", 1), (b32, "00 00 00 80 FF 01 00 00 FF 00", 0), (b32, "00 01 00 00 FF 01 00 00 FF 00", 0),
        (b32, "00 00 00 00 FF 01 00 80 FF 00", 1), (b32, "00 00 00 00 FF 01 00 00 FF 01", 1),
        (b64, "00 00 00 00 00 00 00 00 F0 01 00 00 00 00 00 00 00 E0", 0), (b64, "00 00 00 00 00 00 00 00 E0 01 E0 00 00 00 00 00 00 00", 1),
        (b64, "00 00 00 00 00 00 00 00 E0 01 00 00 00 00 00 00 80 E0", 1),
        (b128, &format!("00 {low} FF 01 {high}"), 0), (b128, &format!("00 01 {low} 01 {high}"), 0),
        (one, &format!("01 {low} C0"), 0), (one, &format!("01 80 {low}"), 0),
    ] { broken(t, judge, b, take, 1, beat); }
    refused(t, judge, b16, "00 C0 00 01 00 0F 01 00", 2, 0);
    refused(t, judge, b16, "00 C0 00 03 00 0F", 3, 1);
    refused(t, judge, one, &format!("01 {low}"), 2, 0);
}

/// One beat of lanes 0-3 on bus 4; two and three of them; and two beats of lanes 0-3 and 4-7 on bus 8.
fn rules(t: &mut Tally, judge: WriteCall) {
    let (one, two, three) = (burst(0x1000, 1, 2, 1, 4), burst(0x1000, 2, 2, 0, 4), burst(0x1000, 3, 2, 1, 4));
    let pair = burst(0x1000, 2, 2, 1, 8);
    clean(t, judge, one, "01 00", 0);
    clean(t, judge, one, "01 0F", 4);
    clean(t, judge, two, "00 00 01 0F", 4);
    clean(t, judge, pair, "00 0F 01 00", 4);
    for (b, take, rule, place) in [
        (one, "", 5, 0), (one, "00 00", 3, 0), (one, "00 0F 01 0F", 3, 0), (one, "01 0F 00 00", 4, 1), (one, "01 0F 01 0F", 4, 1),
        (two, "", 5, 0), (two, "00 0F", 5, 1), (two, "01 0F", 2, 0), (two, "01 0F 01 0F", 2, 0), (two, "01 0F 00 0F", 2, 0),
        (two, "00 0F 00 0F", 3, 1), (two, "00 0F 00 0F 01 0F", 3, 1), (two, "00 0F 01 0F 01 0F", 4, 2), (two, "00 0F 01 0F 00 00", 4, 2),
        (two, "00 0F 01 0F 00 00 00 00 01 0F", 4, 2), (two, "01 0F 00 0F 01 0F 01 0F", 2, 0),
        (three, "01 0F 00 0F 01 0F", 2, 0), (three, "00 0F 01 0F 01 0F", 2, 1), (three, "00 0F 01 0F", 2, 1), (three, "00 0F", 5, 1),
        (pair, "00 1F 01 F0", 1, 0), (pair, "00 0F 01 F8", 1, 1), (pair, "01 10 01 F0", 1, 0), (pair, "00 0F 00 01", 1, 1),
        (pair, "01 0F 01 0F", 2, 0), (pair, "00 F0 00 F0", 1, 0), (pair, "00 F0", 1, 0), (pair, "01 00", 2, 0), (pair, "00 00", 5, 1),
        (pair, "00 0F 01 F0 01 FF", 4, 2), (pair, "00 0F 01 F0 00 FF", 4, 2), (pair, "00 0F 00 F0 01 FF", 3, 1), (pair, "00 0F 01 0F 01 FF", 1, 1),
    ] { broken(t, judge, b, take, rule, place); }
    for (b, take, record) in [
        (one, "03 0F", 0), (one, "00 10", 0), (one, "01 0F 01 10", 1), (two, "01 0F 02 0F", 1), (two, "00 0F 01 0F 00 00 00 20", 3),
        (pair, "00 0F 01 F0 02 00", 2), (pair, "00 FF 01 F0 03 00", 2), (pair, "01 0F 41 F0", 1), (pair, "04 0F 08 F0", 0), (pair, "FE FF", 0),
    ] { refused(t, judge, b, take, 3, record); }
}

/// 256 beats: one lane each, 0 to 7 over and over; and the whole of a bus of 16. An address up to 2^32, and beat 16 of 17.
/// Then 65,536 octets, and more.
fn bounds(t: &mut Tally, judge: WriteCall) {
    let (bytes, full, later) = (burst(0x1000, 256, 0, 1, 8), burst(0x1000, 256, 4, 1, 16), burst(0x1001, 256, 4, 1, 16));
    let eight = "00 01 00 02 00 04 00 08 00 10 00 20 00 40 00 80 ";
    let most = format!("{} 00 01 00 02 00 04 00 08 00 10 00 20 00 40", eight.repeat(31)); // 255 beats
    let wide = "00 FF FF ".repeat(255);
    clean(t, judge, bytes, &format!("{most} 01 80"), 256);
    clean(t, judge, bytes, &format!("{}01 00", "00 00 ".repeat(255)), 0);
    clean(t, judge, full, &format!("{wide}01 FF FF"), 4096);
    clean(t, judge, burst(0xFFFF_FFFB, 2, 2, 1, 8), "00 08 01 F0", 5); // up to 2^32
    let past_16 = burst(0x1000, 17, 0, 1, 32); // beat 16 has lane 16
    clean(t, judge, past_16, &format!("{}01 00 00 01 00", "00 00 00 00 00 ".repeat(16)), 1);
    broken(t, judge, past_16, &format!("{}01 01 00 00 00", "00 00 00 00 00 ".repeat(16)), 1, 16);
    clean(t, judge, later, &format!("00 FE FF {}01 FF FF", "00 FF FF ".repeat(254)), 4095);
    broken(t, judge, later, &format!("{wide}01 FF FF"), 1, 0);
    broken(t, judge, bytes, &most, 5, 255);
    broken(t, judge, bytes, &format!("{most} 00 80"), 3, 255);
    broken(t, judge, bytes, &format!("{most} 01 40"), 1, 255);
    broken(t, judge, bytes, &format!("{most} 01 80 00 00"), 4, 256);
    let right = format!("{most} 01 80 ");
    broken(t, judge, bytes, &format!("{right}{}", "01 FF ".repeat(32_512)), 4, 256); // 65,536 octets
    broken(t, judge, bytes, &eight.repeat(4_096), 3, 255);
    refused(t, judge, bytes, &format!("{right}{}03 FF", "01 FF ".repeat(32_511)), 3, 32_767);
    refused(t, judge, bytes, &format!("{right}{}", "01 FF ".repeat(32_513)), 2, 0);
    refused(t, judge, bytes, &format!("{right}{}01", "01 FF ".repeat(32_511)), 2, 0);
    refused(t, judge, bytes, &format!("{right}{}01", "01 FF ".repeat(32_512)), 2, 0);
    broken(t, judge, full, &format!("{wide}01 FF FF {}", "00 00 00 ".repeat(21_589)), 4, 256); // 65,535 octets
    refused(t, judge, full, &format!("{wide}01 FF FF {}", "00 00 00 ".repeat(21_590)), 2, 0);
}

/// Each burst but the last is refused for later reasons too. The takes: none, no whole number of records, FIELD,
/// over-long; on the last burst they are themselves what is refused, and LENGTH comes before FIELD.
fn refusals(t: &mut Tally, judge: WriteCall) {
    let long = "FF ".repeat(65_538);
    for take in ["", "FF", "02 00 00", "FF FF", "00 0F 01 0F", &long] {
        let mut b = Burst { start: 0x1FFF, len: 256, size: 8, kind: 3, bus: 3 };
        refused(t, judge, b, take, 7, 0);
        b.bus = 2;
        refused(t, judge, b, take, 8, 0);
        b.size = 2;
        refused(t, judge, b, take, 8, 0);
        b.bus = 4;
        refused(t, judge, b, take, 9, 0);
        for (kind, len) in [(0, 16), (1, 256), (2, 31)] {
            (b.kind, b.len) = (kind, len);
            refused(t, judge, b, take, 10, 0);
        }
        b.len = 15;
        refused(t, judge, b, take, 11, 0);
        b.kind = 1;
        refused(t, judge, b, take, 12, 0);
    }
    let good = burst(0x1FF9, 2, 2, 1, 4); // lanes 1-3, 0-3, up to the block's last byte
    for take in ["FF", "02 00 00", "00 0E 01 0F 00", &long] { refused(t, judge, good, take, 2, 0); }
    refused(t, judge, good, "FF FF", 3, 0);
    refused(t, judge, good, "01 0F 01 1F", 3, 1);
    broken(t, judge, good, "01 0F 01 0F", 1, 0);
    broken(t, judge, good, "", 5, 0);
    clean(t, judge, good, "00 0E 01 0F", 7);
}
