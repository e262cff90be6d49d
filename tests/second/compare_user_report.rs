//! T-06 in the library's report: the sheet's fifth line, refusal 16 in its order, and the room, worked out by hand from the
//! request's text; then the same in all rooms against the model.
use crate::cases::{P1_TAKE, hex};
use crate::compare_report::{sheet, told_by_hand};
use crate::tally::Tally;

/// Widths, mode, word, user bits, the cycles with a `|` between them, the verdict with its numbers, and out.bin.
type Hand = (usize, usize, &'static str, &'static str, usize, &'static str, &'static str, &'static str);

const P1_1: &str = "0F 01 02 0D 00 09 00 11 22 33 44 0E"; // P1 with the bits 0 1 1 1
const P1_3: &str = "0F 01 02 0D 00 09 00 11 22 33 44 AF 0C"; // P1 with the bits 7 5 2 6 of three each
const WAIT: &str = "0B 09 03 07 00 05 00 A1 A2 A3 35 01 | 0F 09 03 07 00 05 00 A1 A2 A3 35 01"; // the bits 5 6 4; lane 1 is a position
const CHANGED: &str = "0B 09 03 07 00 05 00 A1 A2 A3 35 01 | 0F 09 03 07 00 05 00 A1 A2 A3 35 00"; // the highest bit of lane 2
const PADDED: &str = "0B 09 03 07 00 05 00 A1 A2 A3 35 01 | 0F 09 03 07 00 05 00 A1 A2 A3 35 03"; // the lowest bit of the padding
const TWO: &str = "0E 00 00 01 00 01 00 77 0F | 0E 00 00 01 00 00 00 78 06";

const BY_HAND: [Hand; 19] = [
    (4, 2, "pack", "wired", 0, P1_TAKE, "clean 1 1 2", "00 01 02 03 00 01 00 11 00 01 01 02 01 00 01 00 44 00"),
    (4, 2, "pack", "wired", 1, P1_TAKE, "refused 2 0", ""),
    (4, 2, "pack", "wired", 0, P1_1, "refused 2 0", ""),
    (4, 2, "pack", "wired", 1, P1_1, "clean 1 1 2", "00 01 02 03 00 01 00 11 00 02 01 01 02 01 00 01 00 44 00 01"),
    (4, 2, "pack", "low", 1, P1_1, "clean 1 0 2", "00 01 02 03 00 01 00 11 00 02 00 01 02 01 00 01 00 44 00 01"),
    (4, 2, "lanes", "wired", 3, P1_3, "clean 1 1 2", "00 01 02 01 00 01 00 11 00 07 01 01 02 03 00 02 00 00 44 32"),
    (4, 4, "lanes", "none", 3, P1_3, "clean 1 1 1", "01 01 02 0D 00 09 00 11 00 00 44 87 0C"),
    (4, 3, "lanes", "wired", 3, P1_3, "refused 6 0", ""),
    (3, 2, "pack", "wired", 3, WAIT, "clean 1 1 2", "00 09 03 03 00 01 00 A1 00 35 01 09 03 01 00 01 00 A3 00 04"),
    (3, 2, "pack", "wired", 3, CHANGED, "broken 1 3", ""),
    (3, 2, "pack", "low", 3, CHANGED, "broken 1 3", ""), // TLAST is filled in, and the user bits still differ
    (3, 2, "pack", "wired", 3, PADDED, "refused 3 1", ""),
    (3, 2, "pack", "wired", 4, PADDED, "broken 1 3", ""), // the second octet has four user bits
    (1, 2, "pack", "low", 4, TWO, "clean 2 0 1", "00 00 00 03 00 01 00 77 00 6F"),
    (1, 2, "pack", "none", 4, TWO, "clean 2 2 2", "01 00 00 01 00 01 00 77 00 0F 01 00 00 01 00 00 00 00 00 06"),
    (1, 2, "pack", "none", 3, TWO, "refused 3 0", ""),
    (1, 1, "pack", "wired", 1, "00 00 00 00 00 00 00 00 01 | 0E 00 00 01 00 01 00 55 01", "broken 1 1", ""),
    (1, 1, "pack", "wired", 2, "0A 00 00 01 00 01 00 55 03 | 08 00 00 01 00 01 00 55 01", "broken 1 2", ""),
    (1, 1, "lanes", "none", 2, "0E 00 00 00 00 00 00 55 03 | 0E 00 00 00 00 01 00 55 03", "broken 1 4", ""),
];

fn by_hand(t: &mut Tally) {
    for (w, v, mode, tlast, user, take, told, out) in BY_HAND {
        told_by_hand(t, (&sheet(w, v, mode, tlast, user), 1), (&hex(&take.replace('|', " ")), 1), told, Some(&hex(out)));
    }
}

/// What stands after P1's first four lines, and is no `user=` line.
const NO_LINES: [&str; 40] = [
    "", "user=\n", "user=00\n", "user=01\n", "user=04\n", "user=10\n", "user=16\n", "user=40\n", "user=99\n", "user=000\n", "user=a\n", "user=A\n", "user=:\n", "user=/\n",
    " user=0\n", "user=0", "user=", "user", "user=0 \n", "user= 0\n", "user =0\n", "user=0\r\n", "user=-1\n", "user=+1\n", "user=0.\n", "User=0\n",
    "users=0\n", "use=0\n", "user0\n", "user:0\n", "user=0\0\n", "user=\0\n", "user=0\n\n", "\nuser=0\n", "user=0\nuser=0\n", "user=0\n0", "user=0\n\0",
    "user=\u{ff10}\n", "user=5\nuser=5\n", "tlast=wired\nuser=0\n",
];

/// The fifth line where it does not stand fifth.
const NO_PLACES: [&str; 5] = [
    "user=0\nwidth_in=4\nwidth_out=2\nmode=pack\ntlast=wired\n", "width_in=4\nuser=0\nwidth_out=2\nmode=pack\ntlast=wired\n",
    "width_in=4\nwidth_out=2\nuser=0\nmode=pack\ntlast=wired\n", "width_in=4\nwidth_out=2\nmode=pack\nuser=0\ntlast=wired\n",
    "width_in=4\nwidth_out=2\nmode=pack\nuser=0\n",
];

fn sheets(t: &mut Tally) {
    let take = hex(P1_TAKE);
    let four = "width_in=4\nwidth_out=2\nmode=pack\ntlast=wired\n";
    let lines = NO_LINES.map(|line| format!("{four}{line}"));
    for text in lines.iter().map(String::as_str).chain(NO_PLACES) { told_by_hand(t, (text.as_bytes(), 1), (&take, 1), "refused 15 0", Some(&[])); }
    for digit in 5..=9 { told_by_hand(t, (format!("{four}user={digit}\n").as_bytes(), 1), (&take, 1), "refused 16 0", Some(&[])); }
    for digit in 1..=4 { told_by_hand(t, (format!("{four}user={digit}\n").as_bytes(), 1), (&take, 1), "refused 2 0", Some(&[])); }
}

/// A sheet's values, whether the take can be read, its cycles, and the refusal: each breaks what comes later, too.
const ORDER: [(usize, usize, &str, &str, &str, u32, &str, &str); 20] = [
    (17, 2, "pack", "high", "5", 1, "FF", "refused 15 0"), (100, 2, "pack", "wired", "5", 1, "FF", "refused 15 0"), (17, 2, "pack", "wired", "10", 1, "FF", "refused 15 0"),
    (17, 2, "pack", "wired", "5", 1, "FF", "refused 1 0"), (4, 17, "pack", "wired", "5", 1, "FF", "refused 1 0"), (0, 2, "lanes", "none", "9", 0, "", "refused 1 0"),
    (4, 0, "lanes", "low", "9", 0, "", "refused 1 0"), (99, 99, "lanes", "wired", "5", 0, "", "refused 1 0"),
    (4, 3, "lanes", "wired", "5", 1, "FF", "refused 16 0"), (4, 3, "lanes", "none", "9", 0, "", "refused 16 0"), (4, 3, "lanes", "wired", "4", 1, "FF", "refused 6 0"),
    (4, 2, "pack", "wired", "5", 0, P1_TAKE, "refused 16 0"), (4, 2, "pack", "wired", "4", 0, P1_1, "refused 2 0"), (4, 2, "pack", "none", "5", 1, "FF", "refused 16 0"),
    (4, 2, "pack", "wired", "5", 1, P1_TAKE, "refused 16 0"), (1, 1, "pack", "wired", "8", 1, "02 00 00 00 00 00 00 00 00", "refused 16 0"),
    (1, 1, "pack", "wired", "5", 1, "FF FF FF FF FF FF FF FF FF", "refused 16 0"), (1, 1, "pack", "wired", "4", 1, "FF FF FF FF FF FF FF FF FF", "refused 3 0"),
    (1, 1, "pack", "wired", "4", 1, "02 00 00 00 00 00 00 00 1F", "refused 3 0"), (1, 1, "pack", "wired", "4", 1, "02 00 00 00 00 00 00 00 0F", "broken 0 1"),
];

fn in_order(t: &mut Tally) {
    for (w, v, mode, tlast, user, read, take, told) in ORDER {
        told_by_hand(t, (&sheet(w, v, mode, tlast, user), 1), (&hex(take), read), told, Some(&[]));
    }
    told_by_hand(t, (&sheet(17, 2, "pack", "wired", 5), 0), (&hex(P1_TAKE), 0), "refused 15 0", Some(&[]));
}

/// Around the room of 65,536 octets: widths, user bits, mode, word, transfers with every lane data, data lanes of one more, and
/// the number of records, or none where it is ROOM. A record of one lane has 9 octets, so that 7,281 of them fit; of sixteen
/// lanes with four bits it has 31; and the last shapes have 16, so that 4,096 fill the room.
const BOUNDS: [(usize, usize, usize, &str, &str, usize, usize, Option<usize>); 32] = [
    (8, 1, 1, "pack", "low", 910, 1, Some(7_281)), (8, 1, 1, "pack", "low", 910, 2, None),
    (16, 4, 1, "pack", "low", 455, 1, Some(7_281)), (16, 4, 1, "pack", "low", 455, 2, None),
    (2, 2, 1, "pack", "low", 3_640, 1, Some(7_281)), (2, 2, 1, "pack", "low", 3_641, 0, None),
    (3, 3, 1, "pack", "none", 2_427, 0, Some(7_281)), (3, 3, 1, "pack", "none", 2_427, 1, None),
    (1, 1, 1, "pack", "none", 7_281, 0, Some(7_281)), (1, 4, 1, "pack", "low", 7_281, 0, Some(7_281)),
    (2, 0, 1, "pack", "low", 4_096, 0, Some(8_192)), (2, 0, 1, "pack", "low", 4_096, 1, None),
    (3, 1, 1, "lanes", "low", 2_427, 0, Some(7_281)), (3, 1, 1, "lanes", "low", 2_428, 0, None),
    (2, 3, 1, "lanes", "none", 3_640, 0, Some(7_280)), (2, 3, 1, "lanes", "none", 3_641, 0, None),
    (16, 2, 1, "lanes", "low", 455, 0, Some(7_280)), (16, 2, 1, "lanes", "low", 456, 0, None),
    (1, 4, 16, "pack", "none", 2_114, 0, Some(2_114)), (1, 4, 16, "pack", "none", 2_115, 0, None), (1, 4, 16, "pack", "low", 2_115, 0, Some(133)),
    (1, 3, 16, "pack", "none", 2_259, 0, Some(2_259)), (1, 3, 16, "pack", "none", 2_260, 0, None),
    (1, 1, 8, "pack", "none", 4_096, 0, Some(4_096)), (1, 1, 8, "pack", "none", 4_097, 0, None),
    (1, 2, 7, "pack", "none", 4_096, 0, Some(4_096)), (1, 2, 7, "pack", "none", 4_097, 0, None),
    (1, 3, 6, "pack", "none", 4_096, 0, Some(4_096)), (1, 3, 6, "pack", "none", 4_097, 0, None),
    (1, 4, 6, "pack", "none", 4_096, 0, Some(4_096)), (1, 4, 6, "pack", "none", 4_097, 0, None), (16, 4, 16, "pack", "low", 2_114, 0, Some(2_114)),
];

/// A handshaken cycle with so many data lanes from lane 0 up, every user bit high.
pub fn cycle(w: usize, m: usize, data: usize, last: bool) -> Vec<u8> {
    let lanes = (((1u32 << data) - 1) as u16).to_le_bytes();
    let user = (((1u128 << (w * m)) - 1) as u64).to_le_bytes();
    [&[14 | u8::from(last), 5, 2, lanes[0], lanes[1], lanes[0], lanes[1]], &vec![0x77; w][..], &user[..(w * m + 7) / 8]].concat()
}

/// The take says the other level than the word, so that only a filled take gives these numbers.
fn bounds(t: &mut Tally) {
    for (w, m, v, mode, tlast, full, more, records) in BOUNDS {
        let last = tlast == "low";
        let rest = if more > 0 { cycle(w, m, more, last) } else { Vec::new() };
        let take = [cycle(w, m, w, last).repeat(full), rest].concat();
        let transfers = full + usize::from(more > 0);
        let packets = if last { 0 } else { transfers };
        let told = records.map_or("refused 5 0".to_string(), |records| format!("clean {transfers} {packets} {records}"));
        told_by_hand(t, (&sheet(w, v, mode, tlast, m), 1), (&take, 1), &told, None);
    }
    let over = cycle(1, 1, 1, false).repeat(7_282);
    told_by_hand(t, (&sheet(1, 1, "pack", "none", 1), 1), (&over, 1), "refused 2 0", Some(&[]));
}

/// What the gate asks.
pub fn all(t: &mut Tally) {
    t.group("T-06 reports by hand", by_hand);
    t.group("T-06 sheets", sheets);
    t.group("T-06 report refusals in order", in_order);
    t.group("T-06 reports at the room's bound", bounds);
}
