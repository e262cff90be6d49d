//! The folders that are tried: sheets damaged in every small way, files that
//! are missing or no files, takes at each bound, broken by each rule, and results
//! at the room's bound. All made from the seed; a folder's number is its place here.
use crate::stream::{MOST_OCTETS, record_octets};
use crate::tally::Random;

/// What stands at a file's name. A link's target is a device, or nothing good.
#[derive(Clone, PartialEq)]
pub enum Entry { Missing, Folder, Link(&'static str), File(Vec<u8>) }
use Entry::{File, Link, Missing};

/// A technician's folder: setup.txt, take.bin, and what was there before.
#[derive(Clone)]
pub struct Folder { pub group: &'static str, pub setup: Entry, pub take: Entry, pub out: Entry, pub part: Entry }

struct Maker { r: Random, group: &'static str, list: Vec<Folder> }

const WORDS: [&str; 3] = ["wired", "none", "low"]; // T-03's, in a sheet's fourth line
const USERS: [usize; 8] = [0, 0, 0, 0, 1, 2, 3, 4]; // T-06's user bits to a byte, in its fifth
const P1_TAKE: [u8; 11] = [0x0F, 1, 2, 0x0D, 0, 9, 0, 0x11, 0x22, 0x33, 0x44];

pub fn all(seed: u64) -> Vec<Folder> {
    let mut m = Maker { r: Random(seed.max(1)), group: "", list: Vec::new() };
    let parts: [(&'static str, fn(&mut Maker)); 15] = [
        ("P1, and out.bin there before", p1), ("sheets: every octet", sheet_octets), ("sheets: lines", sheet_lines),
        ("sheets: values", sheet_values), ("widths", widths), ("files that are no files", files), ("lengths", lengths),
        ("each field bit", field_bits), ("user and padding bits", user_bits), ("rules", rules), ("TLAST moves during a wait", moving), ("room", rooms),
        ("room for each word", rooms_of_words), ("several faults at once", orders), ("random takes", random),
    ];
    for (group, make) in parts {
        m.group = group;
        make(&mut m);
    }
    m.list
}

impl Maker {
    fn add(&mut self, setup: Entry, take: Entry) {
        let out = self.out_before();
        self.list.push(Folder { group: self.group, setup, take, out, part: Missing });
    }
    fn files(&mut self, sheet: &[u8], take: &[u8]) { self.add(File(sheet.to_vec()), File(take.to_vec())); }

    /// out.bin before the run: not there, or a stale one, shorter or longer.
    fn out_before(&mut self) -> Entry {
        match self.r.below(4) { 0 => File(b"stale".to_vec()), 1 => File(vec![0x5B; 300]), _ => Missing }
    }
}

// ---- sheets ----
fn sheet(w: usize, v: usize, mode: &str, tlast: &str, user: usize) -> Vec<u8> {
    of_lines([&w.to_string(), &v.to_string(), mode, tlast, &user.to_string()])
}

fn of_lines(values: [&str; 5]) -> Vec<u8> {
    let [w, v, mode, tlast, user] = values;
    format!("width_in={w}\nwidth_out={v}\nmode={mode}\ntlast={tlast}\nuser={user}\n").into_bytes()
}

/// Paper 01's own sheet, and the longest good one, each with a good take.
fn good(m: &mut Maker) -> [(Vec<u8>, Vec<u8>); 2] {
    let wide = cycles(&mut m.r, 16, 4, 3);
    [(sheet(4, 2, "pack", "wired", 0), P1_TAKE.to_vec()), (sheet(16, 16, "lanes", "wired", 4), wide)]
}

fn p1(m: &mut Maker) {
    for out in [Missing, Entry::Folder, File(vec![]), File(b"stale".to_vec()), File(vec![0x5B; 70_000])] {
        for part in [Missing, File(b"left behind".to_vec()), File(vec![0x5B; 70_000]), Entry::Folder, Link("/dev/full")] {
            for take in [&P1_TAKE[..], &P1_TAKE[..10], &[]] {
                let (setup, take) = (File(sheet(4, 2, "pack", "wired", 0)), File(take.to_vec()));
                m.list.push(Folder { group: m.group, setup, take, out: out.clone(), part: part.clone() });
            }
        }
    }
}

/// All octets of the good sheets; of the other words and numbers only from their line on, since the lines before are P1's.
fn sheet_octets(m: &mut Maker) {
    for (good, take) in good(m) { each_octet(m, &good, 0, &take); }
    let line = sheet(4, 2, "pack", "", 0).len() - b"tlast=\nuser=0\n".len();
    for tlast in ["none", "low"] { each_octet(m, &sheet(4, 2, "pack", tlast, 0), line, &P1_TAKE); }
    each_octet(m, &sheet(4, 2, "pack", "wired", 5), line + b"tlast=wired\n".len(), &[&P1_TAKE[..], &[0x0E]].concat());
}

/// Each octet from there on left out, doubled, exchanged with the next, each bit of it changed,
/// something put before it, and the sheet cut off there; and octets behind the sheet.
fn each_octet(m: &mut Maker, good: &[u8], from: usize, take: &[u8]) {
    for at in from..=good.len() {
        m.files(&good[..at], take);
        for put in *b"\n\r \0=04a" { m.files(&[&good[..at], &[put], &good[at..]].concat(), take); }
        if at == good.len() { continue; }
        m.files(&[&good[..at], &good[at + 1..]].concat(), take);
        m.files(&[&good[..=at], &good[at..]].concat(), take);
        let mut other = good.to_vec();
        other.swap(at, (at + 1) % good.len());
        m.files(&other, take);
        for bit in 0..8 {
            let mut other = good.to_vec();
            other[at] ^= 1 << bit;
            m.files(&other, take);
        }
    }
    for octets in (good.len() + 1..=70).chain([127, 128, 129, 255, 256, 257, 4096, 65_535, 65_536, 65_537, 100_000]) {
        for tail in *b"\n0\0" {
            let mut long = good.to_vec();
            long.resize(octets, tail);
            m.files(&long, take);
        }
    }
}

/// Lines in every order, one left out or twice, ended otherwise, and more of them.
fn sheet_lines(m: &mut Maker) {
    for (good, take) in good(m) {
        let lines: Vec<&[u8]> = good.split_inclusive(|&o| o == b'\n').collect();
        for order in (0..3125).map(|n| [n, n / 5, n / 25, n / 125, n / 625].map(|n| n % 5)) {
            let other = order.iter().enumerate().filter(|(k, line)| k != *line).count();
            let all = (0..5).all(|k| order.contains(&k));
            if all || other == 1 { m.files(&order.map(|k| lines[k]).concat(), &take); } // every order of all, and one for another
        }
        for k in 0..5 {
            m.files(&[&lines[..k], &lines[k + 1..]].concat().concat(), &take);
            m.files(&[&lines[..=k], &lines[k..]].concat().concat(), &take);
        }
        let text = String::from_utf8_lossy(&good).to_string();
        for other in [text.replace('\n', "\r\n"), text.replace('\n', "\r"), text.replace('\n', ""), text.replace('=', " = "), text.to_uppercase(),
            text.replace("width_", "width-"), format!("\u{feff}{text}"), format!("{text}user=0\n"), format!("# bench 2\n{text}"), text.repeat(2),
            text.replace("user", "tuser"), text.replace("user=", "user= "), text.replace("user=", "user=0")] {
            m.files(other.as_bytes(), &take);
        }
    }
    for (tlast, again) in WORDS.into_iter().flat_map(|tlast| WORDS.map(|again| (tlast, again))) {
        m.files(&[sheet(4, 2, "pack", tlast, 0), format!("tlast={again}\n").into_bytes()].concat(), &P1_TAKE);
    }
    let five = sheet(4, 2, "pack", "wired", 0);
    let four = &five[..five.len() - b"user=0\n".len()];
    for line in ["", "\n", "user\n", "user=", "user=0", "user=\n", "user=0\nuser=0\n", "user=5\nuser=0\n", "user=0\n\n", "\nuser=0\n", " user=0\n"] {
        m.files(&[four, line.as_bytes()].concat(), &P1_TAKE); // four lines, six, or an odd fifth
    }
}

fn sheet_values(m: &mut Maker) {
    // the last four are 4 in 8, 16, 32 and 64 bits
    let odd = ["", "00", "01", "04", "007", "-4", "+4", " 4", "4 ", "0x4", "\u{ff14}", "4.0", "1e1", "4,", "4;", "four",
        "260", "65540", "4294967300", "18446744073709551620"];
    let numbers: Vec<String> = (0..=22).chain(97..=101).map(|n| n.to_string()).chain(odd.map(String::from)).collect();
    for n in &numbers {
        for mode in ["pack", "lanes"] {
            for values in [[n.as_str(), "2", mode, "wired", "0"], ["4", n, mode, "none", "0"], [n, n, mode, "low", "0"], ["4", "2", mode, "wired", n]] {
                m.files(&of_lines(values), &P1_TAKE);
            }
        }
        m.files(&of_lines(["17", "2", "pack", "low", n]), &P1_TAKE);
        m.files(&of_lines(["4", "3", "lanes", "none", n]), &P1_TAKE);
        for user in [&[0x0E][..], &[0xAF, 0x0C]] { m.files(&of_lines(["4", "2", "pack", "wired", n]), &[&P1_TAKE[..], user].concat()); } // for 1 and 2, for 3 and 4
    }
    for mode in ["", "pack", "lanes", "lane", "packs", "Pack", "PACK", "pack ", " pack", "packlanes", "none", "0", "pack\0"] {
        for tlast in ["", "wired", "none", "low", "high", "Wired", "wire", "wired ", "wirednone", "pack", "1", "none\0", "Low", "LOW", "lows",
            "lo", "ow", "low ", " low", "nonelow", "lownone", "low\0", "low\r", "0"] {
            m.files(&of_lines(["4", "2", mode, tlast, "0"]), &P1_TAKE);
        }
    }
}

/// Every pair of widths, in both modes, with some word and some number of user bits, perhaps too many.
fn widths(m: &mut Maker) {
    for (w, v) in (0..=18).flat_map(|w| (0..=18).map(move |v| (w, v))) {
        for mode in ["pack", "lanes"] {
            let (tlast, user) = (m.r.pick(&WORDS), m.r.pick(&USERS));
            let take = cycles(&mut m.r, w.clamp(1, 16), user, 6);
            let user = if m.r.one_in(6) { 5 + m.r.below(5) } else { user };
            m.files(&sheet(w, v, mode, tlast, user), &take);
        }
    }
}

/// Missing, a folder, a device, a link to itself, a file that opens and can't be read.
fn files(m: &mut Maker) {
    let odd = |own| [Missing, Entry::Folder, Link("/dev/null"), Link("/dev/zero"), Link("/proc/self/mem"), Link(own),
        File(vec![]), File(vec![0; MOST_OCTETS + 1])];
    let sheets = [sheet(4, 2, "pack", "wired", 0), sheet(4, 2, "lanes", "none", 0), sheet(4, 2, "pack", "low", 0), sheet(17, 2, "pack", "wired", 5),
        sheet(4, 0, "pack", "none", 0), sheet(4, 3, "lanes", "low", 4), sheet(4, 3, "lanes", "low", 5), sheet(4, 2, "pack", "wired", 1), b"width_in=4\n".to_vec()];
    let broken = [P1_TAKE.to_vec(), [&[0x06], &P1_TAKE[1..]].concat()].concat();
    let takes = [P1_TAKE.to_vec(), broken, [&[0x1F], &P1_TAKE[1..]].concat()].map(File);
    for setup in odd("setup.txt").into_iter().chain(sheets.map(File)) {
        for take in odd("take.bin").into_iter().chain(takes.clone()) {
            for out in [Missing, File(b"stale".to_vec()), Entry::Folder] {
                let part = match m.r.below(6) { 0 => File(b"left behind".to_vec()), 1 => Entry::Folder, _ => Missing };
                m.list.push(Folder { group: m.group, setup: setup.clone(), take: take.clone(), out, part });
            }
        }
    }
}

// ---- takes ----
/// User octets of a record: any bits, on null lanes too, and no padding.
fn user_octets(r: &mut Random, w: usize, user: usize) -> Vec<u8> {
    if user == 0 { return Vec::new(); }
    (r.next() & u64::MAX >> (64 - w * user)).to_le_bytes()[..record_octets(w, user) - 7 - w].to_vec()
}

/// A legal record: one of few pairs, lanes full, empty or mixed.
fn record(r: &mut Random, w: usize, user: usize, flags: u8) -> Vec<u8> {
    let lanes = ((1u32 << w) - 1) as u16;
    let keep = match r.below(4) { 0 => lanes, 1 => 0, _ => r.next() as u16 & lanes };
    let strb = if r.one_in(2) { keep } else { keep & r.next() as u16 };
    let mut octets = vec![flags, r.pick(&[0, 0, 0, 1, 255]), r.pick(&[0, 0, 0, 15])];
    octets.extend(keep.to_le_bytes().into_iter().chain(strb.to_le_bytes()));
    octets.extend((0..w).map(|_| r.next() as u8));
    octets.extend(user_octets(r, w, user));
    octets
}

/// n cycles that keep the handshake rules: transfers, waits, idle cycles, resets with a sample behind them that has TVALID low.
fn cycles(r: &mut Random, w: usize, user: usize, n: usize) -> Vec<u8> {
    let mut now = record(r, w, user, 8);
    let mut take = Vec::new();
    for _ in 0..n {
        let (waits, was_reset) = (now[0] & 14 == 10, now[0] & 8 == 0);
        if r.one_in(10) {
            let flags = r.pick(&[0, 1, 4, 5]);
            now = record(r, w, user, flags);
        } else if waits {
            now[0] ^= r.pick(&[0, 4]); // all as before, but TREADY is free
        } else {
            let flags = if was_reset { r.pick(&[8, 9, 12]) } else { r.pick(&[8, 9, 12, 10, 11, 14, 14, 15]) };
            now = record(r, w, user, flags);
        }
        take.extend(&now);
    }
    take
}

/// n handshaken cycles, every lane data; TLAST on each or on none.
fn full(r: &mut Random, w: usize, user: usize, n: usize, last: bool) -> Vec<u8> {
    let keep = (((1u32 << w) - 1) as u16).to_le_bytes();
    let head = [14 | u8::from(last), 1, 2, keep[0], keep[1], keep[0], keep[1]];
    (0..n).flat_map(|_| [head.to_vec(), (0..w).map(|_| r.next() as u8).collect(), user_octets(r, w, user)].concat()).collect()
}

/// Flip some bits: of the flags and fields mostly, of the last octet, where padding is, or anywhere.
fn damage(r: &mut Random, w: usize, user: usize, take: &mut [u8]) {
    let size = record_octets(w, user);
    for _ in 0..if take.is_empty() { 0 } else { 1 + r.below(3) } {
        let octet = if r.one_in(4) { r.below(size) } else { r.pick(&[0, 0, 0, 1, 2, 3, 4, 5, 6, size - 1]) };
        let at = r.below(take.len() / size) * size + octet;
        take[at] ^= 1 << r.below(8);
    }
}

/// Around the longest take of each width, and one octet more or less; four shapes fill 65,536 octets just as widths 1 and 9 do.
fn lengths(m: &mut Maker) {
    let more = [(8, 1), (7, 2), (6, 3), (6, 4), (1, 1), (1, 4), (9, 1), (16, 4)];
    for (w, user) in (1..=16).map(|w| (w, 0)).chain(more) {
        let size = record_octets(w, user);
        let most = MOST_OCTETS / size * size;
        for octets in [1, size - 1, size, size + 1, most - size, most - 1, most, most + 1, most + size, 65_535, 65_536, 65_537, 131_072] {
            let mut take = cycles(&mut m.r, w, user, octets / size);
            take.resize(octets, 0);
            let (v, tlast) = (1 + m.r.below(16), m.r.pick(&WORDS));
            m.files(&sheet(w, v, "pack", tlast, user), &take);
        }
    }
}

/// Each bit of the seven octets of some record, of three that are waited on or not.
fn field_bits(m: &mut Maker) {
    for (w, bit) in (1..=16).flat_map(|w| (0..56).map(move |bit| (w, bit))) {
        let user = m.r.pick(&USERS);
        change_bit(m, w, user, bit);
    }
}

/// The lowest and the highest user bit, and the lowest and the highest bit of the padding, at every shape.
fn user_bits(m: &mut Maker) {
    for (w, user) in (1..=16).flat_map(|w| (1..=4).map(move |user| (w, user))) {
        let (first, end) = (8 * (7 + w), 8 * record_octets(w, user));
        let padding = first + w * user;
        for bit in [first, padding - 1].into_iter().chain([padding, end - 1].into_iter().filter(|bit| *bit >= padding && *bit < end)) {
            change_bit(m, w, user, bit);
        }
    }
}

fn change_bit(m: &mut Maker, w: usize, user: usize, bit: usize) {
    let mut take = cycles(&mut m.r, w, user, 3);
    take[m.r.below(3) * record_octets(w, user) + bit / 8] ^= 1 << (bit % 8);
    let tlast = m.r.pick(&WORDS);
    m.files(&sheet(w, w, "pack", tlast, user), &take);
}

/// All flags of two neighbours, equal or not; each bit of a waiting cycle; each
/// lane reserved under each set of flags. Good cycles may stand before.
fn rules(m: &mut Maker) {
    for flags in 0..512u32 {
        let two = [flags as u8 & 15, 0, 0, 1, 0, 1, 0, 0x55, (flags >> 4) as u8 & 15, (flags >> 8) as u8, 0, 1, 0, 1, 0, 0x55];
        for tlast in ["wired", m.r.pick(&["none", "low"])] { m.files(&sheet(1, 2, "pack", tlast, 0), &two); }
    }
    for (w, user) in [(1, 0), (2, 0), (8, 0), (9, 0), (16, 0), (3, 3), (16, 4)] {
        for bit in 0..8 * record_octets(w, user) {
            let wait = record(&mut m.r, w, user, 10);
            let mut next = wait.clone();
            next[bit / 8] ^= 1 << (bit % 8);
            let (n, tlast) = (m.r.below(4), m.r.pick(&["wired", "wired", "none", "low"]));
            let before = full(&mut m.r, w, user, n, false);
            m.files(&sheet(w, 1, "lanes", tlast, user), &[before, wait, next].concat());
        }
    }
    for (w, flags) in [1, 2, 8, 9, 16].into_iter().flat_map(|w| (0..16).map(move |flags| (w, flags))) {
        for lane in 0..w {
            let user = m.r.pick(&USERS);
            let mut cycle = record(&mut m.r, w, user, flags);
            cycle[3 + lane / 8] &= !(1 << (lane % 8));
            cycle[5 + lane / 8] |= 1 << (lane % 8);
            let (n, tlast) = (m.r.below(4), m.r.pick(&WORDS));
            let before = full(&mut m.r, w, user, n, true);
            m.files(&sheet(w, 1, "pack", tlast, user), &[before, cycle].concat());
        }
    }
}

/// TLAST of two waiting cycles and the handshake behind them, each high or low: R3 where it moves and there is a wire, while
/// in a filled take it never moves. Good transfers may stand before, with another TLAST.
fn moving(m: &mut Maker) {
    for (w, levels) in [1, 2, 8, 9, 16].into_iter().flat_map(|w| (0..8u8).map(move |levels| (w, levels))) {
        let user = m.r.pick(&USERS);
        let mut cycle = record(&mut m.r, w, user, 0);
        let mut take = full(&mut m.r, w, user, usize::from(levels) % 3, levels % 2 == 0);
        for (at, flags) in [10, 10, 14].into_iter().enumerate() {
            cycle[0] = flags | (levels >> at & 1);
            take.extend(&cycle);
        }
        let (v, mode) = m.r.pick(&[(w, "pack"), (16, "pack"), (1, "lanes")]);
        for tlast in WORDS { m.files(&sheet(w, v, mode, tlast, user), &take); }
    }
}

/// Results of just 65,536 octets, or as near below as records of that width come, and of one more; for every pair of widths,
/// and sliced by lanes. Without a wire the take's own TLAST is the other level, so that only the filled take has this result.
fn rooms(m: &mut Maker) {
    for (w, v) in (1..=16).flat_map(|w| (1..=16).map(move |v| (w, v))) {
        let user = m.r.pick(&USERS);
        let most = MOST_OCTETS / record_octets(v, user);
        let across = v < w && m.r.one_in(2); // no end at all, or else each transfer a packet
        let (tlast, last) = m.r.pick(&if across { [("wired", false), ("low", true)] } else { [("wired", true), ("none", false)] });
        for more in [0, 1] {
            let take = if across { // full records, then the items that are left
                let items = most * v + more;
                let mut rest = full(&mut m.r, w, user, 1, last);
                let keep = (((1u32 << (items % w)) - 1) as u16).to_le_bytes();
                rest[3..7].copy_from_slice(&[keep[0], keep[1], keep[0], keep[1]]);
                [full(&mut m.r, w, user, items / w, last), rest].concat()
            } else {
                full(&mut m.r, w, user, most / w.div_ceil(v) + more, last)
            };
            m.files(&sheet(w, v, "pack", tlast, user), &take);
            if w % v == 0 {
                let (last, tlast) = (m.r.one_in(2), m.r.pick(&WORDS));
                let take = full(&mut m.r, w, user, most / (w / v) + more, last);
                m.files(&sheet(w, v, "lanes", tlast, user), &take);
            }
        }
    }
}

/// The most transfers whose records fit where each is a packet of its own, and one more, with each word; all data, and all
/// null. At width 16 a record has 23 octets, at 9 it has 16, and from 16 lanes to 3 a transfer has six records of 10 each.
/// With user bits a record of one lane has 9 octets: 7,281 fit, by threes, and by twos 7,282 do not. One of eight lanes with one
/// bit has 16, of sixteen with four 31.
fn rooms_of_words(m: &mut Maker) {
    for (w, v, user, most) in [(1, 16, 0, 2_849), (1, 9, 0, 4_096), (8, 9, 0, 4_096), (16, 3, 0, 1_092), (5, 2, 0, 2_427),
        (3, 1, 1, 2_427), (2, 1, 1, 3_640), (1, 8, 1, 4_096), (1, 7, 2, 4_096), (1, 6, 3, 4_096), (1, 16, 4, 2_114)] {
        for (n, null) in [(most, false), (most + 1, false), (most, true), (most + 1, true)] {
            for (tlast, last) in [("wired", false), ("wired", true), ("none", false), ("low", true)] {
                let mut take = full(&mut m.r, w, user, n, last);
                if null { for cycle in take.chunks_mut(record_octets(w, user)) { cycle[3..7].fill(0); } }
                m.files(&sheet(w, v, "pack", tlast, user), &take);
            }
        }
    }
}

/// Each fault is there or not, so that their order shows.
fn orders(m: &mut Maker) {
    for _ in 0..800 {
        let mut faulty = || m.r.one_in(3);
        let (bad_sheet, bad_width, bad_user, bad_ratio) = (faulty() && faulty(), faulty() && faulty(), faulty() && faulty(), faulty());
        let (bad_length, bad_field, broken, too_long) = (faulty(), faulty(), faulty(), faulty());
        let (w, user) = (m.r.pick(&[4, 8, 16]), m.r.pick(&USERS));
        let size = record_octets(w, user);
        let mut take = if too_long { full(&mut m.r, w, user, MOST_OCTETS / size - 20, true) } else { cycles(&mut m.r, w, user, 20) };
        let last = take.len() - size;
        if broken { take[m.r.pick(&[0, last])] = 2; }
        if bad_field { take[m.r.pick(&[2, last + 2])] = 16; }
        if bad_length { take.push(0); }
        let v = if bad_width { m.r.pick(&[0, 17, 99]) } else if bad_ratio { 3 } else { 1 };
        let mode = m.r.pick(&["pack", "lanes"]);
        let tlast = if bad_sheet { m.r.pick(&["high", "Low", "lo"]) } else { m.r.pick(&WORDS) };
        let user = if bad_user { 5 + m.r.below(5) } else { user };
        m.files(&sheet(w, v, mode, tlast, user), &take);
    }
}

fn random(m: &mut Maker) {
    for _ in 0..2_000 {
        let (w, user, n) = (1 + m.r.below(16), m.r.pick(&USERS), m.r.below(60));
        let v = if m.r.one_in(2) { 1 + m.r.below(16) } else { m.r.pick(&[w, 1, w.div_ceil(2), w / 2 + 1]) };
        let mut take = cycles(&mut m.r, w, user, n);
        let (mode, tlast) = (m.r.pick(&["pack", "pack", "lanes"]), m.r.pick(&WORDS));
        if tlast != "wired" { for cycle in take.chunks_mut(record_octets(w, user)) { cycle[0] ^= m.r.below(2) as u8; } } // any level, without a wire
        if m.r.one_in(3) { damage(&mut m.r, w, user, &mut take); }
        m.files(&sheet(w, v, mode, tlast, user), &take);
    }
}
