//! Bursts with takes of write beats (T-05), right ones and others, for the comparison.
use crate::model::{Burst, FIXED, INCR, Judged, WRAP, judge_burst};
use crate::model_writes::record_octets;
use crate::tally::Random;

const BLOCK: u32 = 4096;
pub const WLAST: usize = 0; // the bit of a record; the strobe of lane x is bit 8 + x

/// A burst, and the model's judging of it.
pub struct Asked { pub b: Burst, pub judged: Judged }

impl Asked {
    pub fn of(b: Burst) -> Asked { Asked { b, judged: judge_burst(b) } }
    pub fn beats(&self) -> usize { self.judged.beats.len() }
    pub fn record(&self) -> usize { record_octets(self.b.bus) }
    /// Of beat k: its first lane, the one after its last, and the one after the last of the bus.
    pub fn lanes(&self, k: usize) -> (usize, usize, usize) {
        let beat = self.judged.beats[k];
        (beat.lower as usize, beat.upper as usize + 1, self.b.bus as usize)
    }
}

pub fn flip(a: &Asked, take: &mut [u8], k: usize, bit: usize) { take[k * a.record() + bit / 8] ^= 1 << (bit % 8); }

/// The same take with these bits of these records flipped.
pub fn flipped(a: &Asked, take: &[u8], bits: &[(usize, usize)]) -> Vec<u8> {
    let mut take = take.to_vec();
    for &(k, bit) in bits { flip(a, &mut take, k, bit); }
    take
}

/// All, none, or some: which of its lanes a beat has high.
fn fill(r: &mut Random) -> u128 {
    match r.below(5) { 0 | 1 => u128::MAX, 2 => 0, _ => u128::from(r.next()) << 64 | u128::from(r.next()) }
}

/// Any record that is not FIELD.
pub fn any_record(r: &mut Random, a: &Asked) -> Vec<u8> {
    let strobes = fill(r) & u128::MAX >> (128 - a.b.bus);
    let mut octets = vec![r.below(2) as u8];
    octets.extend(&strobes.to_le_bytes()[..a.record() - 1]);
    octets
}

pub fn any_records(r: &mut Random, a: &Asked, n: usize) -> Vec<u8> { (0..n).flat_map(|_| any_record(r, a)).collect() }

/// A take that breaks no rule, with the lanes of an accepted burst as `lanes` has them.
pub fn right_take(r: &mut Random, a: &Asked, lanes: impl Fn(usize) -> (usize, usize)) -> Vec<u8> {
    let mut take = vec![0; a.beats() * a.record()];
    for k in 0..a.beats() {
        let ((from, to), strobes) = (lanes(k), fill(r));
        for lane in (from..to).filter(|lane| strobes >> lane & 1 != 0) { flip(a, &mut take, k, 8 + lane); }
    }
    flip(a, &mut take, a.beats() - 1, WLAST);
    take
}

pub fn right(r: &mut Random, a: &Asked) -> Vec<u8> { right_take(r, a, |k| (a.lanes(k).0, a.lanes(k).1)) }

/// A lane of the bus outside the beat's lanes, where there is one: often next to them.
pub fn stray_lane(r: &mut Random, a: &Asked, k: usize) -> Option<usize> {
    let (from, to, bus) = a.lanes(k);
    let mut lanes: Vec<usize> = (0..from).chain(to..bus).collect();
    if r.one_in(2) { lanes.retain(|lane| lane + 1 == from || *lane == to); }
    if lanes.is_empty() { None } else { Some(r.pick(&lanes)) }
}

/// The first and last two beats and one between; of few beats each.
pub fn some_beats(r: &mut Random, n: usize) -> Vec<usize> {
    if n <= 4 { return (0..n).collect(); }
    vec![0, 1, 2 + r.below(n - 4), n - 2, n - 1]
}

/// Every N of a kind that fits into a block.
pub fn counts(kind: u32, size: u32) -> Vec<u32> {
    match kind { FIXED => (1..=16).collect(), INCR => (1..=(BLOCK >> size).min(256)).collect(), _ => vec![2, 4, 8, 16] }
}

/// An accepted burst of N beats: half of them unaligned where it may be, and one in four ends with its block.
pub fn fitting(r: &mut Random, kind: u32, size: u32, bus: u32, beats: u32) -> Burst {
    let bytes = 1u32 << size;
    let places = if kind == INCR { 1 + (BLOCK >> size) - beats } else { BLOCK >> size };
    let place = if r.one_in(4) { places - 1 } else { r.below(places as usize) as u32 };
    let into = if kind == WRAP || r.one_in(2) { 0 } else { r.below(bytes as usize) as u32 };
    let block = r.pick(&[0, 0x1000, 0x7FFF_F000, 0x8000_0000, 0xFFFF_F000]);
    Burst { start: block + place * bytes + into, len: beats - 1, size, kind, bus }
}

/// Each bit that must be zero: seven of octet 0, and the strobe bits that a narrow bus has not.
pub fn zero_bits(bus: u32) -> Vec<usize> { (1..8).chain(8 + bus as usize..8 + 8 * (bus as usize).div_ceil(8)).collect() }

/// Any kind; few beats more often than many.
pub fn random_burst(r: &mut Random) -> Burst {
    let (size, kind) = (r.below(8) as u32, r.below(3) as u32);
    let counts = counts(kind, size);
    let beats = if r.one_in(4) { r.pick(&counts) } else { r.pick(&counts[..counts.len().min(6)]) };
    let bus = 1 << (size as usize + r.below(8 - size as usize));
    fitting(r, kind, size, bus, beats)
}

/// One change of a take, often at the first or last beat or beside it; or none.
fn change(r: &mut Random, a: &Asked, take: &mut Vec<u8>) {
    let (n, given) = (a.beats(), take.len() / a.record());
    let any = r.below(given.max(1));
    let k = if r.one_in(2) { any } else { r.pick(&[0, n - 1, n, given.saturating_sub(1)]) };
    match r.below(7) {
        0 if k < given => flip(a, take, k, WLAST),
        1 if k < given => flip(a, take, k, r.below(8 * a.record())),
        2 if k < given.min(n) => if let Some(lane) = stray_lane(r, a, k) { flip(a, take, k, 8 + lane) },
        3 if k < given && r.one_in(3) => flip(a, take, k, r.pick(&zero_bits(a.b.bus))),
        4 => take.truncate(k * a.record()),
        5 => { let more = 1 + r.below(3); take.extend(any_records(r, a, more)) }
        6 if r.one_in(4) => { take.pop(); }
        _ => {}
    }
}

/// A take for any burst: some octets where that is refused, else a right take with up to three changes.
pub fn random_take(r: &mut Random, a: &Asked) -> Vec<u8> {
    if a.beats() == 0 { return (0..r.below(70)).map(|_| r.next() as u8 & r.pick(&[1, 255])).collect(); }
    let mut take = right(r, a);
    for _ in 0..r.below(4) { change(r, a, &mut take); }
    take
}
