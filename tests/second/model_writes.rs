//! The second program's model of change request T-05, the write data channel.
//! Written from the request's text alone, over the burst model, without sight of the library.
use crate::model::{self, Beat, Burst, FIELD, Judged, LENGTH, MOST_OCTETS};

pub const W1: u32 = 1; // a strobe high outside the beat's lanes
pub const W2: u32 = 2; // WLAST before the last beat
pub const W3: u32 = 3; // the last beat without WLAST
pub const W4: u32 = 4; // a beat past the last
pub const W5: u32 = 5; // too few beats

/// Clean: the number of high strobes. Broken: its rule, and as place the beat, for W5 the count given.
/// Refused: its number, and for FIELD the record as place. All else is 0.
#[derive(Clone, Copy, PartialEq, Eq, Debug, Default)]
pub struct WriteAnswer { pub refusal: u32, pub rule: u32, pub place: u64, pub strobes: u64 }

pub fn refused(refusal: u32, place: usize) -> WriteAnswer { WriteAnswer { refusal, place: place as u64, ..WriteAnswer::default() } }

pub fn broken(rule: u32, place: usize) -> WriteAnswer { WriteAnswer { rule, place: place as u64, ..WriteAnswer::default() } }

pub fn clean(strobes: usize) -> WriteAnswer { WriteAnswer { strobes: strobes as u64, ..WriteAnswer::default() } }

// ---- One record: an octet with WLAST, then WSTRB with lane 0 in the lowest bit, the low octet first ----
pub fn record_octets(bus: u32) -> usize { 1 + (bus as usize).div_ceil(8) }

fn wlast(record: &[u8]) -> bool { record[0] & 1 != 0 }

fn strobe(record: &[u8], lane: u64) -> bool { record[1 + lane as usize / 8] >> (lane % 8) & 1 != 0 }

/// Every lane with a high strobe, also the ones at or above the bus for which the last octet has bits.
fn high_lanes(record: &[u8]) -> impl Iterator<Item = u64> {
    (0..8 * (record.len() as u64 - 1)).filter(|lane| strobe(record, *lane))
}

fn field_is_wrong(bus: u32, record: &[u8]) -> bool { record[0] & !1 != 0 || high_lanes(record).any(|lane| lane >= u64::from(bus)) }

/// The lowest rule that record k breaks, or none. `beats` are those of the burst.
fn broken_rule(beats: &[Beat], k: usize, record: &[u8]) -> Option<u32> {
    let Some(beat) = beats.get(k) else { return Some(W4) };
    let is_last = k + 1 == beats.len();
    if high_lanes(record).any(|lane| lane < beat.lower || lane > beat.upper) { return Some(W1); }
    if wlast(record) && !is_last { return Some(W2); }
    if is_last && !wlast(record) { return Some(W3); }
    None
}

/// The burst's own refusal, LENGTH, FIELD of any record, the first broken beat, too few beats; else clean.
pub fn judge_take(judged: &Judged, bus: u32, take: &[u8]) -> WriteAnswer {
    if judged.refusal != 0 { return refused(judged.refusal, 0); }
    if take.len() > MOST_OCTETS || take.len() % record_octets(bus) != 0 { return refused(LENGTH, 0); }
    let records: Vec<&[u8]> = take.chunks(record_octets(bus)).collect();
    for (k, record) in records.iter().enumerate() {
        if field_is_wrong(bus, record) { return refused(FIELD, k); }
    }
    for (k, record) in records.iter().enumerate() {
        if let Some(rule) = broken_rule(&judged.beats, k, record) { return broken(rule, k); }
    }
    if records.len() < judged.beats.len() { return broken(W5, records.len()); }
    clean(records.iter().map(|record| high_lanes(record).count()).sum())
}

pub fn judge(b: Burst, take: &[u8]) -> WriteAnswer { judge_take(&model::judge_burst(b), b.bus, take) }
