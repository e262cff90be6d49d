//! The second program's model of change request T-02, long bursts for AXI3 boards.
//! Written from the request's text alone, over the burst model, without sight of the library.
use crate::model::{self, Beat, Burst, INCR, ROOM};

pub const MOST_BEATS: u32 = 16; // of a burst on an AXI3 board
pub const NUMBERS: usize = 5; // of a description in the row: start, AxLEN, AxSIZE, kind, bus

/// Accepted: the number of bursts at the front of the row. Refused: its number, and count 0.
#[derive(Clone, Copy, PartialEq, Eq, Debug, Default)]
pub struct CutAnswer { pub refusal: u32, pub count: u64 }

/// The whole list of an accepted burst, or one of refusals 7 to 12.
pub type Plan = Result<Vec<Burst>, u32>;

/// Beat by beat, as the pseudo code of A3.4.2 gives them: a beat goes to the burst that is being made,
/// but the very first one, and in an INCR each one after sixteen, begins a new burst at its own address.
fn list_of(b: Burst, beats: &[Beat]) -> Vec<Burst> {
    let mut list: Vec<Burst> = Vec::new();
    for beat in beats {
        match list.last_mut() {
            Some(last) if b.kind != INCR || last.len + 1 < MOST_BEATS => last.len += 1,
            _ => list.push(Burst { start: beat.address as u32, len: 0, ..b }), // accepted, so below 2^32
        }
    }
    list
}

/// Cutting, before the room is looked at.
pub fn cut_plan(b: Burst) -> Plan {
    let judged = model::judge_burst(b);
    if judged.refusal != 0 { return Err(judged.refusal); }
    Ok(list_of(b, &judged.beats))
}

pub fn numbers(b: Burst) -> [u64; NUMBERS] { [b.start, b.len, b.size, b.kind, b.bus].map(u64::from) }

/// ROOM comes last; an accepted call leaves the row after its descriptions alone.
pub fn write(plan: &Plan, row: &mut [u64]) -> CutAnswer {
    match plan {
        Err(refusal) => CutAnswer { refusal: *refusal, count: 0 },
        Ok(list) if list.len() > row.len() / NUMBERS => CutAnswer { refusal: ROOM, count: 0 },
        Ok(list) => {
            for (description, b) in row.chunks_mut(NUMBERS).zip(list) { description.copy_from_slice(&numbers(*b)); }
            CutAnswer { refusal: 0, count: list.len() as u64 }
        }
    }
}

pub fn cut(b: Burst, row: &mut [u64]) -> CutAnswer { write(&cut_plan(b), row) }
