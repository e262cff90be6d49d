//! The second program's model of change request T-08, two cameras on one link: a queue of records for each port, and a turn.
//! Written from the request's text and paper 01's record alone, over the stream model, without sight of the library.
use crate::model::{self, FIELD, LENGTH, RESERVED, ROOM, TAGS};
use std::collections::VecDeque;

pub const ADDED: u8 = 128; // to port 1's TIDs, all of which are below it

/// Accepted: the number of records, and all else 0. Refused: its number, the port it names, the record for 3, 4 and 17; all else 0.
#[derive(Clone, Copy, PartialEq, Eq, Debug, Default)]
pub struct MergeAnswer { pub refusal: u32, pub port: u32, pub place: u64, pub count: u64 }

pub fn refused(refusal: u32, port: usize, place: usize) -> MergeAnswer {
    MergeAnswer { refusal, port: port as u32, place: place as u64, count: 0 }
}

pub fn counted(count: usize) -> MergeAnswer { MergeAnswer { count: count as u64, ..MergeAnswer::default() } }

/// 3, 4 and then 17 of one record, whether it carries an item or not.
fn record_refusal(w: usize, m: usize, record: &[u8]) -> Option<u32> {
    if model::field_is_wrong(w, m, record, 0x01) { return Some(FIELD); }
    if model::has_reserved_lane(record, w) { return Some(RESERVED); }
    if record[1] >= ADDED { return Some(TAGS); }
    None
}

/// 1 and 16 name port 0; 2 of port 0's list, of port 1's; then port 0's records, and port 1's.
fn check(w: usize, m: usize, lists: [&[u8]; 2]) -> Result<(), MergeAnswer> {
    model::check_widths(&[w], m).map_err(|answer| refused(answer.refusal, 0, 0))?;
    for (port, list) in lists.into_iter().enumerate() {
        model::check_length(w, m, list).map_err(|_| refused(LENGTH, port, 0))?;
    }
    for (port, list) in lists.into_iter().enumerate() {
        for (k, record) in model::records(w, m, list).into_iter().enumerate() {
            if let Some(refusal) = record_refusal(w, m, record) { return Err(refused(refusal, port, k)); }
        }
    }
    Ok(())
}

/// Port 0 begins. A turn passes records on until one with TLAST went, or the queue is empty; where it was empty before, the
/// turn passes nothing on and goes over at once.
fn take_turns(mut queues: [VecDeque<&[u8]>; 2]) -> Vec<u8> {
    let (mut out, mut port) = (Vec::new(), 0);
    while queues.iter().any(|queue| !queue.is_empty()) {
        while let Some(record) = queues[port].pop_front() {
            let at = out.len();
            out.extend_from_slice(record);
            if port == 1 { out[at + 1] += ADDED; }
            if model::tlast(record) { break; }
        }
        port = 1 - port;
    }
    out
}

/// Merging, before the room is looked at: all octets it would write.
pub fn merge_plan(w: usize, m: usize, lists: [&[u8]; 2]) -> Result<Vec<u8>, MergeAnswer> {
    check(w, m, lists)?;
    Ok(take_turns(lists.map(|list| model::records(w, m, list).into())))
}

/// ROOM comes last; an accepted call leaves the room after its records alone.
pub fn merge(w: usize, m: usize, lists: [&[u8]; 2], out: &mut [u8]) -> MergeAnswer {
    match merge_plan(w, m, lists) {
        Err(answer) => answer,
        Ok(octets) if octets.len() > out.len() => refused(ROOM, 0, 0),
        Ok(octets) => {
            out[..octets.len()].copy_from_slice(&octets);
            counted(octets.len() / model::record_octets(w, m))
        }
    }
}
