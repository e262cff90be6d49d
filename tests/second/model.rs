//! The second program's model: what paper 01 says, done slowly and plainly.
//! Written from paper 01, source document 004 (bursts) and 000 (streams) and the
//! texts of the change requests alone, without sight of the library. Section names
//! are paper 01's. Where a width w is given, m is T-06's number of user bits to a byte.

// ---- "Refusal numbers" ----
pub const WIDTH: u32 = 1;
pub const LENGTH: u32 = 2;
pub const FIELD: u32 = 3;
pub const RESERVED: u32 = 4;
pub const ROOM: u32 = 5;
pub const RATIO: u32 = 6;
pub const BUS: u32 = 7;
pub const SIZE: u32 = 8;
pub const TYPE: u32 = 9;
pub const COUNT: u32 = 10;
pub const ALIGN: u32 = 11;
pub const FENCE: u32 = 12;
pub const INDEX: u32 = 13;
pub const UNCLEAN: u32 = 14;
pub const USERBITS: u32 = 16;
pub const TAGS: u32 = 17;

// ======================= Part 1: bursts ("Bursts") =======================

pub const FIXED: u32 = 0;
pub const INCR: u32 = 1;
pub const WRAP: u32 = 2;

#[derive(Clone, Copy, PartialEq, Eq, Debug)]
pub struct Burst { pub start: u32, pub len: u32, pub size: u32, pub kind: u32, pub bus: u32 }

#[derive(Clone, Copy, PartialEq, Eq, Debug, Default)]
pub struct BurstAnswer { pub refusal: u32, pub lower: u32, pub upper: u32, pub step: i32, pub address: u64 }

#[derive(Clone, Copy, PartialEq, Eq, Debug)]
pub struct Beat { pub address: u64, pub lower: u64, pub upper: u64 }

/// A burst judged: refusal 0 and all its beats, or the refusal and no beat.
pub struct Judged { pub refusal: u32, pub beats: Vec<Beat> }

/// The pseudo code of A3.4.2, line by line; only run once 7 to 11 have passed.
/// Its indentation is lost in the translation and is read so: both wrap
/// boundaries belong to `if mode == WRAP`; everything from Lower_Byte_Lane on
/// is inside the `for`; the `else` before `Aligned_Address + Number_Bytes` goes
/// with `if aligned`, not with a WRAP test, and `aligned = TRUE` belongs to it.
/// Aligned_Address is computed once. u64, so that 2^32 itself is a number.
pub fn data_transfer(b: Burst) -> Vec<Beat> {
    let number_bytes = 1u64 << b.size;
    let burst_length = u64::from(b.len) + 1;
    let data_bus_bytes = u64::from(b.bus);
    let mut addr = u64::from(b.start);
    let aligned_address = (addr / number_bytes) * number_bytes;
    let mut aligned = aligned_address == addr;
    let dtsize = number_bytes * burst_length;
    let mut lower_wrap_boundary = 0;
    let mut upper_wrap_boundary = 0;
    if b.kind == WRAP {
        lower_wrap_boundary = (addr / dtsize) * dtsize;
        upper_wrap_boundary = lower_wrap_boundary + dtsize;
    }
    let mut beats = Vec::new();
    for _n in 1..=burst_length {
        let lower_byte_lane = addr - (addr / data_bus_bytes) * data_bus_bytes;
        let upper_byte_lane = if aligned {
            lower_byte_lane + number_bytes - 1
        } else {
            aligned_address + number_bytes - 1 - (addr / data_bus_bytes) * data_bus_bytes
        };
        beats.push(Beat { address: addr, lower: lower_byte_lane, upper: upper_byte_lane });
        if b.kind != FIXED {
            if aligned {
                addr += number_bytes;
                if b.kind == WRAP && addr >= upper_wrap_boundary {
                    addr = lower_wrap_boundary;
                }
            } else {
                addr = aligned_address + number_bytes;
                aligned = true;
            }
        }
    }
    beats
}

fn bus_is_wrong(b: Burst) -> bool { ![1, 2, 4, 8, 16, 32, 64, 128].contains(&b.bus) }

fn size_is_wrong(b: Burst) -> bool { b.size > 7 || (1u64 << b.size) > u64::from(b.bus) }

fn kind_is_wrong(b: Burst) -> bool { b.kind >= 3 }

fn count_is_wrong(b: Burst) -> bool {
    let n = u64::from(b.len) + 1;
    let allowed = match b.kind {
        FIXED => n >= 1 && n <= 16,
        INCR => n >= 1 && n <= 256,
        _ => n == 2 || n == 4 || n == 8 || n == 16,
    };
    b.len > 255 || !allowed
}

fn alignment_is_wrong(b: Burst) -> bool { b.kind == WRAP && u64::from(b.start) % (1u64 << b.size) != 0 }

/// The 4KB rule: every byte of every beat, from its address to its highest lane.
fn fence_is_crossed(b: Burst, beats: &[Beat]) -> bool {
    let block = u64::from(b.start) / 4096;
    beats.iter().any(|beat| {
        let highest = beat.address + (beat.upper - beat.lower);
        (beat.address..=highest).any(|byte| byte / 4096 != block)
    })
}

/// Refusals 7 to 12, in order.
pub fn judge_burst(b: Burst) -> Judged {
    let refused = |refusal| Judged { refusal, beats: Vec::new() };
    if bus_is_wrong(b) { return refused(BUS); }
    if size_is_wrong(b) { return refused(SIZE); }
    if kind_is_wrong(b) { return refused(TYPE); }
    if count_is_wrong(b) { return refused(COUNT); }
    if alignment_is_wrong(b) { return refused(ALIGN); }
    let beats = data_transfer(b);
    if fence_is_crossed(b, &beats) { return refused(FENCE); }
    Judged { refusal: 0, beats }
}

fn burst_refused(refusal: u32) -> BurstAnswer { BurstAnswer { refusal, ..BurstAnswer::default() } }

pub fn burst_answer(j: &Judged) -> BurstAnswer { burst_refused(j.refusal) }

/// Beat k: its address and lanes; 13 where there is no such beat.
pub fn beat(j: &Judged, k: u32) -> BurstAnswer {
    if j.refusal != 0 { return burst_refused(j.refusal); }
    match j.beats.get(k as usize) {
        None => burst_refused(INDEX),
        Some(b) => BurstAnswer { address: b.address, lower: b.lower as u32, upper: b.upper as u32, ..BurstAnswer::default() },
    }
}

/// The step from beat k to beat k + 1; 13 where there is no next beat.
pub fn step(j: &Judged, k: u32) -> BurstAnswer {
    if j.refusal != 0 { return burst_refused(j.refusal); }
    match (j.beats.get(k as usize), j.beats.get(k as usize + 1)) {
        (Some(a), Some(b)) => BurstAnswer { step: (b.address as i64 - a.address as i64) as i32, ..BurstAnswer::default() },
        _ => burst_refused(INDEX),
    }
}

// ======================= Part 2: streams =======================

/// Clean: count of transfers. Broken: place is the cycle, rule 1 to 4.
/// Accepted writing call: count of records. Refused: its number and place.
#[derive(Clone, Copy, PartialEq, Eq, Debug, Default)]
pub struct StreamAnswer { pub refusal: u32, pub rule: u32, pub place: u64, pub count: u64 }

pub const MOST_OCTETS: usize = 65_536;

fn refused(refusal: u32) -> StreamAnswer { StreamAnswer { refusal, ..StreamAnswer::default() } }

fn refused_at(refusal: u32, place: usize) -> StreamAnswer { StreamAnswer { refusal, place: place as u64, ..StreamAnswer::default() } }

fn counted(count: usize) -> StreamAnswer { StreamAnswer { count: count as u64, ..StreamAnswer::default() } }

// ---- "One record of a take", with T-06's octets at its end ----
fn user_octets(w: usize, m: usize) -> usize { (w * m).div_ceil(8) }
pub fn record_octets(w: usize, m: usize) -> usize { 7 + w + user_octets(w, m) }
pub fn tlast(r: &[u8]) -> bool { r[0] & 1 != 0 }
fn tvalid(r: &[u8]) -> bool { r[0] & 2 != 0 }
fn tready(r: &[u8]) -> bool { r[0] & 4 != 0 }
fn aresetn(r: &[u8]) -> bool { r[0] & 8 != 0 }
fn tkeep(r: &[u8], lane: usize) -> bool { r[3 + lane / 8] >> (lane % 8) & 1 != 0 }
fn tstrb(r: &[u8], lane: usize) -> bool { r[5 + lane / 8] >> (lane % 8) & 1 != 0 }
fn is_reserved(r: &[u8], lane: usize) -> bool { !tkeep(r, lane) && tstrb(r, lane) }
pub fn has_reserved_lane(r: &[u8], w: usize) -> bool { (0..w).any(|lane| is_reserved(r, lane)) }

/// One bit of the user octets, low octet first. Those from w * m on are padding.
fn user_bit(r: &[u8], w: usize, bit: usize) -> bool { r[7 + w + bit / 8] >> (bit % 8) & 1 != 0 }
fn padding_is_set(r: &[u8], w: usize, m: usize) -> bool { (w * m..8 * user_octets(w, m)).any(|bit| user_bit(r, w, bit)) }

/// The m bits of a lane stand from bit lane * m on; read, and set in a record that has none set there.
fn user_bits(r: &[u8], w: usize, m: usize, lane: usize) -> u8 {
    (0..m).filter(|i| user_bit(r, w, lane * m + i)).map(|i| 1 << i).sum()
}
fn set_user_bits(r: &mut [u8], w: usize, m: usize, lane: usize, bits: u8) {
    for (i, bit) in (0..m).map(|i| (i, lane * m + i)) { r[7 + w + bit / 8] |= (bits >> i & 1) << (bit % 8); }
}

/// WIDTH of every width that the call gives, and straight after it USERBITS.
pub fn check_widths(widths: &[usize], m: usize) -> Result<(), StreamAnswer> {
    if widths.iter().any(|w| *w == 0 || *w > 16) { return Err(refused(WIDTH)); }
    if m > 4 { return Err(refused(USERBITS)); }
    Ok(())
}

pub fn check_length(w: usize, m: usize, input: &[u8]) -> Result<(), StreamAnswer> {
    if input.len() > MOST_OCTETS || input.len() % record_octets(w, m) != 0 { return Err(refused(LENGTH)); }
    Ok(())
}

pub fn records(w: usize, m: usize, input: &[u8]) -> Vec<&[u8]> { input.chunks(record_octets(w, m)).collect() }

/// FIELD: `flags` are the bits of octet 0 that this sort of record may set.
pub fn field_is_wrong(w: usize, m: usize, r: &[u8], flags: u8) -> bool {
    let lanes = (w..16).any(|lane| tkeep(r, lane) || tstrb(r, lane));
    r[0] & !flags != 0 || r[2] > 15 || lanes || padding_is_set(r, w, m)
}

/// Cycle records use all four flags. Judging and harvesting never give 4.
fn check_cycles(w: usize, m: usize, take: &[u8]) -> Result<(), StreamAnswer> {
    check_widths(&[w], m)?;
    check_length(w, m, take)?;
    for (k, r) in records(w, m, take).into_iter().enumerate() {
        if field_is_wrong(w, m, r, 0x0F) { return Err(refused_at(FIELD, k)); }
    }
    Ok(())
}

/// Transfer records: octet 0 is 0 or 1. In each record 3 comes before 4.
fn check_transfers(w: usize, m: usize, input: &[u8]) -> Result<(), StreamAnswer> {
    check_length(w, m, input)?;
    for (k, r) in records(w, m, input).into_iter().enumerate() {
        if field_is_wrong(w, m, r, 0x01) { return Err(refused_at(FIELD, k)); }
        if has_reserved_lane(r, w) { return Err(refused_at(RESERVED, k)); }
    }
    Ok(())
}

// ---- "Handshake findings" ----
fn waits(r: &[u8]) -> bool { aresetn(r) && tvalid(r) && !tready(r) }

fn transfers(r: &[u8]) -> bool { aresetn(r) && tvalid(r) && tready(r) }

/// The lowest rule that cycle `now` breaks, 0 for none. R1 is T-01's: also in the record after one with ARESETn low.
/// R3 reads every octet from 1 on, the user octets too.
fn broken_rule(w: usize, before: Option<&[u8]>, now: &[u8]) -> u32 {
    let after_reset = before.is_some_and(|before| !aresetn(before));
    if tvalid(now) && (!aresetn(now) || after_reset) { return 1; }
    if let Some(before) = before {
        if waits(before) && aresetn(now) && !tvalid(now) { return 2; }
        let differs = before[1..] != now[1..] || tlast(before) != tlast(now);
        if waits(before) && aresetn(now) && tvalid(now) && differs { return 3; }
    }
    if aresetn(now) && tvalid(now) && has_reserved_lane(now, w) { return 4; }
    0
}

/// The earliest breaking cycle and its rule.
fn first_break(w: usize, m: usize, take: &[u8]) -> Option<(usize, u32)> {
    let cycles = records(w, m, take);
    for k in 0..cycles.len() {
        let before = if k == 0 { None } else { Some(cycles[k - 1]) };
        let rule = broken_rule(w, before, cycles[k]);
        if rule != 0 { return Some((k, rule)); }
    }
    None
}

pub fn judge(w: usize, m: usize, take: &[u8]) -> StreamAnswer {
    if let Err(refusal) = check_cycles(w, m, take) { return refusal; }
    match first_break(w, m, take) {
        Some((cycle, rule)) => StreamAnswer { rule, place: cycle as u64, ..StreamAnswer::default() },
        None => counted(records(w, m, take).into_iter().filter(|r| transfers(r)).count()),
    }
}

/// Harvesting, before the room is looked at: all octets it would write.
pub fn harvest_plan(w: usize, m: usize, take: &[u8]) -> Result<Vec<u8>, StreamAnswer> {
    check_cycles(w, m, take)?;
    if let Some((cycle, rule)) = first_break(w, m, take) {
        return Err(StreamAnswer { refusal: UNCLEAN, rule, place: cycle as u64, count: 0 });
    }
    let mut out = Vec::new();
    for r in records(w, m, take).into_iter().filter(|r| transfers(r)) {
        out.push(r[0] & 1);
        out.extend_from_slice(&r[1..]);
    }
    Ok(out)
}

/// ROOM comes last; an accepted call leaves the room after its records alone.
fn write(plan: Result<Vec<u8>, StreamAnswer>, width_out: usize, m: usize, out: &mut [u8]) -> StreamAnswer {
    match plan {
        Err(refusal) => refusal,
        Ok(octets) if octets.len() > out.len() => refused(ROOM),
        Ok(octets) => {
            out[..octets.len()].copy_from_slice(&octets);
            counted(octets.len() / record_octets(width_out, m))
        }
    }
}

pub fn harvest(w: usize, m: usize, take: &[u8], out: &mut [u8]) -> StreamAnswer { write(harvest_plan(w, m, take), w, m, out) }

/// Fill-in with the level of T-03: TLAST of every record becomes high or low, and nothing else changes.
pub fn fill_in(w: usize, m: usize, take: &mut [u8], high: bool) -> StreamAnswer {
    if let Err(refusal) = check_widths(&[w], m).and_then(|()| check_length(w, m, take)) { return refusal; }
    for r in take.chunks_mut(record_octets(w, m)) {
        r[0] = (r[0] & 0xFE) | u8::from(high);
    }
    counted(take.len() / record_octets(w, m))
}

/// The data octets of record k, its w lanes and no user octets: [offset into the take, length].
pub fn data_octets(w: usize, m: usize, take: &[u8], k: usize) -> (StreamAnswer, [u64; 2]) {
    if let Err(refusal) = check_widths(&[w], m).and_then(|()| check_length(w, m, take)) { return (refusal, [0, 0]); }
    if k >= records(w, m, take).len() { return (refused(INDEX), [0, 0]); }
    (StreamAnswer::default(), [(k * record_octets(w, m) + 7) as u64, w as u64])
}

// ---- "What a stream carries" ----
/// A data item has its octet and its user bits, a position item its user bits.
#[derive(Clone, Copy, PartialEq, Eq, Hash, Debug)]
pub enum What { Data(u8, u8), Position(u8), End }

#[derive(Clone, Copy, PartialEq, Eq, Hash, Debug)]
pub struct Item { pub what: What, pub pair: (u8, u8) }

/// What a lane carries, with its user bits; a null one carries nothing, and its bits go (reserved ones were refused before).
fn carried(r: &[u8], w: usize, m: usize, lane: usize) -> Option<What> {
    let user = user_bits(r, w, m, lane);
    match (tkeep(r, lane), tstrb(r, lane)) {
        (true, true) => Some(What::Data(r[7 + lane], user)),
        (true, false) => Some(What::Position(user)),
        _ => None,
    }
}

/// All items of a legal stream of any length, lanes upwards, records onwards.
pub fn items(w: usize, m: usize, stream: &[u8]) -> Vec<Item> {
    let mut list = Vec::new();
    for r in records(w, m, stream) {
        let pair = (r[1], r[2]);
        list.extend((0..w).filter_map(|lane| carried(r, w, m, lane)).map(|what| Item { what, pair }));
        if tlast(r) { list.push(Item { what: What::End, pair }); }
    }
    list
}

/// Cut after each end and wherever the pair changes.
fn stretches(list: &[Item]) -> Vec<Vec<Item>> {
    let mut cut: Vec<Vec<Item>> = Vec::new();
    for (i, &item) in list.iter().enumerate() {
        if i == 0 || list[i - 1].what == What::End || list[i - 1].pair != item.pair {
            cut.push(Vec::new());
        }
        if let Some(stretch) = cut.last_mut() { stretch.push(item); }
    }
    cut
}

/// A lane of a record that is all null so far becomes this item's; a null lane keeps its zero bits.
fn put_lane(r: &mut [u8], v: usize, m: usize, lane: usize, what: What) {
    let user = match what { What::Data(_, user) | What::Position(user) => user, What::End => return };
    r[3 + lane / 8] |= 1 << (lane % 8);
    set_user_bits(r, v, m, lane, user);
    if let What::Data(octet, _) = what {
        r[5 + lane / 8] |= 1 << (lane % 8);
        r[7 + lane] = octet;
    }
}

/// One record of width v from at most v data and position items.
fn record_of(v: usize, m: usize, pair: (u8, u8), lanes: &[Item], last: bool) -> Vec<u8> {
    let mut r = vec![0u8; record_octets(v, m)];
    r[0] = u8::from(last);
    r[1] = pair.0;
    r[2] = pair.1;
    for (lane, item) in lanes.iter().enumerate() { put_lane(&mut r, v, m, lane, item.what); }
    r
}

/// "Packed form at width v" of a list of items.
pub fn packed(v: usize, m: usize, list: &[Item]) -> Vec<u8> {
    let mut out = Vec::new();
    for stretch in stretches(list) {
        let pair = stretch[0].pair;
        let ends = stretch.iter().any(|i| i.what == What::End);
        let bytes: Vec<Item> = stretch.into_iter().filter(|i| i.what != What::End).collect();
        if bytes.is_empty() { out.extend(record_of(v, m, pair, &[], true)); }
        let full: Vec<&[Item]> = bytes.chunks(v).collect();
        for (i, lanes) in full.iter().enumerate() {
            out.extend(record_of(v, m, pair, lanes, ends && i + 1 == full.len()));
        }
    }
    out
}

pub fn repack_plan(w: usize, m: usize, v: usize, input: &[u8]) -> Result<Vec<u8>, StreamAnswer> {
    check_widths(&[w, v], m)?;
    check_transfers(w, m, input)?;
    Ok(packed(v, m, &items(w, m, input)))
}

pub fn repack(w: usize, m: usize, v: usize, input: &[u8], out: &mut [u8]) -> StreamAnswer { write(repack_plan(w, m, v, input), v, m, out) }

/// "Lane-keeping downsizing": w/v slices of each record.
pub fn downsize_plan(w: usize, m: usize, v: usize, input: &[u8]) -> Result<Vec<u8>, StreamAnswer> {
    check_widths(&[w, v], m)?;
    if w % v != 0 { return Err(refused(RATIO)); }
    check_transfers(w, m, input)?;
    Ok(slices(w, m, v, input))
}

/// Slice k of a record: its lanes from k * v on, nulls staying as nulls; TLAST on the last slice only.
fn slice(w: usize, m: usize, v: usize, r: &[u8], k: usize) -> Vec<u8> {
    let mut s = vec![0u8; record_octets(v, m)];
    s[0] = u8::from(tlast(r) && k == w / v - 1);
    s[1] = r[1];
    s[2] = r[2];
    for lane in 0..v {
        if let Some(what) = carried(r, w, m, k * v + lane) { put_lane(&mut s, v, m, lane, what); }
    }
    s
}

/// The w/v slices of each record of a legal stream of any length; v divides w.
pub fn slices(w: usize, m: usize, v: usize, stream: &[u8]) -> Vec<u8> {
    records(w, m, stream).into_iter().flat_map(|r| (0..w / v).flat_map(move |k| slice(w, m, v, r, k))).collect()
}

pub fn downsize(w: usize, m: usize, v: usize, input: &[u8], out: &mut [u8]) -> StreamAnswer { write(downsize_plan(w, m, v, input), v, m, out) }
