//! Judge and harvest, over cycle records: the plain safe-Rust yardstick, the check that it and the library answer and
//! write alike, and the times. The yardstick reads a header as one number, keeps the cycle before, and is compiled for
//! each width by itself.
use crate::yardstick::{HEAD, eight, keep_of, refuse_if, strb_of, unused_lanes};
use crate::{ROUNDS, StreamAnswer, below, put_record};
use std::{hint::black_box, time::Instant};

unsafe extern "C" {
    fn urd_judge(width: usize, user: usize, take: *const u8, take_len: usize) -> StreamAnswer;
    fn urd_harvest(width: usize, user: usize, take: *const u8, take_len: usize, out: *mut u8, out_len: usize) -> StreamAnswer;
}

// The flags of a cycle's first octet.
const TVALID: u8 = 2;
const TREADY: u8 = 4;
const ARESETN: u8 = 8;
const WAITS: u8 = ARESETN | TVALID;
const TRANSFERS: u8 = ARESETN | TVALID | TREADY;

/// The handshake flags of a cycle, without TLAST.
fn flags(r: &[u8]) -> u8 { r[0] & TRANSFERS }

/// The lowest rule that the cycle `now` breaks, 0 for none. At cycle 0 `before` is `now` itself: it breaks no hold, and was
/// in reset only if `now` is.
fn broken(before: &[u8], now: &[u8]) -> u32 {
    let (flags_now, held) = (flags(now), flags(before) == WAITS);
    if flags_now & TVALID != 0 && flags_now & flags(before) & ARESETN == 0 { return 1; }
    if held && flags_now & WAITS == ARESETN { return 2; }
    if flags_now & WAITS != WAITS { return 0; }
    if held && ((before[0] ^ now[0]) & 1 != 0 || before[1..] != now[1..]) { return 3; }
    if strb_of(eight(now)) & !keep_of(eight(now)) != 0 { 4 } else { 0 }
}

/// The number of transfers and the first finding (rule, cycle; rule 0 for none), or FIELD and its cycle.
fn scan<const W: usize>(take: &[u8]) -> Result<(usize, u32, usize), (u32, usize)> {
    let (mut transfers, mut rule, mut cycle) = (0, 0, 0);
    let mut before = &take[..take.len().min(7 + W)];
    for (k, now) in take.chunks_exact(7 + W).enumerate() {
        refuse_if(eight(now) & HEAD & (0xF0 | 0xF0 << 16 | unused_lanes(W)) != 0, 3, k)?;
        if rule == 0 { (rule, cycle) = (broken(before, now), k); }
        transfers += (flags(now) == TRANSFERS) as usize;
        before = now;
    }
    Ok((transfers, rule, cycle))
}

/// Writes the transfers of a clean take, where there is room.
fn put<const W: usize>(take: &[u8], out: &mut [u8]) {
    let moved = take.chunks_exact(7 + W).filter(|r| flags(r) == TRANSFERS);
    for (record, r) in out.chunks_exact_mut(7 + W).zip(moved) {
        record.copy_from_slice(r);
        record[0] &= 1;
    }
}

fn answer(refusal: u32, rule: u32, place: usize, count: usize) -> StreamAnswer {
    StreamAnswer { refusal, rule, place: place as u64, count: count as u64 }
}

/// What judge and harvest share: the refusals 1 to 3, then `scan`.
fn looked_at(w: usize, take: &[u8]) -> Result<(usize, u32, usize), StreamAnswer> {
    if !(1..=16).contains(&w) { return Err(answer(1, 0, 0, 0)); }
    if take.len() > 65_536 || take.len() % (7 + w) != 0 { return Err(answer(2, 0, 0, 0)); }
    by_width!(w, scan(take)).map_err(|(refusal, place)| answer(refusal, 0, place, 0))
}

fn plain_judge(w: usize, take: &[u8], _out: &mut [u8]) -> StreamAnswer {
    match looked_at(w, take) {
        Err(refused) => refused,
        Ok((transfers, 0, _)) => answer(0, 0, 0, transfers),
        Ok((_, rule, cycle)) => answer(0, rule, cycle, 0),
    }
}

fn plain_harvest(w: usize, take: &[u8], out: &mut [u8]) -> StreamAnswer {
    let transfers = match looked_at(w, take) {
        Err(refused) => return refused,
        Ok((transfers, 0, _)) => transfers,
        Ok((_, rule, cycle)) => return answer(14, rule, cycle, 0),
    };
    if out.len() < transfers * (7 + w) { return answer(5, 0, 0, 0); }
    by_width!(w, put(take, out));
    answer(0, 0, 0, transfers)
}

fn our_judge(w: usize, take: &[u8], _out: &mut [u8]) -> StreamAnswer {
    // the slice is live for the whole call
    unsafe { urd_judge(w, 0, take.as_ptr(), take.len()) }
}

fn our_harvest(w: usize, take: &[u8], out: &mut [u8]) -> StreamAnswer {
    // both slices are live for the whole call, and they do not overlap
    unsafe { urd_harvest(w, 0, take.as_ptr(), take.len(), out.as_mut_ptr(), out.len()) }
}

type Call = fn(usize, &[u8], &mut [u8]) -> StreamAnswer;

/// Each call by name: the library's and the yardstick's.
const CALLS: [(&str, Call, Call); 2] = [("judge", our_judge, plain_judge), ("harvest", our_harvest, plain_harvest)];

/// Both sides of a call on one take and room: the same answer, the same output.
fn agree(w: usize, take: &[u8], room: usize) -> StreamAnswer {
    let mut last = answer(0, 0, 0, 0);
    for (name, ours, plain) in CALLS {
        let (mut mine, mut theirs) = (vec![0xA5; room], vec![0xA5; room]);
        let (a, b) = (ours(w, take, &mut mine), plain(w, take, &mut theirs));
        if a != b || mine != theirs {
            println!("{name} is not like the yardstick: w={w} take {} room {room}: {a:?} {b:?}", take.len());
            std::process::exit(1);
        }
        last = a;
    }
    last
}

/// A take of cycles that breaks no rule: each transfer waits `waits` cycles for TREADY, after `idle` cycles without TVALID.
fn clean_take(w: usize, cycles: usize, waits: usize, idle: usize, seed: &mut u64) -> Vec<u8> {
    let (mut take, mut held) = (Vec::new(), Vec::new());
    for k in 0..cycles {
        let turn = k % (idle + waits + 1);
        if turn == 0 || turn == idle {
            held.clear();
            let keep = below(seed, 1 << w);
            put_record(&mut held, w, below(seed, 2) == 1, [3, 5], keep, keep & below(seed, 1 << w), seed);
        }
        take.extend(&held);
        let ready = if turn == idle + waits { TREADY } else { 0 };
        take[k * (7 + w)] |= ARESETN | if turn < idle { 0 } else { TVALID | ready };
    }
    take
}

/// Random takes, clean and with one to three bits turned, with too little room and with enough.
fn check() {
    let (seed, mut refused, mut rules) = (&mut 7, [0; 15], [0; 5]);
    for (w, length) in [(0, 0), (17, 0), (usize::MAX, 8), (1, 7), (1, 65_544), (9, 65_536), (16, 0), (1, 65_536)] {
        agree(w, &vec![0; length], 65_536);
    }
    for round in 0..20_000 {
        let w = 1 + below(seed, 16) as usize;
        let cycles = if round % 200 == 0 { 65_536 / (7 + w) } else { 1 + below(seed, 40) as usize };
        let mut take = clean_take(w, cycles, below(seed, 3) as usize, below(seed, 3) as usize, seed);
        for _ in 0..below(seed, 4) {
            let at = below(seed, take.len() as u64) as usize;
            take[at] ^= 1 << below(seed, 8);
        }
        let a = agree(w, &take, take.len());
        agree(w, &take, a.count as usize * (7 + w));
        agree(w, &take, (a.count as usize * (7 + w)).saturating_sub(1));
        refused[a.refusal as usize] += 1;
        rules[a.rule as usize] += 1;
    }
    assert!(refused[0] > 20 && refused[3] > 20 && rules.iter().all(|&n| n > 20), "all are met: {refused:?} {rules:?}");
}

/// The median time of both sides in microseconds; they take turns, and the output is cleared outside the timing.
fn times(w: usize, take: &[u8], both: [Call; 2], out: &mut [u8]) -> [f64; 2] {
    let mut times = [Vec::new(), Vec::new()];
    for turn in 0..2 * ROUNDS {
        let i = (turn + turn / 2) % 2;
        out.fill(0);
        let begin = Instant::now();
        black_box(both[i](w, black_box(take), black_box(&mut *out)));
        times[i].push(begin.elapsed().as_nanos() as f64 / 1000.0);
    }
    times.each_mut().map(|t| { t.sort_by(f64::total_cmp); t[ROUNDS / 2] })
}

pub fn run() {
    check();
    println!("judge and harvest: the library and the yardstick answer and write alike in every case");
    let (mut out, mut worst) = (vec![0; 65_536], 0f64);
    for i in 0..18 {
        let (name, ours, plain) = CALLS[i / 9];
        let (w, (cycles, waits, idle)) = ([1, 4, 16][i / 3 % 3], [("busy", 0, 0), ("waits", 1, 0), ("idle", 0, 3)][i % 3]);
        let take = clean_take(w, 65_536 / (7 + w), waits, idle, &mut 42);
        let [mine, rust] = times(w, &take, [ours, plain], &mut out);
        println!("{name} w={w} cycles={cycles} rust_us={rust:.1} ours_us={mine:.1} ratio={:.2}", mine / rust);
        worst = worst.max(mine / rust);
    }
    println!("judge and harvest: worst {worst:.2}");
}
