//! The yardstick: plain safe-Rust converters to the packed form, in four shapes. Each keeps the library's whole
//! contract: width and length refused first (1, 2), then record by record 3 before 4, then 5; a refused call leaves
//! `out` alone, an accepted one leaves what follows its records alone. No code is shared with the library.
#![forbid(unsafe_code)]

/// Runs a function as compiled for one width.
macro_rules! by_width {
    ($w:expr, $f:ident $args:tt) => { by_width!($w, $f $args 1 2 3 4 5 6 7 8 9 10 11 12 13 14 15 16) };
    ($w:expr, $f:ident $args:tt $($n:literal)*) => { match $w { $($n => $f::<$n> $args,)* _ => unreachable!() } };
}

#[derive(Clone, Copy, PartialEq, Eq, Debug)]
pub struct Answer { pub refusal: u32, pub place: u64, pub count: u64 }

pub type Converter = fn(usize, usize, &[u8], &mut [u8]) -> Answer;

/// The shapes by name. All must agree octet for octet; the harness takes the fastest of them in each case.
pub const SHAPES: [(&str, Converter); 4] = [
    ("pending", |w, v, input, out| answer(lane_by_lane::<true>(w, v, input, out))),
    ("direct", |w, v, input, out| answer(lane_by_lane::<false>(w, v, input, out))),
    ("codes", |w, v, input, out| answer(codes(w, v, input, out))),
    ("arrays", |w, v, input, out| answer(arrays(w, v, input, out))),
];

/// The number of records, or the refusal and its place.
pub type Counted = Result<usize, (u32, usize)>;

pub fn answer(counted: Counted) -> Answer {
    let (count, (refusal, place)) = counted.map_or_else(|refused| (0, refused), |count| (count, (0, 0)));
    Answer { refusal, place: place as u64, count: count as u64 }
}

// A record's seven header octets as one little-endian number: TLAST, TID, TDEST, TKEEP, TSTRB. A record has at least
// eight octets, so one load of eight reads it, with lane 0 on top.
pub const LAST: u64 = 1;
pub const PAIR: u64 = 0xFFFF << 8;
pub const KEEP: u64 = 0xFFFF << 24;
pub const HEAD: u64 = !0 >> 8;

pub fn eight(octets: &[u8]) -> u64 { u64::from_le_bytes(octets[..8].try_into().unwrap()) }
pub fn keep_of(head: u64) -> usize { (head >> 24 & 0xFFFF) as usize }
pub fn strb_of(head: u64) -> usize { (head >> 40 & 0xFFFF) as usize }

/// TKEEP and TSTRB of a record with n data lanes from lane 0 on.
pub const fn filled(n: usize) -> u64 { ((1 << n) - 1) * (1 << 24 | 1 << 40) }

/// TKEEP and TSTRB of the lanes that a width does not have.
pub const fn unused_lanes(w: usize) -> u64 { filled(16) ^ filled(w) }

/// The bits of a transfer's header that must be zero at width w.
pub const fn zeros(w: usize) -> u64 { 0xFE | 0xF0 << 16 | unused_lanes(w) }

pub fn refuse_if(bad: bool, refusal: u32, place: usize) -> Result<(), (u32, usize)> {
    if bad { Err((refusal, place)) } else { Ok(()) }
}

/// The refusals that come before any record is read.
fn check_take(w: usize, v: usize, input: &[u8]) -> Result<(), (u32, usize)> {
    refuse_if(!(1..=16).contains(&w) || !(1..=16).contains(&v), 1, 0)?;
    refuse_if(input.len() > 65_536 || input.len() % (7 + w) != 0, 2, 0)
}

/// The fault of record k: FIELD before RESERVED.
pub fn check_record(head: u64, w: usize, k: usize) -> Result<(), (u32, usize)> {
    refuse_if(head & zeros(w) != 0, 3, k)?;
    refuse_if(strb_of(head) & !keep_of(head) != 0, 4, k)
}

/// The records of a stretch of n items, or of an end alone.
pub fn records_of(n: usize, v: usize) -> usize { n.saturating_sub(1) / v + 1 }

/// The first pass of shapes (a) and (b): every refusal, and the number of records.
fn judge(w: usize, v: usize, input: &[u8], out: &[u8]) -> Counted {
    check_take(w, v, input)?;
    let (mut count, mut open, mut pair) = (0, 0usize, 0);
    for (k, rec) in input.chunks_exact(7 + w).enumerate() {
        let head = eight(rec) & HEAD;
        check_record(head, w, k)?;
        if head & PAIR != pair && head & (KEEP | LAST) != 0 {
            count += open.div_ceil(v);
            (open, pair) = (0, head & PAIR);
        }
        open += keep_of(head).count_ones() as usize;
        if head & LAST == 1 { (count, open) = (count + records_of(open, v), 0); }
    }
    count += open.div_ceil(v);
    refuse_if(out.len() < count * (7 + v), 5, 0)?;
    Ok(count)
}

/// The header of a record with n lanes and its null lanes; `head` has all but TKEEP.
pub fn finish(rec: &mut [u8], v: usize, n: usize, head: u64) {
    rec[..7].copy_from_slice(&(head | ((1 << n) - 1) << 24).to_le_bytes()[..7]);
    rec[7 + n..7 + v].fill(0);
}

/// Shapes (a) and (b): the output from the open record on. Its lanes are pending in an array of their own until it
/// closes (HELD, shape a), or go straight to their place in the output (shape b); the header comes last.
struct Open<'a, const HELD: bool> { out: &'a mut [u8], v: usize, pair: u64, n: usize, strb: u64, lanes: [u8; 16] }

impl<const HELD: bool> Open<'_, HELD> {
    fn close(&mut self, last: u64) {
        let (rec, rest) = std::mem::take(&mut self.out).split_at_mut(7 + self.v);
        finish(rec, self.v, self.n, last | self.pair | self.strb << 40);
        if HELD { rec[7..7 + self.n].copy_from_slice(&self.lanes[..self.n]); }
        (self.out, self.n, self.strb) = (rest, 0, 0);
    }

    fn add(&mut self, octet: u8, data: usize) {
        if self.n == self.v { self.close(0); }
        let to = if HELD { &mut self.lanes[self.n] } else { &mut self.out[7 + self.n] };
        *to = octet * data as u8;
        self.strb |= (data as u64) << self.n;
        self.n += 1;
    }
}

fn lane_by_lane<const HELD: bool>(w: usize, v: usize, input: &[u8], out: &mut [u8]) -> Counted {
    let count = judge(w, v, input, out)?;
    let mut open = Open::<HELD> { out, v, pair: 0, n: 0, strb: 0, lanes: [0; 16] };
    for rec in input.chunks_exact(7 + w) {
        let head = eight(rec) & HEAD;
        if head & PAIR != open.pair && head & (KEEP | LAST) != 0 {
            if open.n > 0 { open.close(0); }
            open.pair = head & PAIR;
        }
        for (j, &octet) in rec[7..].iter().enumerate() {
            if keep_of(head) >> j & 1 == 1 { open.add(octet, strb_of(head) >> j & 1); }
        }
        if head & LAST == 1 { open.close(1); }
    }
    if open.n > 0 { open.close(0); }
    Ok(count)
}

// Shape (c), the library's first: one parse into item codes, octet + 256 * strobe, and a table of stretches; then the
// records, stretch by stretch.

/// The table of stretches of shapes (c) and (d), m of them, each its length, its TLAST and its pair in one number. The
/// open stretch has the items from `start` on.
pub struct Stretches<'a> { pub table: &'a mut [u32], pub m: usize, pub start: usize, pub pair: u64 }

impl Stretches<'_> {
    pub fn close(&mut self, n: usize, last: u64) {
        self.table[self.m] = (n - self.start) as u32 | (last << 16 | self.pair << 9) as u32;
        (self.m, self.start) = (self.m + 1, n);
    }

    /// The open stretch closed, if it has items: so many stretches.
    pub fn cut(&mut self, n: usize) -> usize {
        if self.start < n { self.close(n, 0); }
        self.m
    }

    /// Before a record's items, which begin at n: a stretch of another pair is closed.
    pub fn turn(&mut self, n: usize, head: u64) {
        if head & PAIR != self.pair && head & (KEEP | LAST) != 0 {
            self.cut(n);
            self.pair = head & PAIR;
        }
    }
}

fn codes(w: usize, v: usize, input: &[u8], out: &mut [u8]) -> Counted {
    check_take(w, v, input)?;
    let (mut items, mut table) = ([0u16; 45_600], [0u32; 8_193]);
    let (mut n, mut st) = (0, Stretches { table: &mut table, m: 0, start: 0, pair: 0 });
    for (k, rec) in input.chunks_exact(7 + w).enumerate() {
        let head = eight(rec) & HEAD;
        check_record(head, w, k)?;
        st.turn(n, head);
        if head & filled(16) == filled(w) {
            for (item, &octet) in items[n..n + w].iter_mut().zip(&rec[7..]) {
                *item = octet as u16 + 256;
            }
            n += w;
        } else {
            let (mut keep, mut strb) = (keep_of(head), strb_of(head));
            for &octet in &rec[7..] {
                items[n] = octet as u16 + 256 * (strb & 1) as u16;
                n += keep & 1;
                (keep, strb) = (keep >> 1, strb >> 1);
            }
        }
        if head & LAST == 1 { st.close(n, 1); }
    }
    let m = st.cut(n);
    let count = table[..m].iter().map(|e| records_of((e & 0xFFFF) as usize, v)).sum();
    refuse_if(out.len() < count * (7 + v), 5, 0)?;
    let (mut recs, mut from) = (out.chunks_exact_mut(7 + v), 0);
    for e in &table[..m] {
        let end = from + (e & 0xFFFF) as usize;
        for k in (1..=records_of(end - from, v)).rev() {
            let (rec, here) = (recs.next().unwrap(), v.min(end - from));
            let mut strb = 0;
            for (j, item) in items[from..from + here].iter().enumerate() {
                rec[7 + j] = (item * (item >> 8)) as u8;
                strb |= ((item >> 8) as u64) << j;
            }
            let last = if k == 1 { e >> 16 & 1 } else { 0 } as u64;
            finish(rec, v, here, last | (e >> 9) as u64 & PAIR | strb << 40);
            from += here;
        }
    }
    Ok(count)
}

// Shape (d): one parse into an array of octets, one of marks for position items (not even allocated in a take that has
// none) and one of stretches, then the records. What makes it fast: each width compiled for itself; one test for the
// usual record; full records moved whole; null lanes closed up eight at a time by moves from a table, with no branch.

/// For each eight TKEEP bits: the octets they name, which of these move down by 1, by 2 and by 4 lanes, their number.
static SIFT: [[u64; 5]; 256] = {
    let mut table = [[0; 5]; 256];
    let mut bits = 0;
    while bits < 256 {
        let (mut lane, mut nulls) = (0, 0);
        while lane < 8 {
            if bits >> lane & 1 == 1 {
                table[bits][0] |= 0xFF << (8 * lane);
                table[bits][1] |= (nulls & 1) * 0xFF << (8 * lane);
                table[bits][2] |= (nulls >> 1 & 1) * 0xFF << (8 * (lane - (nulls & 1)));
                table[bits][3] |= (nulls >> 2) * 0xFF << (8 * (lane - (nulls & 3)));
                table[bits][4] += 1;
            }
            nulls += 1 - (bits >> lane & 1) as u64;
            lane += 1;
        }
        bits += 1;
    }
    table
};

/// Stores eight octets at n with the kept ones closed up, the others being zero; answers the place after them.
fn sift(to: &mut [u8], n: usize, mut x: u64, keep: usize) -> usize {
    for (step, moves) in SIFT[keep][1..4].iter().enumerate() {
        let moved = x & moves;
        x = (x ^ moved) | moved >> (8 << step);
    }
    to[n..n + 8].copy_from_slice(&x.to_le_bytes());
    n + SIFT[keep][4] as usize
}

/// Marks the position items of a record whose items begin at n.
#[cold]
fn mark(marks: &mut Vec<u8>, room: usize, mut n: usize, keep: usize, strb: usize) {
    marks.resize(room, 0);
    for (k, s) in [(keep & 255, strb & 255), (keep >> 8, strb >> 8)] {
        n = sift(marks, n, SIFT[k ^ s][0] & 0x0101_0101_0101_0101, k);
    }
}

/// Reads the take: the number of its stretches, or the fault and its record.
#[inline(never)] // apart, so that the compiler knows the slices do not overlap
fn parse<const W: usize>(input: &[u8], octets: &mut [u8], marks: &mut Vec<u8>, table: &mut [u32]) -> Counted {
    let (mut n, mut st) = (0, Stretches { table, m: 0, start: 0, pair: 0 });
    for (k, rec) in input.chunks_exact(7 + W).enumerate() {
        let head = eight(rec) & HEAD;
        let (keep, strb, mut first) = (keep_of(head), strb_of(head), rec[7]);
        // the usual record has nothing wrong, no position lane and the pair of the record before
        if (head ^ st.pair) & (PAIR | zeros(W)) | (head ^ head >> 16) & KEEP != 0 {
            check_record(head, W, k)?;
            st.turn(n, head);
            if keep != strb {
                mark(marks, octets.len(), n, keep, strb);
                first *= (strb & 1) as u8;
            }
        }
        if W == 1 {
            octets[n] = first;
            n += keep & 1;
        } else if head & filled(16) == filled(W) {
            octets[n..n + W].copy_from_slice(&rec[7..]);
            n += W;
        } else {
            // the last eight octets of a record are always there to load: its last eight lanes, or a few more
            let high = eight(&rec[W - 1..]) >> (8 * (16 - W) % 64);
            let low = if W > 8 { eight(&rec[7..]) } else { high };
            n = sift(octets, n, low & SIFT[strb & 255][0], keep & 255);
            n = if W > 8 { sift(octets, n, high & SIFT[strb >> 8][0], keep >> 8) } else { n };
        }
        if head & LAST == 1 { st.close(n, 1); }
    }
    Ok(st.cut(n))
}

/// TKEEP and TSTRB of n lanes. Where the take has position items, their marks are sixteen from `from` on.
fn masks(n: usize, marks: &[u8], from: usize) -> u64 {
    if marks.is_empty() { return filled(n); }
    let gather = |at| eight(&marks[at..]).wrapping_mul(0x0102_0408_1020_4080) >> 56;
    filled(n) & !((gather(from) | gather(from + 8) << 8) << 40)
}

/// A record's header and lanes, in as few stores as there can be: the first one covers lane 0 too.
fn put(rec: &mut [u8], head: u64, lanes: &[u8]) {
    rec[..8].copy_from_slice(&(head | (lanes[0] as u64) << 56).to_le_bytes());
    if lanes.len() > 1 { rec[7..].copy_from_slice(lanes); }
}

/// Writes the records of all stretches, where there is room.
#[inline(never)]
fn emit<const V: usize>(octets: &[u8], marks: &[u8], table: &[u32], mut out: &mut [u8]) -> Counted {
    let count = table.iter().map(|e| records_of((e & 0xFFFF) as usize, V)).sum();
    refuse_if(out.len() < count * (7 + V), 5, 0)?;
    let mut from = 0;
    for &e in table {
        let pair = (e >> 9) as u64 & PAIR;
        let mut left = (e & 0xFFFF) as usize;
        if left > V {
            let n = (left - 1) / V;
            let (run, rest) = out.split_at_mut(n * (7 + V));
            for (j, (rec, lanes)) in run.chunks_exact_mut(7 + V).zip(octets[from..].chunks_exact(V)).enumerate() {
                put(rec, pair | masks(V, marks, from + j * V), lanes);
            }
            (out, from, left) = (rest, from + n * V, left - n * V);
        }
        // the last record of the stretch: sixteen octets loaded, those after its items cleared
        let bits = (1 << left) - 1;
        let kept = SIFT[bits & 255][0] as u128 | (SIFT[bits >> 8 & 255][0] as u128) << 64;
        let lanes = u128::from_le_bytes(octets[from..from + 16].try_into().unwrap()) & kept;
        let (rec, rest) = out.split_at_mut(7 + V);
        put(rec, (e >> 16) as u64 & LAST | pair | masks(left, marks, from), &lanes.to_le_bytes()[..V]);
        (out, from) = (rest, from + left);
    }
    Ok(count)
}

fn arrays(w: usize, v: usize, input: &[u8], out: &mut [u8]) -> Counted {
    check_take(w, v, input)?;
    let records = input.len() / (7 + w);
    let (mut octets, mut marks, mut table) = (vec![0; records * w + 16], Vec::new(), vec![0; records + 1]);
    let m = by_width!(w, parse(input, &mut octets, &mut marks, &mut table))?;
    by_width!(v, emit(&octets, &marks, &table[..m], out))
}
