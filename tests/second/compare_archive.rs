//! Archived files: what lane-keeping mode makes of a legal stream is a legal stream, and the library repacks it to what it repacks the
//! original to. The slices are the model's, by paper 01's definition; the library's downsizing is held to them elsewhere.
use crate::cases::ConvertCall;
use crate::cases_archive::{self, Cut, cuts, divisors};
use crate::compare_report::{WORDS, ask, compare, move_tlast, sheet, told_by_hand};
use crate::compare_streams::{REFUSED_ROOM, REPACK, WITH_USER_BITS, cycles, lend_to, note, reserve, rooms, show, transfers, write_into};
use crate::compare_user_report::cycle;
use crate::merge_lists::{Asked, ENDS, list, zero_bits};
use crate::model::{self, FIELD, LENGTH, MOST_OCTETS, RESERVED, StreamAnswer, record_octets};
use crate::tally::{Random, Tally};
use crate::{compare_merge, library_stream as library};

/// Output widths: every right one, the wrong ones beside them, and a very large one.
const TO: [usize; 19] = [0, 1, 2, 3, 4, 5, 6, 7, 8, 9, 10, 11, 12, 13, 14, 15, 16, 17, usize::MAX];
const WRONG: [usize; 3] = [0, 17, usize::MAX];

/// A legal stream, and the file that lane-keeping mode made of it.
#[derive(Clone)]
struct Archived { m: usize, w: usize, original: Vec<u8>, v: usize, file: Vec<u8> }

impl Archived {
    fn of((w, m, v): Cut, original: Vec<u8>) -> Archived {
        let file = model::slices(w, m, v, &original);
        Archived { m, w, original, v, file }
    }
    fn some(r: &mut Random, cut: Cut, records: usize) -> Archived { Archived::of(cut, transfers(r, cut.0, cut.1, records)) }
    fn says(&self, u: usize) -> String {
        format!("archive of width {} repacked to {u}, user bits {}, {}, its original of width {} {}", self.v, self.m, show(&self.file), self.w, show(&self.original))
    }
}

/// As many records as there may be where the file is no longer than a take.
fn most((w, m, v): Cut) -> usize { MOST_OCTETS / (w / v * record_octets(v, m)) }

/// The library answers the file as it answers the original, and leaves the lent octets alike; both are what the model says.
fn alike(t: &mut Tally, a: &Archived, u: usize, room: usize) {
    let both = |call: ConvertCall| [(a.v, &a.file), (a.w, &a.original)].map(|(w, input)| lend_to(call, w, a.m, u, input, room));
    let [file, original] = both(library::repack);
    let [file_expected, original_expected] = both(model::repack);
    note(t, "archive", a.m, file_expected.0);
    let says = |x: &(StreamAnswer, Vec<u8>), y: &(StreamAnswer, Vec<u8>)| {
        format!("{}, room {room}\n    library  {:?} {}\n    expected {:?} {}", a.says(u), x.0, show(&x.1), y.0, show(&y.1))
    };
    t.check(file == original, || says(&file, &original));
    t.check(file == file_expected, || says(&file, &file_expected));
    t.check(original == original_expected, || says(&original, &original_expected));
}

fn into_rooms(t: &mut Tally, a: &Archived, u: usize) {
    let need = model::repack_plan(a.w, a.m, u, &a.original).map_or(REFUSED_ROOM, |octets| octets.len());
    for room in rooms(need) { alike(t, a, u, room); }
}

fn every_cut(t: &mut Tally, r: &mut Random) {
    for (cut, records) in cuts().flat_map(|cut| [1, 2, 6, 20].map(|records| (cut, records))) {
        let a = Archived::some(r, cut, records);
        for u in TO { into_rooms(t, &a, u); }
    }
}

/// Slices of slices, repacked to every width.
fn twice(t: &mut Tally, r: &mut Random) {
    for (cut, v) in cuts().flat_map(|cut| divisors(cut.2).map(move |v| (cut, v))) {
        let once = Archived::some(r, cut, 4);
        let again = Archived { v, file: model::slices(once.v, once.m, v, &once.file), ..once };
        for u in 1..=16 { into_rooms(t, &again, u); }
    }
}

/// A file of 65,536 octets, or of the last size below; then one of a record more, which is 2. Its original is shorter, and is not.
fn at_the_bound(t: &mut Tally, r: &mut Random, cut: Cut) {
    let u = 1 + r.below(16);
    let longest = Archived::some(r, cut, most(cut));
    if longest.file.len() == MOST_OCTETS { t.verdict(FULL.to_string()); }
    into_rooms(t, &longest, u);
    let over = Archived::some(r, cut, most(cut) + 1);
    for wrong in WRONG { alike(t, &over, wrong, REFUSED_ROOM); } // WIDTH comes first
    let whole = cut.0 == cut.2; // slices as wide as their records: the original is over-long, too
    for room in [0, MOST_OCTETS] {
        let [file, original] = [(over.v, &over.file), (over.w, &over.original)].map(|(w, input)| {
            write_into(t, &REPACK, w, over.m, u, input, room);
            lend_to(library::repack, w, over.m, u, input, room).0.refusal
        });
        t.same((file, original == LENGTH), (LENGTH, whole), || over.says(u));
        if !whole { t.verdict(OVER.to_string()); }
    }
}

/// A clean take with each word: the slices of its transfers are repacked to what the report on that take writes, in as many records.
fn of_reports(t: &mut Tally, r: &mut Random, (w, m, v): Cut, mut take: Vec<u8>) {
    for word in WORDS {
        let mut filled = take.clone();
        if word != "wired" { model::fill_in(w, m, &mut filled, word == "none"); }
        let a = Archived::of((w, m, v), model::harvest_plan(w, m, &filled).expect("a clean take"));
        let u = 1 + r.below(16);
        let (report, _, result) = ask((&sheet(w, u, "pack", word, m), 1), (&take, 1));
        let mut room = vec![0; MOST_OCTETS];
        let answer = library::repack(v, m, u, &a.file, &mut room);
        let says = || format!("tlast={word}, {}", a.says(u));
        t.same((answer.refusal, answer.count), (report.refusal, report.records), says);
        t.check(room[..result.len()] == result && room[result.len()..].iter().all(|octet| *octet == 0), says);
        t.verdict(format!("archive of a report, refusal {}", report.refusal));
        alike(t, &a, u, MOST_OCTETS);
        move_tlast(r, w, m, &mut take); // the other words do not look at it
    }
}

/// Takes of so many cycles that a file of them all is as long as can be: any cycles, and every lane data, so that often there is no room.
fn of_long_reports(t: &mut Tally, r: &mut Random, cut: Cut) {
    let (w, m, _) = cut;
    for take in [cycles(r, w, m, most(cut)), cycle(w, m, w, false).repeat(most(cut))] { of_reports(t, r, cut, take); }
}

fn of_short_reports(t: &mut Tally, r: &mut Random, cut: Cut) {
    let n = r.below(30);
    let take = cycles(r, cut.0, cut.1, n);
    of_reports(t, r, cut, take);
}

/// The file itself put where a take belongs: at its own width no cycle of it is out of reset, so that it is clean and shows nothing.
fn as_a_take(t: &mut Tally, r: &mut Random, cut: Cut, records: usize) {
    let a = Archived::some(r, cut, records);
    for word in WORDS {
        let u = 1 + r.below(16);
        told_by_hand(t, (&sheet(a.v, u, "pack", word, a.m), 1), (&a.file, 1), "clean 0 0 0", Some(&[]));
        compare(t, (&sheet(a.w, u, "pack", word, a.m), 1), (&a.file, 1), MOST_OCTETS, 0); // at the take's width it is what it is
    }
}

/// A file with a reserved lane, with a bit that must be zero, with both in a record, and cut: the refusal, and its place.
fn damaged(t: &mut Tally, r: &mut Random, cut: Cut, records: usize) {
    let a = Archived::some(r, cut, records);
    let size = record_octets(a.v, a.m);
    let (k, lane, bit) = (r.below(a.file.len() / size), r.below(a.v), r.pick(&zero_bits(a.v, a.m)));
    let spoilt = |reserved: bool, field: bool| {
        let mut file = a.file.clone();
        if reserved { reserve(&mut file[k * size..], lane); }
        if field { file[k * size + bit / 8] ^= 1 << (bit % 8); }
        file
    };
    let cut_off = a.file[..a.file.len() - 1 - r.below(size - 1)].to_vec();
    let u = 1 + r.below(16);
    for (file, refusal, place) in [(spoilt(true, false), RESERVED, k), (spoilt(false, true), FIELD, k), (spoilt(true, true), FIELD, k), (cut_off, LENGTH, 0)] {
        let expected = StreamAnswer { refusal, place: place as u64, ..Default::default() };
        note(t, "archive", a.m, expected);
        let answer = library::repack(a.v, a.m, u, &file, &mut []);
        t.same(answer, expected, || format!("damaged archive of width {} repacked to {u}, user bits {}, {}", a.v, a.m, show(&file)));
        write_into(t, &REPACK, a.v, a.m, u, &file, REFUSED_ROOM);
    }
}

/// The archived lists of two ports merge to the slices of the merged list: a turn ends at the last slice of its TLAST.
fn merged(t: &mut Tally, r: &mut Random, (w, m, v): Cut) {
    let lists = [r.below(6), r.below(6)].map(|n| { let ends = r.pick(&ENDS); list(r, w, m, n, ends) });
    let files = lists.each_ref().map(|list| model::slices(w, m, v, list));
    let (_, whole) = compare_merge::compare(t, &Asked::of(w, m, lists));
    let (_, file) = compare_merge::compare(t, &Asked::of(v, m, files));
    t.check(file == model::slices(w, m, v, &whole), || format!("merged archives of width {v} from {w}, user bits {m}, {} for {}", show(&file), show(&whole)));
}

/// At every cut so often.
fn at_every_cut(t: &mut Tally, r: &mut Random, rounds: usize, ask: impl Fn(&mut Tally, &mut Random, Cut)) {
    for cut in cuts() { for _ in 0..rounds { ask(t, r, cut); } }
}

/// One round of the soak; one in a few hundred has a long file.
pub fn round(t: &mut Tally, r: &mut Random) {
    let every: Vec<Cut> = cuts().collect();
    let (cut, u, long) = (r.pick(&every), r.pick(&TO), r.one_in(400));
    let n = if long { r.below(most(cut)) } else { r.below(20) };
    let a = Archived::some(r, cut, n);
    into_rooms(t, &a, u);
    of_short_reports(t, r, cut);
    as_a_take(t, r, cut, n);
    damaged(t, r, cut, 1 + n);
    merged(t, r, cut);
    if r.one_in(600) {
        at_the_bound(t, r, cut);
        of_long_reports(t, r, cut);
    }
}

/// What the gate asks.
pub fn all(t: &mut Tally) {
    cases_archive::files(t, library::repack);
    t.seeded_group("archives at every cut", every_cut);
    t.seeded_group("archives sliced twice", twice);
    t.seeded_group("archives at the bound of a take", |t, r| at_every_cut(t, r, 1, at_the_bound));
    t.seeded_group("archives and reports", |t, r| at_every_cut(t, r, 6, of_short_reports));
    t.seeded_group("archives and reports on long takes", |t, r| at_every_cut(t, r, 1, of_long_reports));
    t.seeded_group("archives as takes", |t, r| at_every_cut(t, r, 2, |t, r, cut| { let n = r.below(30); as_a_take(t, r, cut, n) }));
    t.seeded_group("damaged archives", |t, r| at_every_cut(t, r, 12, |t, r, cut| { let n = 1 + r.below(9); damaged(t, r, cut, n) }));
    t.seeded_group("archives merged", |t, r| at_every_cut(t, r, 8, merged));
}

const FULL: &str = "archive of 65536 octets";
const OVER: &str = "archive over-long, and its original not";

/// What must have occurred by then.
pub fn verdicts() -> Vec<String> {
    let answers = [1, 2, 3, 4, 5].map(|n| format!("archive refusal {n}")).into_iter().chain(["archive accepted".to_string()]);
    let tagged = answers.clone().map(|name| format!("{name}{WITH_USER_BITS}"));
    let reports = [0, 5].map(|n| format!("archive of a report, refusal {n}"));
    answers.chain(tagged).chain(reports).chain([FULL, OVER].map(String::from)).collect()
}
