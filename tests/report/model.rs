//! The second program's report: paper 01, "The report program", with the words of T-03 and the line of
//! T-06, done plainly. Written from the papers alone, over the stream model of tests/second. Which file
//! can't be read, or written, is the comparer's business.
use crate::stream::{self, LENGTH, MOST_OCTETS, ROOM, StreamAnswer, UNCLEAN};

pub const SHEET: u32 = 15;

/// What is printed, and what out.bin holds where the verdict is clean.
pub struct Report { pub text: String, pub out: Option<Vec<u8>> }

/// `fill` is the level that TLAST is filled in with, high or low; a wired port has none.
struct Sheet { width_in: usize, width_out: usize, lanes: bool, fill: Option<bool>, user: usize }

const MODES: [(&str, bool); 2] = [("pack", false), ("lanes", true)];
const TLASTS: [(&str, Option<bool>); 3] = [("wired", None), ("none", Some(true)), ("low", Some(false))];

/// 0 up to that number, no leading zeros.
fn number(text: &str, most: usize) -> Option<usize> { (0..=most).find(|n| n.to_string() == text) }

/// What this word says; nothing where it is not in the list.
fn word<T: Copy>(text: &str, words: &[(&str, T)]) -> Option<T> { words.iter().find(|(word, _)| *word == text).map(|(_, says)| *says) }

/// Five LF-ended lines in this order, and nothing else.
fn sheet(octets: &[u8]) -> Option<Sheet> {
    let text = std::str::from_utf8(octets).ok()?;
    let lines: Vec<&str> = text.strip_suffix('\n')?.split('\n').collect();
    let [width_in, width_out, mode, tlast, user] = lines[..] else { return None };
    Some(Sheet {
        width_in: number(width_in.strip_prefix("width_in=")?, 99)?,
        width_out: number(width_out.strip_prefix("width_out=")?, 99)?,
        lanes: word(mode.strip_prefix("mode=")?, &MODES)?,
        fill: word(tlast.strip_prefix("tlast=")?, &TLASTS)?,
        user: number(user.strip_prefix("user=")?, 9)?,
    })
}

/// Without out.bin: refused, or broken where it is the harvest of a broken take.
fn not_clean(a: StreamAnswer) -> Report {
    let text = match a.refusal {
        UNCLEAN => format!("verdict=broken\ncycle={}\nrule={}\n", a.place, a.rule),
        number => format!("verdict=refused\nrefusal={number}\nat={}\n", a.place),
    };
    Report { text, out: None }
}

fn refused(refusal: u32) -> StreamAnswer { StreamAnswer { refusal, ..StreamAnswer::default() } }

/// SHEET first of all, then WIDTH, USERBITS, RATIO, LENGTH, FIELD, broken, and ROOM last.
fn clean(sheet_octets: Option<&[u8]>, take: Option<&[u8]>) -> Result<Report, StreamAnswer> {
    let s = sheet_octets.and_then(sheet).ok_or(refused(SHEET))?;
    let convert = if s.lanes { stream::downsize_plan } else { stream::repack_plan };
    convert(s.width_in, s.user, s.width_out, &[])?; // WIDTH, USERBITS and RATIO, as of an empty stream
    let mut take = take.ok_or(refused(LENGTH))?.to_vec();
    if let Some(high) = s.fill {
        let filled = stream::fill_in(s.width_in, s.user, &mut take, high);
        if filled.refusal != 0 { return Err(filled); }
    }
    let harvest = stream::harvest_plan(s.width_in, s.user, &take)?;
    let out = convert(s.width_in, s.user, s.width_out, &harvest)?;
    if out.len() > MOST_OCTETS { return Err(refused(ROOM)); }
    let text = format!(
        "verdict=clean\ntransfers={}\npackets={}\nrecords={}\n",
        harvest.len() / stream::record_octets(s.width_in, s.user),
        take.chunks(stream::record_octets(s.width_in, s.user)).filter(|r| r[0] == 0x0F).count(), // handshaken with TLAST, as filled in
        out.len() / stream::record_octets(s.width_out, s.user),
    );
    Ok(Report { text, out: Some(out) })
}

/// `None` is a file that can't be read.
pub fn report(sheet: Option<&[u8]>, take: Option<&[u8]>) -> Report { clean(sheet, take).unwrap_or_else(not_clean) }
