//! Sheets planned with their rations cut, beside the same sheets planned as they are, held or not, and beside their cut
//! sheets.

use crate::engines::{both, buffer, share, texts, Engine};
use crate::planning::{row, PASSES};
use crate::stats::{time, Times};
use library::ShareAnswer;
use reference::listing::{PLACING_WORDS, PLAN_BUFFER};
use reference::share::{cut_sheet, plan_share};
use reference::sheet::read;
use sheets::{Kind, FULL, SHARE_KINDS};
use std::hint::black_box;
use std::time::Duration;

/// What the call answers and writes.
fn planned(sheet: &[u8]) -> (ShareAnswer, Vec<u8>, Vec<u64>) {
    let (mut listing, mut placing) = (vec![7; PLAN_BUFFER], vec![7; PLACING_WORDS]);
    let answer = library::plan_share(sheet, &mut listing, &mut placing);
    listing.truncate(answer.length);
    (answer, listing, placing)
}

/// The cut sheet, without the rations that are cut to 0: a sheet can't have a volume of 0, and what is fed has the same
/// plan without them.
fn cut(sheet: &[u8]) -> Vec<u8> {
    let (answer, ..) = planned(sheet);
    let mut cut = cut_sheet(&read(sheet).expect("accepted"), answer.share);
    cut.rations.retain(|ration| ration.volume > 0);
    cut.text()
}

/// Whether the listing is that of the cut sheet.
fn is_of_cut(sheet: &[u8], cut: &[u8]) -> bool {
    let (_, listing, _) = planned(sheet);
    let mut own = buffer();
    both(cut, &mut own) == (0, 0, listing.len()) && own[..listing.len()] == listing
}

/// Whether the call answers and writes what the reference says.
fn is_expected(sheet: &[u8]) -> bool {
    let expected = plan_share(sheet, PLAN_BUFFER, PLACING_WORDS);
    let (answer, listing, placing) = planned(sheet);
    let numbers = (answer.number, answer.line, answer.share);
    numbers == (expected.number, expected.line, expected.share)
        && (listing, placing) == (expected.listing, expected.placing)
}

/// The passes of each call are made in so many parts, those of the other calls between them, so that whatever slows the
/// machine for a while slows no call alone.
const PARTS: usize = 3;

/// The least time of each sheet, for each call on its sheets. A pass that comes after one of another call may be faster
/// or slower, with what the processor knows of its branches; most passes here come after one of the same call.
fn measure(calls: [(&[Vec<u8>], Engine); 3]) -> [Vec<Duration>; 3] {
    let mut out = buffer();
    let mut least = calls.map(|(sheets, _)| vec![Duration::MAX; sheets.len()]);
    for _ in 0..PARTS {
        for ((sheets, engine), least) in calls.iter().zip(&mut least) {
            for _ in 0..PASSES / PARTS {
                for (sheet, least) in sheets.iter().zip(least.iter_mut()) {
                    let taken = time(|| {
                        black_box(engine(sheet, &mut out));
                    });
                    *least = taken.min(*least);
                }
            }
        }
    }
    least
}

/// How many times as long each sheet takes as its cut sheet, for the sheet that is worst in that.
fn worst_ratio(times: &[Duration], of_cut: &[Duration]) -> f64 {
    let ratios = times.iter().zip(of_cut);
    let ratios = ratios.map(|(time, cut)| time.as_secs_f64() / cut.as_secs_f64());
    ratios.fold(0.0, f64::max)
}

pub fn run(count: usize, slow: usize) -> Result<(), String> {
    println!("Planning {count} full sheets of each kind with their rations cut, beside the sheets as they are,");
    println!("held or not, and the cut sheets, which are written without the rations cut to 0: microseconds of");
    println!("processor time a sheet, the least of {PASSES} passes. {slow} of each kind are held to the reference.");
    println!("Times: the median against that of the cut sheets; and the most that a sheet takes against its own.\n");
    println!("| Sheets | Call | Median | 99th percentile | Worst | Times | At most |");
    println!("|---|---|---|---|---|---|---|");
    for kind in SHARE_KINDS {
        let sheets = texts(kind, FULL, count);
        let cuts: Vec<Vec<u8>> = sheets.iter().map(|sheet| cut(sheet)).collect();
        let mut pairs = sheets.iter().zip(&cuts);
        let is_same = pairs.all(|(sheet, cut)| is_of_cut(sheet, cut));
        if !is_same || !sheets.iter().take(slow).all(|sheet| is_expected(sheet)) {
            let name = kind.name();
            return Err(format!("a {name} sheet with cut rations has two plans"));
        }
        let [as_is, of_cut, of_share] = measure([(&sheets, both), (&cuts, both), (&sheets, share)]);
        let middle = Times::of(of_cut.clone()).median();
        let rows = [
            ("plan_both", as_is),
            ("plan_both, cut sheet", of_cut.clone()),
            ("plan_share", of_share),
        ];
        for (call, each) in rows {
            let most = worst_ratio(&each, &of_cut);
            let times = Times::of(each);
            let ratio = times.median() / middle;
            row(
                kind.name(),
                call,
                &times,
                &format!("{ratio:.2} | {most:.2}"),
            );
        }
    }
    Ok(())
}

/// Makes a call on each sheet of a kind once: plans the sheet, or its cut sheet, or cuts its rations.
pub fn once(way: &str, kind: Kind, count: usize) -> Option<()> {
    let mut sheets = texts(kind, FULL, count);
    let engine = match way {
        "sheet" => both,
        "cut" => {
            sheets = sheets.iter().map(|sheet| cut(sheet)).collect();
            both
        }
        "share" => share,
        _ => return None,
    };
    let mut out = buffer();
    for sheet in &sheets {
        black_box(engine(sheet, &mut out));
    }
    Some(())
}
