//! Four halls planned by one call, beside the same four sheets planned alone. The greatest limit
//! leaves each hall all its blowers, so that the plans are the same; lower ones bind.

use crate::engines;
use crate::planning::{row, PASSES};
use crate::stats::{time, Times};
use library::{Hall, Planned};
use reference::halls::{self, MOST_HALLS, MOST_LIMIT};
use reference::listing::{PLACING_WORDS, PLAN_BUFFER};
use sheets::{Kind, FULL, KINDS};
use std::array;
use std::hint::black_box;
use std::time::Duration;

/// The sheets of four halls.
type Group = [Vec<u8>; MOST_HALLS];

/// A listing buffer and a placing buffer for each hall.
#[derive(PartialEq, Eq)]
struct Buffers([(Vec<u8>, Vec<u64>); MOST_HALLS]);

impl Buffers {
    fn new() -> Self {
        Buffers(array::from_fn(|_| {
            (vec![7; PLAN_BUFFER], vec![7; PLACING_WORDS])
        }))
    }
}

/// The groups of a kind, the same for every measure: the sheets that are planned elsewhere, four
/// in a row.
fn groups(kind: Kind, count: usize) -> Vec<Group> {
    let mut sheets = engines::texts(kind, FULL, MOST_HALLS * count).into_iter();
    let mut next = || sheets.next().expect("four sheets for each group");
    (0..count).map(|_| array::from_fn(|_| next())).collect()
}

/// Plans a group, and gives what became of each sheet.
type Call = fn(&Group, &mut Buffers) -> [Planned; MOST_HALLS];

fn together(group: &Group, buffers: &mut Buffers) -> [Planned; MOST_HALLS] {
    behind(MOST_LIMIT, group, buffers)
}

fn behind(limit: u32, group: &Group, Buffers(buffers): &mut Buffers) -> [Planned; MOST_HALLS] {
    let mut halls = group.iter().zip(buffers);
    let lent = array::from_fn(|_| {
        let (sheet, (listing, placing)) = halls.next().expect("there are four");
        Hall {
            sheet,
            listing,
            placing,
        }
    });
    library::plan_halls(limit, MOST_HALLS as u32, lent).hall
}

fn alone(group: &Group, Buffers(buffers): &mut Buffers) -> [Planned; MOST_HALLS] {
    let mut sheets = group.iter().zip(buffers);
    array::from_fn(|_| {
        let (sheet, (listing, placing)) = sheets.next().expect("there are four");
        library::plan_both(sheet, listing, placing)
    })
}

/// Whether both ways give the same answers and the same memory.
fn agree(groups: &[Group]) -> bool {
    let (mut one, mut other) = (Buffers::new(), Buffers::new());
    let same = |group| together(group, &mut one) == alone(group, &mut other) && one == other;
    groups.iter().all(same)
}

/// Whether the call answers and writes what the reference says.
fn is_expected(group: &Group) -> bool {
    let mut buffers = Buffers::new();
    let lent = array::from_fn(|h| halls::Hall {
        sheet: group[h].clone(),
        listing_bytes: PLAN_BUFFER,
        placing_words: PLACING_WORDS,
    });
    let expected = halls::plan_halls(MOST_LIMIT, MOST_HALLS as u32, &lent).halls;
    let answer = together(group, &mut buffers);
    let Buffers(buffers) = buffers;
    let halls = expected.iter().zip(answer).zip(buffers);
    halls.into_iter().all(|((expected, answer), buffers)| {
        let (listing, placing) = buffers;
        (answer.number, answer.line) == (expected.number, expected.line)
            && listing[..answer.length] == expected.listing
            && placing == expected.placing
    })
}

/// The least time of each group, for each way. Each goes through all groups before the other does:
/// right after the other a group would be planned faster, its branches being known.
fn measure(groups: &[Group], calls: [Call; 2]) -> [Times; 2] {
    let mut buffers = Buffers::new();
    let mut least = calls.map(|_| vec![Duration::MAX; groups.len()]);
    for _ in 0..PASSES {
        for (call, least) in calls.iter().zip(&mut least) {
            for (group, least) in groups.iter().zip(least) {
                let taken = time(|| {
                    black_box(call(group, &mut buffers));
                });
                *least = taken.min(*least);
            }
        }
    }
    least.map(Times::of)
}

pub fn run(count: usize, slow: usize) -> Result<(), String> {
    println!("Planning {count} groups of four full sheets of each kind, alone and as halls behind the limit {MOST_LIMIT}:");
    println!("microseconds of processor time a group, the least of {PASSES} passes. {slow} groups of each kind are held to the");
    println!("reference. Times: the median against that of the sheets planned alone.\n");
    println!("| Sheets | Call | Median | 99th percentile | Worst | Times |");
    println!("|---|---|---|---|---|---|");
    for kind in KINDS {
        let groups = groups(kind, count);
        if !agree(&groups) || !groups.iter().take(slow).all(is_expected) {
            return Err(format!(
                "a group of {} sheets is planned in two ways",
                kind.name()
            ));
        }
        let [alone, together] = measure(&groups, [alone, together]);
        let ratio = together.median() / alone.median();
        row(kind.name(), "plan_both, four times", &alone, "1");
        row(kind.name(), "plan_halls", &together, &format!("{ratio:.3}"));
    }
    Ok(())
}

/// Plans each group once: the sheets alone, or as halls behind a limit.
pub fn once(way: &str, kind: Kind, count: usize) -> Option<()> {
    let limit = match way {
        "alone" => None,
        limit => Some(limit.parse().ok()?),
    };
    let mut buffers = Buffers::new();
    for group in groups(kind, count) {
        black_box(match limit {
            Some(limit) => behind(limit, &group, &mut buffers),
            None => alone(&group, &mut buffers),
        });
    }
    Some(())
}
