//! Halls that share a limit, through the safe interface.
use kiwimound::{plan_halls, HallsRefusal, Held, Plan, Sheet};

const FOUR_SLOTS: &str = "     4     2     2     3
     1     1     2     2
     2     1     4     2
     3     2     3     1
";
const ONE_FEEDING: &str = "     3     1     1     1\n     1     1     3     1\n";
/// Held alone.
const HELD: &str = "     3     1     1     2\n     1     1     2     2\n     2     2     3     2\n";
const LATE_FEEDING: &str = "     3     1     1     1\n     5     2     3     1\n";
const TWO_FEEDINGS: &str =
    "     4     2     0     2\n     1     1     4     1\n     2     1     4     1\n";

fn sheets(texts: &[&str]) -> Vec<Sheet> {
    let read = |text: &&str| Sheet::read(*text).unwrap();
    texts.iter().map(read).collect()
}

fn planned(limit: u32, texts: &[&str]) -> Vec<Result<Plan, Held>> {
    plan_halls(limit, &sheets(texts)).unwrap()
}

/// How many feedings each of the first four slots holds; none where the hall is held.
fn counts(halls: &[Result<Plan, Held>]) -> Vec<[usize; 4]> {
    let count = |hall: &Result<Plan, Held>, slot| hall.as_ref().map_or(0, |plan| plan.count(slot));
    let of_hall = |hall| [1, 2, 3, 4].map(|slot| count(hall, slot));
    halls.iter().map(of_hall).collect()
}

/// Two blowers for four halls. The first takes 1, 1, 2 and 1; the second, fed in slot 3 if planned alone, is left slots
/// 1 and 2; the third finds no blower in its window and takes none, so that the fourth has what the first two left.
#[test]
fn four_halls() {
    let days = planned(2, &[FOUR_SLOTS, ONE_FEEDING, LATE_FEEDING, TWO_FEEDINGS]);
    assert_eq!(
        counts(&days),
        [[1, 1, 2, 1], [0, 1, 0, 0], [0, 0, 0, 0], [1, 0, 0, 1]]
    );
    assert_eq!(
        days[1].as_ref().unwrap().listing(),
        b"PLAN
     2     1     3     1
     1     1     1     0
     1     2     2     2
     1     3     3     0
     2     1     1     1
     0     4     0     0
"
    );
    let expected = Held {
        slots: vec![2, 3],
        forced: 1,
        capacity: 0,
    };
    assert_eq!(days[2], Err(expected));
    let last = days[3].as_ref().unwrap();
    assert!(last.tanks_in(1).eq([1]) && last.tanks_in(4).eq([2]));
    assert_eq!((last.energy(), last.starts(), last.bill()), (2, 2, 4));
}

#[test]
fn in_the_order_of_the_slice() {
    let days = planned(2, &[FOUR_SLOTS, ONE_FEEDING]);
    assert_eq!(counts(&days), [[1, 1, 2, 1], [0, 1, 0, 0]]);
    let days = planned(2, &[ONE_FEEDING, FOUR_SLOTS]);
    assert_eq!(counts(&days), [[0, 0, 1, 0], [1, 2, 1, 1]]);
}

/// Neither a held hall takes a blower, nor one whose day is over.
#[test]
fn what_is_not_taken() {
    let one_slot = "     1     1     0     1\n     9     1     1     1\n";
    let days = planned(1, &[HELD, FOUR_SLOTS, one_slot, ONE_FEEDING]);
    let [first, second] = [&days[0], &days[1]].map(|day| day.as_ref().unwrap_err());
    assert_eq!((first.forced, first.capacity), (2, 1));
    assert_eq!(first.slots, [2]);
    assert_eq!((second.forced, second.capacity), (4, 3));
    assert_eq!(second.slots, [1, 2, 3]);
    assert_eq!(counts(&days[2..]), [[1, 0, 0, 0], [0, 0, 1, 0]]);
}

#[test]
fn refused() {
    let day = Sheet::read(ONE_FEEDING).unwrap();
    for (limit, halls) in [
        (0, 1),
        (33, 1),
        (256 + 8, 2),
        (u32::MAX, 4),
        (0, 0),
        (1, 0),
        (32, 5),
        (8, 256 + 2),
    ] {
        let refusal = plan_halls(limit, &vec![&day; halls]).unwrap_err();
        assert_eq!(refusal, HallsRefusal { limit, halls });
        assert_eq!(refusal.number(), 14);
    }
    assert_eq!(
        plan_halls(33, &[day]).unwrap_err().to_string(),
        "refused, number 14: the limit, 33, is not 1 to 32, or the halls, 1, are not 1 to 4"
    );
}

/// Practice sheets in groups of four, behind limits up to twice the blowers of one hall.
fn practice_groups() -> impl Iterator<Item = (u32, Vec<Sheet>)> {
    let sheets = |group| {
        (0..4)
            .map(|hall| Sheet::practice(4 * group + hall))
            .collect()
    };
    (0..48).map(move |group| (1 + group % 16, sheets(group)))
}

/// No slot has more busy blowers than the limit, nor a hall more than its own, and some slots have as many as the
/// limit. Each ration of a planned hall has its volume in its window.
#[test]
fn within_the_limit() {
    let (mut at_limit, mut held_by_limit) = (0, 0);
    for (limit, sheets) in practice_groups() {
        let mut used = [0; 96];
        for (sheet, day) in sheets.iter().zip(plan_halls(limit, &sheets).unwrap()) {
            let Ok(plan) = day else {
                held_by_limit += u32::from(sheet.can_be_planned());
                continue;
            };
            for (slot, used) in (1..).zip(&mut used) {
                assert!(plan.count(slot) <= sheet.head().blowers as usize);
                *used += plan.count(slot);
            }
            for (i, ration) in sheet.rations().iter().enumerate() {
                let fed = (ration.first..=ration.last).filter(|&slot| plan.is_fed(i, slot));
                assert_eq!(fed.count() as u32, ration.volume);
            }
        }
        assert!(used.iter().all(|&used| used <= limit as usize));
        at_limit += used.iter().filter(|&&used| used == limit as usize).count();
    }
    assert!(
        at_limit > 100 && held_by_limit > 10,
        "{at_limit} {held_by_limit}"
    );
}

/// Four halls have 32 blowers at most, so that this limit leaves each of them all its own.
#[test]
fn as_alone_behind_the_greatest_limit() {
    for (_, sheets) in practice_groups() {
        let alone: Vec<_> = sheets.iter().map(Sheet::plan).collect();
        assert_eq!(plan_halls(32, &sheets), Ok(alone));
    }
}

#[test]
fn earlier_halls_do_not_change() {
    for (limit, sheets) in practice_groups() {
        let days = plan_halls(limit, &sheets).unwrap();
        for count in 1..4 {
            let first = plan_halls(limit, &sheets[..count]).unwrap();
            assert_eq!(first, days[..count]);
            let mut others: Vec<&Sheet> = sheets[..count].iter().collect();
            others.resize(4, &sheets[0]);
            assert_eq!(plan_halls(limit, &others).unwrap()[..count], days[..count]);
        }
    }
}

/// Without the halls that are held the others are planned as with them.
#[test]
fn held_halls_take_nothing() {
    for (limit, sheets) in practice_groups() {
        let days = plan_halls(limit, &sheets).unwrap();
        let with_plan = sheets.iter().zip(&days).filter(|(_, day)| day.is_ok());
        let (sheets, plans): (Vec<&Sheet>, Vec<_>) = with_plan.unzip();
        if !sheets.is_empty() {
            let again = plan_halls(limit, &sheets).unwrap();
            assert!(again.iter().eq(plans));
        }
    }
}
