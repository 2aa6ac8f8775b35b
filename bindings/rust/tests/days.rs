//! The days of document 01 ("Days at the edge"), days with several meals for a tank, days for the placing, for the
//! bill, for the order of plans and for causes, and one with tanks numbered by site, through the safe interface.
use kiwimound::{Bounds, Cause, Ending, Fault, Feeding, Head, Held, Ration, Refusal, Sheet, State};
use std::cmp::Ordering;

/// A sheet from its head numbers and its rations, by the library's writer.
fn sheet(slots: u32, blowers: u32, wake: u32, rations: &[[u32; 4]]) -> Sheet {
    let rations: Vec<Ration> = rations
        .iter()
        .map(|&[tank, first, last, volume]| Ration {
            tank,
            first,
            last,
            volume,
        })
        .collect();
    Sheet::write(
        Head {
            slots,
            blowers,
            wake,
        },
        &rations,
    )
    .expect("a day of document 01 is well-formed")
}

fn four_slots() -> Sheet {
    sheet(4, 2, 2, &[[1, 1, 2, 2], [2, 1, 4, 2], [3, 2, 3, 1]])
}

fn held() -> Sheet {
    sheet(3, 1, 1, &[[1, 1, 2, 2], [2, 2, 3, 2]])
}

fn one_feeding() -> Sheet {
    sheet(3, 1, 1, &[[1, 1, 3, 1]])
}

/// Tank 1 has a morning and an evening meal.
fn two_meals() -> Sheet {
    sheet(10, 2, 3, &[[1, 1, 3, 2], [1, 8, 10, 2], [2, 1, 4, 3]])
}

/// A full day: 96 slots, 8 blowers and 64 rations, which are a morning and an afternoon meal for each of 32 tanks. Each
/// half of the day has 376 feedings, and the blowers can make 384.
fn full_day() -> Sheet {
    let meals = |tank: u32| {
        let volume = 1 + 7 * (tank - 1) % 23;
        [[tank, 1, 48, volume], [tank, 49, 96, volume]]
    };
    let rations: Vec<[u32; 4]> = (1..=32).flat_map(meals).collect();
    sheet(96, 8, 5, &rations)
}

fn stretches(sheet: &Sheet) -> Vec<(u32, u32, u32, State)> {
    sheet
        .plan()
        .unwrap()
        .stretches()
        .iter()
        .map(|s| (s.blower, s.first, s.last, s.state))
        .collect()
}

#[test]
fn written_and_read() {
    let text = "     4     2     2     3
     1     1     2     2
     2     1     4     2
     3     2     3     1
";
    let written = four_slots();
    assert_eq!(written.bytes(), text.as_bytes());
    assert_eq!(Sheet::read(text), Ok(written.clone()));
    assert_eq!(
        written.head(),
        Head {
            slots: 4,
            blowers: 2,
            wake: 2
        }
    );
    assert_eq!(
        written.rations()[1],
        Ration {
            tank: 2,
            first: 1,
            last: 4,
            volume: 2
        }
    );
}

#[test]
fn found_by_tank() {
    let day = four_slots();
    let line = day.find(2).unwrap();
    assert_eq!(line, b"     2     1     4     2\n");
    assert_eq!(line.as_ptr(), day.bytes()[50..].as_ptr());
    assert_eq!(day.find(9), None);
    assert!(held().find(1).is_some());
}

#[test]
fn meals_of_a_tank() {
    let day = two_meals();
    let lines = day.find(1).unwrap();
    assert_eq!(
        lines,
        b"     1     1     3     2\n     1     8    10     2\n"
    );
    assert_eq!(lines.as_ptr(), day.bytes()[25..].as_ptr());
    assert_eq!(day.meals(1), &day.rations()[..2]);
    assert_eq!(day.meals(2), &day.rations()[2..]);
    assert_eq!(day.meals(3), []);
    assert_eq!(sheet(1, 1, 0, &[]).meals(1), []);
    assert_eq!(held().meals(2), &held().rations()[1..]);
}

#[test]
fn parts_count_within_the_meal() {
    let plan = two_meals().plan().unwrap();
    assert_eq!((plan.energy(), plan.starts(), plan.bill()), (16, 3, 29));
    assert_eq!(plan.feedings().len(), 7);
    let fed: Vec<(u32, u32)> = plan
        .feedings()
        .iter()
        .filter(|f| f.tank == 1)
        .map(|f| (f.slot, f.part))
        .collect();
    assert_eq!(fed, [(1, 1), (3, 2), (9, 1), (10, 2)]);
    assert!(plan.is_fed(0, 3) && plan.is_fed(1, 9) && !plan.is_fed(0, 9));
}

#[test]
fn first_listing() {
    let plan = four_slots().plan().unwrap();
    assert_eq!((plan.energy(), plan.starts(), plan.bill()), (9, 2, 16));
    assert_eq!(
        stretches(&four_slots()),
        [
            (1, 1, 4, State::Busy),
            (2, 1, 2, State::Off),
            (2, 3, 3, State::Busy),
            (2, 4, 4, State::Off)
        ]
    );
    let feedings: Vec<[u32; 4]> = plan
        .feedings()
        .iter()
        .map(
            |&Feeding {
                 slot,
                 blower,
                 tank,
                 part,
             }| [slot, blower, tank, part],
        )
        .collect();
    assert_eq!(
        feedings,
        [
            [1, 1, 1, 1],
            [2, 1, 1, 2],
            [3, 1, 2, 1],
            [3, 2, 3, 1],
            [4, 1, 2, 2]
        ]
    );
    assert_eq!([1, 2, 3, 4].map(|t| plan.count(t)), [1, 1, 2, 1]);
    for (ration, fed) in [[1, 1, 0, 0], [0, 0, 1, 1], [0, 0, 1, 0]]
        .iter()
        .enumerate()
    {
        for slot in 0..=97 {
            let expected = (1..=4).contains(&slot) && fed[slot as usize - 1] == 1;
            assert_eq!(
                plan.is_fed(ration, slot),
                expected,
                "ration {ration}, slot {slot}"
            );
        }
    }
    assert!(!plan.is_fed(3, 1) && !plan.is_fed(64, 1) && !plan.is_fed(usize::MAX, u32::MAX));
    assert!(plan
        .listing()
        .starts_with(b"PLAN\n     9     2     4     5\n"));
    assert!(plan.listing().ends_with(b"\n     0    16     0     0\n"));
    assert_eq!(plan.listing().len(), 5 + 25 * (1 + 4 + 5 + 1));
}

/// What a plan says of each slot, whether the day has it or not, beside the feed lines.
#[test]
fn placing_of_the_feed_lines() {
    let days = [four_slots(), one_feeding(), two_meals(), full_day()];
    for day in days.into_iter().chain([sheet(3, 1, 4, &[])]) {
        let plan = day.plan().unwrap();
        // the windows of a tank's meals don't overlap, so a slot tells the meal
        let ration_of = |f: &Feeding| {
            let is_fed = |r: &Ration| r.tank == f.tank && (r.first..=r.last).contains(&f.slot);
            day.rations().iter().position(is_fed).unwrap()
        };
        for slot in (0..=200).chain([u32::MAX - 1, u32::MAX]) {
            let lines = || plan.feedings().iter().filter(|f| f.slot == slot);
            let tanks: Vec<u32> = lines().map(|f| f.tank).collect();
            let rations: Vec<usize> = lines().map(ration_of).collect();
            assert_eq!(plan.tanks_in(slot).collect::<Vec<_>>(), tanks);
            assert_eq!(plan.rations_in(slot).collect::<Vec<_>>(), rations);
            assert_eq!(plan.count(slot), tanks.len());
            for ration in (0..200).chain([usize::MAX - 1, usize::MAX]) {
                assert_eq!(
                    plan.is_fed(ration, slot),
                    rations.contains(&ration),
                    "ration {ration}, slot {slot}"
                );
            }
        }
    }
}

#[test]
fn rations_and_tanks_of_a_slot() {
    let days = [four_slots(), two_meals(), full_day()];
    let [first, meals, full] = days.map(|day| day.plan().unwrap());
    assert!(first.rations_in(3).eq([1, 2]) && first.tanks_in(3).eq([2, 3]));
    // the meals of tank 1 are the rations 0 and 1
    assert!(meals.rations_in(3).eq([0, 2]) && meals.tanks_in(3).eq([1, 2]));
    assert!(meals.rations_in(9).eq([1]) && meals.tanks_in(9).eq([1]));
    // ration 63 has the last bit of a word
    assert!((49..=96).any(|slot| full.rations_in(slot).any(|ration| ration == 63)));
    for slot in [0, 5, 97, u32::MAX] {
        assert_eq!(
            (first.rations_in(slot).count(), first.tanks_in(slot).count()),
            (0, 0)
        );
        assert!(!first.is_fed(0, slot) && first.count(slot) == 0);
    }
    for ration in [3, 64, 65, usize::MAX] {
        assert!((1..=4).all(|slot| !first.is_fed(ration, slot)));
    }
}

#[test]
fn held_for_want_of_blowers() {
    let expected = Held {
        slots: vec![2],
        forced: 2,
        capacity: 1,
    };
    assert_eq!(held().plan(), Err(expected.clone()));
    assert_eq!(expected.to_string(), "held: forced 2, capacity 1, slots 2");
    assert!(!held().can_be_planned() && four_slots().can_be_planned());
}

#[test]
fn shortfalls() {
    assert_eq!(held().shortfall(|t| t == 1), 0);
    assert_eq!(held().shortfall(|_| true), 1);
    assert_eq!(four_slots().shortfall(|t| t == 4), -2);
}

#[test]
fn nearest_deadline_fails_here() {
    let plan = sheet(3, 2, 1, &[[1, 1, 2, 1], [2, 1, 2, 1], [3, 1, 3, 3]])
        .plan()
        .unwrap();
    assert_eq!(plan.energy(), 7);
    let fed: Vec<(u32, u32)> = plan.feedings().iter().map(|f| (f.slot, f.tank)).collect();
    assert_eq!(fed, [(1, 1), (1, 3), (2, 2), (2, 3), (3, 3)]);
}

#[test]
fn energies() {
    for wake in [3, 4] {
        let empty = sheet(3, 1, wake, &[]);
        let plan = empty.plan().unwrap();
        assert_eq!((plan.energy(), plan.starts()), (0, 0));
        assert_eq!(stretches(&empty), [(1, 1, 3, State::Off)]);
    }
    for (wake, energy) in [(200, 201), (2_000, 2_001)] {
        let plan = sheet(1, 1, wake, &[[1, 1, 1, 1]]).plan().unwrap();
        assert_eq!(plan.energy(), energy);
    }
    assert_eq!(one_feeding().plan().unwrap().energy(), 2);
    assert_eq!(
        stretches(&one_feeding()),
        [(1, 1, 2, State::Off), (1, 3, 3, State::Busy)]
    );
    let ends = [[1, 1, 1, 1], [2, 3, 3, 1]];
    assert_eq!(sheet(3, 1, 2, &ends).plan().unwrap().energy(), 5);
    assert_eq!(sheet(3, 1, 1, &ends).plan().unwrap().energy(), 4);
}

/// Each day's tenths of a cent beside its whole cents.
#[test]
fn bills() {
    let bill = |day: Sheet| day.plan().unwrap().bill();
    // nothing is on
    assert_eq!(bill(sheet(3, 1, 4, &[])), 0);
    // slot 25 is the first at 31: 4 × 18 + 4 × 31 = 196
    assert_eq!(bill(sheet(25, 1, 3, &[[1, 1, 1, 1], [2, 25, 25, 1]])), 20);
    // slots 20 to 28 are on, of which 23 to 26 are idle: 9 × 18 + 5 × 18 + 4 × 31 = 376
    assert_eq!(bill(sheet(30, 1, 9, &[[1, 20, 22, 3], [2, 27, 28, 2]])), 38);
    // the day's 96 slots: 432 + 372 + 768 + 576 + 264 = 2,412
    assert_eq!(bill(sheet(96, 1, 0, &[[1, 1, 96, 96]])), 241);
    // halves: 31 + 24 = 55, and 5 × 31 + 32 × 24 + 2 × 36 = 995
    assert_eq!(bill(sheet(37, 1, 0, &[[1, 36, 37, 2]])), 6);
    assert_eq!(bill(sheet(70, 1, 0, &[[1, 32, 70, 39]])), 100);
    // two blowers, 54 each
    assert_eq!(bill(sheet(3, 2, 0, &[[1, 1, 3, 3], [2, 1, 3, 3]])), 11);
    // eight blowers, 2,412 + 200 × 18 each, and 2,412 + 2,000 × 18
    let whole_day = [1, 2, 3, 4, 5, 6, 7, 8].map(|tank| [tank, 1, 96, 96]);
    assert_eq!(bill(sheet(96, 8, 200, &whole_day)), 4_810);
    assert_eq!(bill(sheet(96, 8, 2_000, &whole_day)), 30_730);
}

#[test]
fn under_bounds() {
    let day = one_feeding();
    let with = |lows: [u32; 3], highs: [u32; 3]| {
        day.fits(|t| Bounds {
            low: lows[t as usize - 1],
            high: highs[t as usize - 1],
        })
    };
    assert!(with([0, 0, 0], [1, 1, 1]));
    assert!(with([0, 0, 1], [9, 9, u32::MAX]));
    assert!(!with([1, 1, 0], [1, 1, 1]));
    assert!(!with([0, 1, 0], [0, 0, 1]));
    assert!(!held().fits(|_| Bounds { low: 0, high: 8 }));
}

/// Plans from the first to the last, each as the tanks that it feeds, slot by slot.
const PLANS: [&[&[u32]]; 25] = [
    &[&[]],
    &[&[1, 2, 3, 4, 5, 6, 7]], // it ends before the next
    &[&[1, 2, 3, 4, 5, 6, 7, 8]],
    &[&[1, 2, 3, 4, 5, 6, 7, 9]],
    &[&[4]], // fewer tanks, but the lists above begin with a smaller one
    &[&[4, 9]],
    &[&[5]],
    &[&[], &[]],
    &[&[1], &[3]],
    &[&[3], &[1]], // in slot 2 it would come first
    &[&[5], &[6]], // ration 1 in slot 1, where the plan above has ration 2
    &[&[9], &[9]],
    &[&[], &[], &[]], // D alone puts it after all above
    &[&[], &[], &[1]],
    &[&[], &[], &[7]], // the counts of the plan above
    &[&[1], &[], &[]],
    &[&[1], &[], &[2]],
    &[&[1, 3], &[2, 3], &[3]],
    &[&[2], &[], &[]],
    &[&[2, 3], &[1, 3], &[3]],
    &[&[], &[], &[1], &[]], // D alone differs from feeding tank 1 in slot 3 of three
    &[&[1], &[1], &[2], &[2]],
    &[&[1], &[1], &[2, 3], &[2]], // in slot 3 the list above ends first
    &[&[1], &[1], &[2, 3], &[3]], // slot 4 alone differs, and not in its count
    &[&[1], &[2], &[1, 2], &[2], &[], &[], &[], &[], &[1], &[1]],
];

/// A sheet with this plan: each feeding is a meal with a window of one slot, so that nothing is left to choose.
fn sheet_of(plan: &[&[u32]]) -> Sheet {
    let mut rations = Vec::new();
    for (slot, tanks) in (1..).zip(plan) {
        rations.extend(tanks.iter().map(|&tank| [tank, slot, slot, 1]));
    }
    rations.sort();
    let blowers = plan.iter().map(|tanks| tanks.len()).max().unwrap().max(1);
    sheet(plan.len() as u32, blowers as u32, 0, &rations)
}

/// The tanks that a sheet's plan feeds, slot by slot.
fn fed(sheet: &Sheet) -> Vec<Vec<u32>> {
    let plan = sheet.plan().unwrap();
    let slots = 1..=sheet.head().slots;
    slots.map(|slot| plan.tanks_in(slot).collect()).collect()
}

#[test]
fn compared() {
    let last_slot = sheet(3, 1, 200, &[[7, 3, 3, 1]]);
    assert_eq!(one_feeding().compare(&last_slot), Some(Ordering::Less));
    assert_eq!(last_slot.compare(&one_feeding()), Some(Ordering::Greater));
    for (i, plan) in PLANS.iter().enumerate() {
        let day = sheet_of(plan);
        assert_eq!(fed(&day), *plan);
        for (j, other) in PLANS.iter().enumerate() {
            let order = day.compare(&sheet_of(other));
            assert_eq!(order, Some(i.cmp(&j)), "{plan:?} and {other:?}");
        }
    }
}

/// Sheets with other windows, meals, blowers and wake costs have plans of the list above.
#[test]
fn same_from_other_sheets() {
    let days = [
        (6, sheet(1, 8, 200, &[[5, 1, 1, 1]])),
        (11, sheet(2, 1, 0, &[[9, 1, 2, 2]])),
        (13, one_feeding()),
        (13, sheet(3, 2, 200, &[[1, 2, 3, 1]])),
        (
            17,
            sheet(3, 2, 1, &[[1, 1, 2, 1], [2, 1, 2, 1], [3, 1, 3, 3]]),
        ),
        (22, four_slots()),
        (24, two_meals()),
    ];
    for (place, day) in days {
        assert_eq!(fed(&day), PLANS[place]);
        for (i, plan) in PLANS.iter().enumerate() {
            assert_eq!(day.compare(&sheet_of(plan)), Some(place.cmp(&i)));
            assert_eq!(sheet_of(plan).compare(&day), Some(i.cmp(&place)));
        }
    }
    // the energy is no part of it
    let costly = sheet(3, 1, 200, &[[1, 1, 3, 1]]);
    assert_ne!(costly.plan(), one_feeding().plan());
    assert_eq!(costly.compare(&one_feeding()), Some(Ordering::Equal));
}

#[test]
fn no_order_with_a_held_sheet() {
    for plan in PLANS {
        assert_eq!(sheet_of(plan).compare(&held()), None);
        assert_eq!(held().compare(&sheet_of(plan)), None);
    }
    assert_eq!(held().compare(&held()), None);
}

/// The order is that of the slots and then of the lists, as they compare in Rust; it is total, and sorts sheets.
#[test]
fn sorted_by_their_plans() {
    let practice = (0..).map(Sheet::practice).filter(Sheet::can_be_planned);
    let mut days = vec![full_day(), two_meals(), four_slots(), one_feeding()];
    days.extend(PLANS.iter().rev().map(|plan| sheet_of(plan)));
    days.extend(practice.take(8));
    let order_of = |a: &Sheet, b: &Sheet| a.compare(b).unwrap();
    let orders_of = |a: &Sheet| days.iter().map(|b| order_of(a, b)).collect();
    let orders: Vec<Vec<Ordering>> = days.iter().map(orders_of).collect();
    let plan_of = |day: &Sheet| (day.head().slots, fed(day));
    let plans: Vec<_> = days.iter().map(plan_of).collect();
    for a in 0..days.len() {
        for b in 0..days.len() {
            assert_eq!(orders[a][b], plans[a].cmp(&plans[b]));
            assert_eq!(orders[a][b], orders[b][a].reverse());
            for c in 0..days.len() {
                // a not after b, and b not after c
                if orders[a][b].is_le() && orders[b][c].is_le() {
                    assert_eq!(orders[a][c], orders[a][b].then(orders[b][c]));
                }
            }
        }
    }
    let mut sorted = days.clone();
    sorted.sort_by(order_of);
    days.sort_by_key(plan_of);
    assert_eq!(sorted, days);
}

/// The endings of a day whose listing is not cut; it has a line for each, and one for each of its slots.
fn endings(sheet: &Sheet) -> Vec<Ending> {
    let causes = sheet.causes().unwrap();
    assert!(!causes.is_cut());
    let lines = causes.endings().iter().map(|e| 1 + e.cause.slots().len());
    assert_eq!(causes.listing().len(), 25 * lines.sum::<usize>());
    causes.endings().to_vec()
}

fn ending(blower: u32, last: u32, cause: Cause) -> Ending {
    Ending {
        blower,
        last,
        cause,
    }
}

fn shortfall(slots: &[u32]) -> Cause {
    let slots = slots.to_vec();
    Cause::Shortfall { slots }
}

fn excess(slots: &[u32]) -> Cause {
    let slots = slots.to_vec();
    Cause::Excess { slots }
}

#[test]
fn causes_of_the_first_listing() {
    assert_eq!(
        endings(&four_slots()),
        [
            ending(2, 2, shortfall(&[1, 2, 3])),
            ending(2, 3, excess(&[4])),
            ending(1, 0, shortfall(&[1]))
        ]
    );
    let causes = four_slots().causes().unwrap();
    assert!(causes.listing().starts_with(b"     2     2     1     3\n"));
    let numbers: Vec<u32> = causes.endings().iter().map(|e| e.cause.number()).collect();
    assert_eq!(numbers, [1, 2, 1]);
}

#[test]
fn causes_of_each_kind() {
    let crossed = sheet(1, 2, 1, &[[1, 1, 1, 1], [2, 1, 1, 1]]);
    let low_above_high = Cause::LowAboveHigh { slot: 1 };
    assert_eq!(
        (low_above_high.number(), low_above_high.slots()),
        (3, &[1][..])
    );
    assert_eq!(
        endings(&crossed),
        [
            ending(2, 0, shortfall(&[1])),
            ending(1, 0, low_above_high.clone())
        ]
    );
    // slot 3 alone lacks one feeding, slots 2 and 3 together two
    let narrow = [[1, 1, 1, 1], [2, 1, 1, 1], [3, 2, 3, 1], [4, 2, 2, 1]];
    assert_eq!(
        endings(&sheet(3, 2, 0, &narrow)),
        [
            ending(2, 0, shortfall(&[1])),
            ending(2, 2, excess(&[2, 3])),
            ending(1, 0, low_above_high),
            ending(1, 2, excess(&[2, 3]))
        ]
    );
    // no stretch ends before the last slot
    assert_eq!(endings(&sheet(3, 1, 4, &[])), []);
}

/// Each stretch of the plan that ends before the last slot has an ending, and so has a blower that is busy from slot 1.
#[test]
fn causes_of_the_plan_s_own_stretches() {
    for day in [four_slots(), one_feeding(), two_meals()] {
        let Head { slots, blowers, .. } = day.head();
        let plan = day.plan().unwrap();
        let mut expected = Vec::new();
        for blower in (1..=blowers).rev() {
            for s in plan.stretches().iter().filter(|s| s.blower == blower) {
                if s.first == 1 && s.state == State::Busy {
                    expected.push((blower, 0));
                }
                if s.last < slots {
                    expected.push((blower, s.last));
                }
            }
        }
        let listed: Vec<_> = endings(&day).iter().map(|e| (e.blower, e.last)).collect();
        assert_eq!(listed, expected);
    }
}

#[test]
fn no_causes_of_a_held_sheet() {
    assert_eq!(held().causes().unwrap_err(), held().plan().unwrap_err());
}

/// Seven blowers have a ration each in slot 1 and in three slots late in the day, six of them in slot 82, and two in
/// slot 96; seven rations have the whole day. The slots that they feed are in the set of every busy stretch, so that
/// the listing would have 2,622 lines, one more than there is room for.
#[test]
fn causes_cut() {
    let mut rations = vec![[0, 1, 96, 73]; 7];
    for slot in [1, 76, 78, 80] {
        rations.extend([[0, slot, slot, 1]; 7]);
    }
    rations.extend([[0, 82, 82, 1]; 6]);
    rations.extend([[0, 96, 96, 1]; 2]);
    for (ration, tank) in rations.iter_mut().zip(1..) {
        ration[0] = tank;
    }
    let causes = sheet(96, 7, 1, &rations).causes().unwrap();
    assert!(causes.is_cut());
    assert_eq!(causes.listing().len(), 25 * 2_620);
    let last = causes.endings().last().unwrap();
    let slots: Vec<u32> = (2..=74).chain([83]).collect();
    assert_eq!(*last, ending(1, 82, Cause::Excess { slots }));
    // one ration less, and the last entry fits
    let fewer = sheet(96, 7, 1, &rations[..42]).causes().unwrap();
    assert!(!fewer.is_cut());
    assert_eq!(fewer.listing().len(), 25 * 2_620);
    assert_eq!(fewer.endings().last().unwrap().last, 95);
}

#[test]
fn refused() {
    let read = |text: &str| Sheet::read(text).unwrap_err();
    let refusal = |fault, line| Refusal { fault, line };
    assert_eq!(read(""), refusal(Fault::Length, 0));
    assert_eq!(read("     3     1     1     0 "), refusal(Fault::Field, 1));
    assert_eq!(read("    97     1     1     0\n"), refusal(Fault::Slots, 1));
    assert_eq!(
        read("     3     9     1     0\n"),
        refusal(Fault::Blowers, 1)
    );
    assert_eq!(read("     3     1  2001     0\n"), refusal(Fault::Wake, 1));
    assert_eq!(
        read("     3     1     1     1\n"),
        refusal(Fault::Rations, 1)
    );
    assert_eq!(
        read("     3     1     1     1\n     0     1     3     1\n"),
        refusal(Fault::Tank, 2)
    );
    assert_eq!(
        read("     3     1     1     1\n     1     1     4     1\n"),
        refusal(Fault::Window, 2)
    );
    assert_eq!(
        read("     3     1     1     1\n     1     1     3     4\n"),
        refusal(Fault::Volume, 2)
    );
    assert_eq!(
        read("     3     1     1     2\n     2     1     1     1\n     1     2     3     1\n"),
        refusal(Fault::Tank, 3)
    );
    let meal =
        read("     3     1     1     2\n     2     1     2     1\n     2     2     3     1\n");
    assert_eq!(meal, refusal(Fault::Meal, 3));
    assert_eq!(
        meal.to_string(),
        "refused, number 13, line 3: the meal begins at or before the end of the same tank's preceding window"
    );
    assert_eq!(
        read("     3     1     1     1\n     1     1     4     1\n").to_string(),
        "refused, number 8, line 2: the window breaks 1 ≤ first ≤ last ≤ slots"
    );
    let head = Head {
        slots: 3,
        blowers: 1,
        wake: 1,
    };
    let ration = Ration {
        tank: 1,
        first: 1,
        last: 3,
        volume: 0,
    };
    assert_eq!(
        Sheet::write(head, &[ration]),
        Err(refusal(Fault::Volume, 2))
    );
    assert_eq!(
        Sheet::write(head, &[ration; 65]),
        Err(refusal(Fault::Rations, 1))
    );
    let whole_day = Ration {
        volume: 1,
        ..ration
    };
    assert_eq!(
        Sheet::write(head, &[whole_day; 2]),
        Err(refusal(Fault::Meal, 3))
    );
}

/// Tanks numbered by site and pond, up to the greatest number, and blowers whose start takes 1,500 units. Tanks 101004
/// and 250000 take all slots of their windows; tank 249912 is fed in slot 3, and tank 101005 in slots 6 and 8. Blower 1
/// stays on in slots 4 and 5, and blower 2 has the second feeding of slot 8: energy 9 + 2 × 1,500, at 18 tenths of a
/// cent.
#[test]
fn tanks_numbered_by_site() {
    let day = Sheet::read(include_str!("../../../examples/site_tanks.sheet")).unwrap();
    let rations = [
        [101_004, 1, 2, 2],
        [101_005, 6, 8, 2],
        [249_912, 1, 3, 1],
        [250_000, 7, 8, 2],
    ];
    assert_eq!(day, sheet(8, 2, 1_500, &rations));
    assert_eq!(day.find(250_000).unwrap(), b"250000     7     8     2\n");
    assert_eq!(day.meals(101_005), &day.rations()[1..2]);
    let plan = day.plan().unwrap();
    assert_eq!(
        (plan.energy(), plan.starts(), plan.bill()),
        (3_009, 2, 5_416)
    );
    assert_eq!(
        stretches(&day),
        [
            (1, 1, 3, State::Busy),
            (1, 4, 5, State::IdleOn),
            (1, 6, 8, State::Busy),
            (2, 1, 7, State::Off),
            (2, 8, 8, State::Busy)
        ]
    );
    let slots: [&[u32]; 8] = [
        &[101_004],
        &[101_004],
        &[249_912],
        &[],
        &[],
        &[101_005],
        &[250_000],
        &[101_005, 250_000],
    ];
    assert_eq!(fed(&day), slots);
    let last = plan.feedings().last().unwrap();
    assert_eq!((last.blower, last.tank, last.part), (2, 250_000, 2));
    // there is no blank between the blower and the tank
    let end = b"\n     8     2250000     2\n    54    16     0     0\n";
    assert!(plan.listing().ends_with(end));
    assert_eq!(
        endings(&day),
        [
            ending(2, 7, shortfall(&[7, 8])),
            ending(1, 0, shortfall(&[1])),
            ending(1, 3, excess(&[4])),
            ending(1, 5, shortfall(&[6, 7]))
        ]
    );
}

#[test]
fn greatest_wake_cost_and_tank() {
    let write = |wake, tank| {
        let head = Head {
            slots: 1,
            blowers: 1,
            wake,
        };
        let ration = Ration {
            tank,
            first: 1,
            last: 1,
            volume: 1,
        };
        Sheet::write(head, &[ration])
    };
    let read = |wake: u32, tank: u32| {
        let text = format!("     1     1{wake:6}     1\n{tank:6}     1     1     1\n");
        Sheet::read(text)
    };
    let day = write(2_000, 250_000).unwrap();
    let text = "     1     1  2000     1\n250000     1     1     1\n";
    assert_eq!(day.bytes(), text.as_bytes());
    assert_eq!(read(2_000, 250_000).as_ref(), Ok(&day));
    assert_eq!(day.plan().unwrap().energy(), 2_001);
    let bad_wake = Refusal {
        fault: Fault::Wake,
        line: 1,
    };
    let bad_tank = Refusal {
        fault: Fault::Tank,
        line: 2,
    };
    for wake in [2_001, 999_999] {
        assert_eq!(write(wake, 1), Err(bad_wake));
        assert_eq!(read(wake, 1), Err(bad_wake));
    }
    for tank in [250_001, 999_999] {
        assert_eq!(write(2_000, tank), Err(bad_tank));
        assert_eq!(read(2_000, tank), Err(bad_tank));
    }
    assert_eq!(write(2_000, 1_000_000), Err(bad_tank));
    assert_eq!(
        read(2_001, 1).unwrap_err().to_string(),
        "refused, number 5, line 1: the wake cost is above 2,000"
    );
    assert_eq!(
        read(2_000, 250_001).unwrap_err().to_string(),
        "refused, number 7, line 2: the tank is not 1 to 250,000 or below the tank before it"
    );
}

/// Lines of 21 bytes, with four fields of five columns: 25 divides the length of 25 and of 50 of them alone, and then
/// the first line has byte 10 in a field.
#[test]
fn five_columns_are_refused() {
    for n in 0..=64 {
        let mut text = format!("{:5}{:5}{:5}{n:5}\n", 96, 8, 5);
        for tank in 1..=n {
            text += &format!("{tank:5}{:5}{:5}{:5}\n", 1, 96, 1);
        }
        assert_eq!(text.len(), 21 * (n + 1));
        let (fault, line) = match n + 1 {
            25 | 50 => (Fault::Field, 1),
            _ => (Fault::Length, 0),
        };
        assert_eq!(Sheet::read(text), Err(Refusal { fault, line }));
    }
}

#[test]
fn threads_share_a_sheet() {
    let day = four_slots();
    let plans: Vec<_> = std::thread::scope(|s| {
        let runs: Vec<_> = (0..4).map(|_| s.spawn(|| day.plan().unwrap())).collect();
        runs.into_iter().map(|r| r.join().unwrap()).collect()
    });
    assert!(plans.iter().all(|p| *p == day.plan().unwrap()));
}
