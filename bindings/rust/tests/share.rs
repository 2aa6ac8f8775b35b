//! Rations equally cut, through the safe interface.
use kiwimound::{Head, Plan, Ration, Sheet};

const FOUR_SLOTS: &str = "     4     2     2     3
     1     1     2     2
     2     1     4     2
     3     2     3     1
";
const HELD: &str = "     3     1     1     2\n     1     1     2     2\n     2     2     3     2\n";
/// Held in slots 1 to 5, where 15 feedings are forced and 10 can be made.
const SHORT: &str = "    10     2     3     5
     1     1     5     5
     2     2     2     1
     3     1     5     5
     4     1     5     4
     4     8    10     3
";

fn planned(text: &str) -> (u32, Plan) {
    Sheet::read(text).unwrap().plan_share()
}

/// So many rations alike: their windows are the whole day, and their volume is the same.
fn alike(slots: u32, blowers: u32, count: u32, volume: u32) -> Sheet {
    let ration = |tank| Ration {
        tank,
        first: 1,
        last: slots,
        volume,
    };
    let rations: Vec<Ration> = (1..=count).map(ration).collect();
    let head = Head {
        slots,
        blowers,
        wake: 1,
    };
    Sheet::write(head, &rations).unwrap()
}

/// In how many slots each ration is fed.
fn fed(sheet: &Sheet, plan: &Plan) -> Vec<u32> {
    let slots = |ration| (1..=96).filter(move |&slot| plan.is_fed(ration, slot));
    let rations = 0..sheet.rations().len();
    rations.map(|i| slots(i).count() as u32).collect()
}

/// The volumes of a sheet at a share.
fn cut_volumes(sheet: &Sheet, share: u32) -> Vec<u32> {
    let cut = |ration: &Ration| ration.volume * share / 100;
    sheet.rations().iter().map(cut).collect()
}

/// The sheet of a share, without the rations that are cut to 0, which a sheet can't have.
fn cut_sheet(sheet: &Sheet, share: u32) -> Sheet {
    let rations = sheet.rations().iter().zip(cut_volumes(sheet, share));
    let cut = rations.map(|(ration, volume)| Ration { volume, ..*ration });
    let fed: Vec<Ration> = cut.filter(|ration| ration.volume > 0).collect();
    Sheet::write(sheet.head(), &fed).unwrap()
}

#[test]
fn the_first_sheet_is_not_cut() {
    let (share, plan) = planned(FOUR_SLOTS);
    assert_eq!(share, 100);
    assert_eq!(Ok(plan), Sheet::read(FOUR_SLOTS).unwrap().plan());
}

/// Share 99 leaves one feeding of each ration, 1.98 rounded down.
#[test]
fn the_held_sheet_at_99() {
    let (share, plan) = planned(HELD);
    assert_eq!(share, 99);
    assert_eq!(
        plan.listing(),
        b"PLAN
     3     1     2     2
     1     1     1     0
     1     2     3     2
     2     1     1     1
     3     1     2     1
     0     5     0     0
"
    );
    assert!(plan.is_fed(0, 2) && plan.is_fed(1, 3));
    assert_eq!((plan.energy(), plan.starts(), plan.bill()), (3, 1, 5));
}

/// At share 80 tanks 1 and 3 would keep a feeding more, and slots 1 to 5 would have eleven. The ration of tank 2 is not
/// fed, and those after it keep their places.
#[test]
fn a_ration_that_is_not_fed() {
    let sheet = Sheet::read(SHORT).unwrap();
    let (share, plan) = sheet.plan_share();
    assert_eq!(share, 79);
    assert_eq!(fed(&sheet, &plan), [3, 0, 3, 3, 2]);
    let tanks: Vec<Vec<u32>> = (1..=10).map(|t| plan.tanks_in(t).collect()).collect();
    let expected: [&[u32]; 10] = [
        &[1],
        &[1, 3],
        &[1, 4],
        &[3, 4],
        &[3, 4],
        &[],
        &[],
        &[],
        &[4],
        &[4],
    ];
    assert_eq!(tanks, expected);
    assert!(plan.rations_in(10).eq([4]));
    let parts = plan.feedings().iter().filter(|f| f.tank == 4);
    assert!(parts.map(|f| f.part).eq([1, 2, 3, 1, 2]));
}

/// Rations alike, whose windows are the whole day, fit where there are no more feedings than blowers and slots.
#[test]
fn shares_settled_by_hand() {
    for (slots, blowers, count, volume, share) in [
        // Share 2 leaves each ration one feeding, 64 in 50 slots; share 1 leaves none.
        (50, 1, 64, 50, 1),
        // Share 3 of 67 is 2.01: 128 feedings in 67 slots.
        (67, 1, 64, 67, 2),
        // One feeding from share 34 on, four in three slots.
        (3, 1, 4, 3, 33),
        // One feeding from share 50 on, three in two slots.
        (2, 1, 3, 2, 49),
        // Two feedings from share 67 on, six in three slots.
        (3, 1, 3, 3, 66),
        // 49.98 and 50.49 at shares 98 and 99: 147 and 150 feedings of two blowers in 74 slots.
        (74, 2, 3, 51, 98),
        // Share 99 takes a feeding from each ration.
        (8, 8, 9, 8, 99),
        (8, 8, 8, 8, 100),
        (96, 8, 64, 12, 100),
    ] {
        let sheet = alike(slots, blowers, count, volume);
        let (answer, plan) = sheet.plan_share();
        assert_eq!(answer, share, "{count} × {volume} in {slots} × {blowers}");
        assert_eq!(fed(&sheet, &plan), cut_volumes(&sheet, share));
    }
}

/// Whatever is cut, neither of two rations can be fed in the one slot.
#[test]
fn no_ration_is_fed() {
    let (share, plan) =
        planned("     1     1   200     2\n     1     1     1     1\n     2     1     1     1\n");
    assert_eq!(share, 99);
    assert_eq!((plan.energy(), plan.starts(), plan.bill()), (0, 0, 0));
    assert!(plan.feedings().is_empty());
}

#[test]
fn a_sheet_without_rations_is_whole() {
    let (share, plan) = planned("     3     1     4     0\n");
    assert_eq!(share, 100);
    assert!(plan.feedings().is_empty());
}

/// Every ration has its cut volume in its window, and the sheet of the next share is held. Without the rations that are
/// not fed the cut sheet has the same listing.
#[test]
fn the_greatest_share_of_practice_sheets() {
    let (mut whole, mut cut, mut unfed) = (0, 0, 0);
    for seed in (0..300).chain(99_950..100_000) {
        let sheet = Sheet::practice(seed);
        let (share, plan) = sheet.plan_share();
        assert!((1..=100).contains(&share), "seed {seed}");
        assert_eq!(share == 100, sheet.can_be_planned(), "seed {seed}");
        assert_eq!(fed(&sheet, &plan), cut_volumes(&sheet, share));
        for (i, ration) in sheet.rations().iter().enumerate() {
            let mut slots = (1..=96).filter(|&slot| plan.is_fed(i, slot));
            assert!(slots.all(|slot| (ration.first..=ration.last).contains(&slot)));
        }
        let alone = cut_sheet(&sheet, share).plan().unwrap();
        assert_eq!(plan.listing(), alone.listing(), "seed {seed}");
        if share == 100 {
            assert_eq!(plan, alone);
            whole += 1;
        } else {
            assert!(!cut_sheet(&sheet, share + 1).can_be_planned());
            unfed += cut_volumes(&sheet, share)
                .iter()
                .filter(|&&v| v == 0)
                .count();
            cut += 1;
        }
    }
    assert!(
        whole > 100 && cut > 100 && unfed > 100,
        "{whole} whole, {cut} cut, {unfed} rations not fed"
    );
}
