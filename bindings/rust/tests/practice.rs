//! Practice sheets through the safe interface, beside the draws of request 107.
use kiwimound::{Head, Held, Ration, Sheet};

/// A draw. In 64 bits nothing is lost before the remainder drops what passes 32.
fn draw(s: &mut u64) -> u32 {
    *s = (1_664_525 * *s + 1_013_904_223) % (1 << 32);
    (*s / 65_536) as u32
}

/// The numbers that a seed draws.
fn drawn(seed: u32) -> (Head, Vec<Ration>) {
    let s = &mut u64::from(seed);
    let blowers = 1 + draw(s) % 8;
    let wake = draw(s) % 201;
    let n = draw(s) % 65;
    let mut rations = Vec::new();
    for tank in 1..=n {
        let first = 1 + draw(s) % 96;
        let last = first + draw(s) % (97 - first);
        let volume = 1 + draw(s) % (last - first + 1);
        rations.push(Ration {
            tank,
            first,
            last,
            volume,
        });
    }
    let head = Head {
        slots: 96,
        blowers,
        wake,
    };
    (head, rations)
}

/// The first seeds, those around the last that the program takes, some throughout the 32 bits and the last ones; and
/// the two after which s is 0 and 2^32 − 1.
fn seeds() -> impl Iterator<Item = u32> {
    let throughout = (0..100).map(|i| 42_949_673 * i);
    (0..300)
        .chain(99_950..100_050)
        .chain(throughout)
        .chain(u32::MAX - 99..=u32::MAX)
        .chain([634_785_765, 653_637_408])
}

/// Draws by hand: 16,004, 12,015 and 13,002 are 4 mod 8, 156 mod 201 and 2 mod 65; 29,177, 24,895 and 21,216 are 89 mod
/// 96, 3 mod 7 and 0 mod 4; then 25,919, 95 mod 96, leaves one slot.
#[test]
fn sheet_of_seed_21() {
    let text = "    96     5   156     2\n     1    90    93     1\n     2    96    96     1\n";
    let sheet = Sheet::practice(21);
    assert_eq!(sheet.bytes(), text.as_bytes());
    assert_eq!((sheet.head(), sheet.rations().to_vec()), drawn(21));
}

#[test]
fn sheets_of_the_draws() {
    for seed in seeds() {
        let (head, rations) = drawn(seed);
        let written = Sheet::write(head, &rations);
        assert_eq!(Ok(Sheet::practice(seed)), written, "seed {seed}");
    }
}

#[test]
fn read_back() {
    let sheets: Vec<Sheet> = seeds().map(Sheet::practice).collect();
    for sheet in &sheets {
        assert_eq!(Sheet::read(sheet.bytes()).as_ref(), Ok(sheet));
    }
    let lengths = || sheets.iter().map(|sheet| sheet.bytes().len());
    assert_eq!((lengths().min(), lengths().max()), (Some(25), Some(1_625)));
}

/// Two rations in five blowers' day, as late as can be. Blower 1 stays on between them: a start costs more.
#[test]
fn seed_21_is_planned() {
    let plan = Sheet::practice(21).plan().unwrap();
    let fed: Vec<(u32, u32)> = plan.feedings().iter().map(|f| (f.slot, f.tank)).collect();
    assert_eq!(fed, [(93, 1), (96, 2)]);
    assert_eq!((plan.starts(), plan.energy()), (1, 156 + 4));
}

/// One blower, three slots, and four feedings that have no other.
#[test]
fn seed_1580_is_held() {
    let sheet = Sheet::practice(1_580);
    let text = "    96     1   108     2\n     1    91    93     3\n     2    91    93     1\n";
    assert_eq!(sheet.bytes(), text.as_bytes());
    let expected = Held {
        slots: vec![91, 92, 93],
        forced: 4,
        capacity: 3,
    };
    assert_eq!(sheet.plan(), Err(expected));
}

/// A plan feeds each ration as often as it asks, within its window; what a held sheet shows is a shortfall.
#[test]
fn planned_or_held() {
    let (mut planned, mut held) = (0, 0);
    for seed in seeds() {
        let sheet = Sheet::practice(seed);
        match sheet.plan() {
            Ok(plan) => {
                for ration in sheet.rations() {
                    let fed = plan.feedings().iter().filter(|f| f.tank == ration.tank);
                    let slots: Vec<u32> = fed.map(|f| f.slot).collect();
                    let window = ration.first..=ration.last;
                    assert_eq!(slots.len() as u32, ration.volume, "seed {seed}");
                    assert!(slots.iter().all(|t| window.contains(t)), "seed {seed}");
                }
                planned += 1;
            }
            Err(reason) => {
                let shortfall = sheet.shortfall(|t| reason.slots.contains(&t));
                assert_eq!(
                    shortfall,
                    reason.forced as i32 - reason.capacity as i32,
                    "seed {seed}"
                );
                assert!(shortfall > 0, "seed {seed}");
                held += 1;
            }
        }
    }
    assert!(
        planned > 100 && held > 100,
        "{planned} planned, {held} held"
    );
}
