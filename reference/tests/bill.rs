//! The day's power bill (request 103): days settled by hand, and the charge of many days
//! once more, slot by slot.

mod written;

use reference::bill::{cents, charge};
use reference::draws::Draws;
use reference::generate::{any_sheet, tight_sheet, FULL, MIDDLE};
use reference::listing::{plan, program, PLACING_WORDS, PLAN_BUFFER};
use reference::method::{self, stretches};
use reference::sheet::{field_value, read, Sheet, FIELD, LINE};
use written::text;

/// The day's charge in tenths of a cent, and the last line of its listing.
fn check_bill(lines: &str, tenths: u32, hundreds: u32, remaining: u32) {
    let bytes = text(lines);
    let plan = method::plan(&read(&bytes).expect("accepted")).expect("planned");
    assert_eq!(plan.charge, tenths, "{lines}");
    let output = program(&bytes);
    assert!(output.starts_with(b"PLAN\n"));
    let last = text(&format!("{hundreds} {remaining} 0 0"));
    assert_eq!(&output[output.len() - LINE..], last, "{lines}");
}

/// Nine energy units in hour 0: 162 tenths.
#[test]
fn the_first_listing_costs_16_cents() {
    check_bill("4 2 2 3 / 1 1 2 2 / 2 1 4 2 / 3 2 3 1", 162, 0, 16);
}

#[test]
fn an_idle_day_costs_nothing() {
    let listing = "PLAN
     0     0     1     0
     1     1     3     0
     0     0     0     0
";
    assert_eq!(program(&text("3 1 4 0")), listing.as_bytes());
    check_bill("96 8 2000 0", 0, 0, 0);
}

/// Slot 25 is the first of hour 6. Both starts and their slots: 4 × 18 + 4 × 31.
#[test]
fn a_start_costs_the_rate_of_its_first_on_slot() {
    let listing = "PLAN
     8     2     3     2
     1     1     1     2
     1     2    24     0
     1    25    25     2
     1     1     1     1
    25     1     2     1
     0    20     0     0
";
    let day = "25 1 3 2 / 1 1 1 1 / 2 25 25 1";
    assert_eq!(program(&text(day)), listing.as_bytes());
    check_bill(day, 196, 0, 20);
    // In slot 24, the last of hour 5: 8 × 18.
    check_bill("25 1 3 2 / 1 1 1 1 / 2 24 24 1", 144, 0, 14);
}

/// An idle stretch that stays on is paid for slot by slot, and ends in no start: slots 20
/// to 28 are on, five at 18 and four at 31, and the one start costs 9 × 18.
#[test]
fn idle_slots_that_are_on_cost_their_rate() {
    let day = "30 1 9 2 / 1 20 22 3 / 2 27 28 2";
    let listing = "PLAN
    18     1     5     5
     1     1    19     0
     1    20    22     2
     1    23    26     1
     1    27    28     2
     1    29    30     0
    20     1     1     1
    21     1     1     2
    22     1     1     3
    27     1     2     1
    28     1     2     2
     0    38     0     0
";
    assert_eq!(program(&text(day)), listing.as_bytes());
    check_bill(day, 376, 0, 38);
}

/// Each pair of slots has one in the last hour of a rate and one in the first of the next.
#[test]
fn rates_change_with_the_hour() {
    check_bill("96 1 0 1 / 1 24 25 2", 18 + 31, 0, 5);
    check_bill("96 1 0 1 / 1 36 37 2", 31 + 24, 0, 6);
    check_bill("96 1 0 1 / 1 68 69 2", 24 + 36, 0, 6);
    check_bill("96 1 0 1 / 1 84 85 2", 36 + 22, 0, 6);
    // Six hours at 18, three at 31, eight at 24, four at 36, three at 22, of four slots each.
    check_bill("96 1 0 1 / 1 1 96 96", 432 + 372 + 768 + 576 + 264, 2, 41);
}

#[test]
fn halves_are_rounded_upward() {
    check_bill("29 1 0 1 / 1 25 29 5", 155, 0, 16);
    check_bill("37 1 0 1 / 1 36 37 2", 55, 0, 6);
    check_bill("3 1 0 1 / 1 1 3 3", 54, 0, 5);
    check_bill("2 1 0 1 / 1 1 2 2", 36, 0, 4);
    // Five slots at 31, 32 at 24 and two at 36: the half makes a whole hundred.
    check_bill("70 1 0 1 / 1 32 70 39", 995, 1, 0);
}

#[test]
fn only_the_sum_over_the_blowers_is_rounded() {
    // 54 tenths each; rounded one by one they would come to 10 cents.
    check_bill("3 2 0 2 / 1 1 3 3 / 2 1 3 3", 108, 0, 11);
    // 55 tenths each; 12 cents.
    check_bill("37 2 0 2 / 1 36 37 2 / 2 36 37 2", 110, 0, 11);
    // 93 and 62 tenths; 15 cents.
    check_bill("27 2 0 2 / 1 25 27 3 / 2 26 27 2", 155, 0, 16);
}

#[test]
fn hundreds_of_cents() {
    check_bill("1 1 54 1 / 1 1 1 1", 990, 0, 99);
    check_bill("1 1 55 1 / 1 1 1 1", 1_008, 1, 1);
    check_bill("1 1 200 1 / 1 1 1 1", 3_618, 3, 62);
    check_bill("1 1 2000 1 / 1 1 1 1", 36_018, 36, 2);
    let busy = |first: u32, volume: u32| -> String {
        let ration = |tank| format!(" / {tank} {first} 96 {volume}");
        format!("96 8 2000 8{}", (1..=8).map(ration).collect::<String>())
    };
    // Eight blowers, each with the whole day's 2,412 tenths and a start at 2,000 × 18.
    check_bill(&busy(1, 96), 8 * (2_412 + 36_000), 307, 30);
    // From the first slot at 31 on: 1,980 tenths and 2,000 × 31.
    check_bill(&busy(25, 72), 8 * (1_980 + 62_000), 511, 84);
    // From the first slot at 36 on, the dearest day: 840 tenths and 2,000 × 36.
    check_bill(&busy(69, 28), 8 * (840 + 72_000), 582, 72);
}

#[test]
fn the_plan_buffer_grows_by_a_line() {
    assert_eq!(PLAN_BUFFER, 5 + 25 * (2 + 2 * 8 * 96));
    let day = text("3 1 4 0");
    let lent = vec![7; PLAN_BUFFER + 1];
    for (size, answer) in [
        (38_430, (10, 0, 0)),
        (38_454, (10, 0, 0)),
        (38_455, (0, 0, 80)),
        (38_456, (0, 0, 80)),
    ] {
        let mut buffer = lent[..size].to_vec();
        assert_eq!(plan(&day, Some(&mut buffer), None), answer);
        assert_eq!(buffer[answer.2..], lent[answer.2..size]);
        let mut placing = vec![9; PLACING_WORDS];
        assert_eq!(plan(&day, Some(&mut buffer), Some(&mut placing)), answer);
    }
}

/// The rates of the hours 0 to 23.
const RATES: [u32; 24] = [
    18, 18, 18, 18, 18, 18, 31, 31, 31, 24, 24, 24, 24, 24, 24, 24, 24, 36, 36, 36, 36, 22, 22, 22,
];

/// What one blower costs, from its state in each slot.
fn tally(wake: u32, states: &[u32]) -> u32 {
    let mut sum = 0;
    for (t, &state) in states.iter().enumerate() {
        let units = match (t.checked_sub(1).map(|before| states[before]), state) {
            (_, 0) => 0,
            (None | Some(0), _) => 1 + wake,
            _ => 1,
        };
        sum += units * RATES[t / 4];
    }
    sum
}

/// The four numbers of each line after the listing's word.
fn lines_of(listing: &[u8]) -> Vec<[u32; 4]> {
    let line = |line: &[u8]| {
        let fields = line[..LINE - 1].chunks(FIELD).map(field_value);
        let numbers: Vec<u32> = fields.map(|number| number.expect("a number")).collect();
        numbers.try_into().expect("four numbers")
    };
    listing[5..].chunks(LINE).map(line).collect()
}

/// The bill of a listing, counted again from its stretch lines. Gives its tenths.
fn check_listing(sheet: &Sheet, listing: &[u8]) -> u32 {
    let lines = lines_of(listing);
    let [_, _, stretches, feeds] = lines[0];
    assert_eq!(lines.len() as u32, 2 + stretches + feeds);
    let mut states = vec![vec![0; sheet.slots as usize]; sheet.blowers as usize];
    for &[blower, first, last, state] in &lines[1..=stretches as usize] {
        states[blower as usize - 1][first as usize - 1..last as usize].fill(state);
    }
    let tenths: u32 = states.iter().map(|own| tally(sheet.wake, own)).sum();
    let whole = tenths / 10 + u32::from(tenths % 10 >= 5);
    assert_eq!(lines[lines.len() - 1], [whole / 100, whole % 100, 0, 0]);
    tenths
}

#[test]
fn listings_counted_slot_by_slot() {
    let mut draws = Draws::new(10);
    let (mut planned, mut halves) = (0, 0);
    for round in 0..300 {
        let sheet = match round % 15 {
            0 => tight_sheet(&mut draws, FULL),
            _ => any_sheet(&mut draws, MIDDLE),
        };
        let listing = program(&sheet.text());
        if listing.starts_with(b"PLAN\n") {
            planned += 1;
            halves += u32::from(check_listing(&sheet, &listing) % 10 == 5);
        }
    }
    assert!(planned > 100, "{planned} planned");
    assert!(halves > 3, "{halves} halves");
}

/// Days by their counts alone, with long and short stretches: the charge of the stretches
/// is that of the slots.
#[test]
fn charges_counted_slot_by_slot() {
    let mut draws = Draws::new(11);
    let mut ends = [0; 10];
    for _ in 0..20_000 {
        let sheet = Sheet {
            slots: draws.between(1, 96),
            blowers: draws.between(1, 8),
            wake: match draws.below(3) {
                0 => draws.between(0, 2_000),
                _ => draws.between(0, 12),
            },
            rations: Vec::new(),
        };
        let longest = draws.between(1, 20);
        let mut counts = Vec::new();
        while counts.len() < sheet.slots as usize {
            let count = draws.between(0, sheet.blowers);
            let run = draws.between(1, longest) as usize;
            counts.extend(vec![count; run]);
        }
        counts.truncate(sheet.slots as usize);
        let stretches = stretches(&sheet, &counts);
        let mut tenths = 0;
        for blower in 1..=sheet.blowers {
            let own = stretches.iter().filter(|s| s.blower == blower);
            let states: Vec<u32> = own
                .flat_map(|s| (s.first..=s.last).map(|_| s.state as u32))
                .collect();
            assert_eq!(states.len(), counts.len());
            tenths += tally(sheet.wake, &states);
        }
        assert_eq!(charge(sheet.wake, &stretches), tenths);
        ends[tenths as usize % 10] += 1;
    }
    assert!(ends.iter().all(|&count| count > 100), "{ends:?}");
}

#[test]
fn cents_are_the_nearest_and_the_upper_of_two() {
    for tenths in 0..700_000 {
        let above = i64::from(10 * cents(tenths)) - i64::from(tenths);
        assert!((-4..=5).contains(&above), "{tenths}");
    }
}
