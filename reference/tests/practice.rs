//! Practice sheets (request 107): seeds worked out by hand, every draw by its place alone,
//! what a sheet must pass, the program's input and the lent buffer.

mod written;

use reference::cases::practice::{long_input, OTHER_INPUTS};
use reference::causes::why;
use reference::draws::Draws;
use reference::listing;
use reference::placing::shown_set;
use reference::practice::{practice, practice_sheet, program};
use reference::sheet::{read, Sheet, LINE};
use written::text;

/// What the program writes for any input that is not a seed.
const REFUSED: &[u8] = b"HELD\n     2     1     0     0\n";

/// Seeds of the whole 32 bits: the first and the last ones, those around the last that the
/// program takes, and many between.
fn some_seeds() -> impl Iterator<Item = u32> {
    let first = 0..3_000;
    let around = 99_000..101_000;
    let between = (0..1_000).map(|i| i * 4_294_967 + 123);
    let last = u32::MAX - 999..=u32::MAX;
    first.chain(around).chain(between).chain(last)
}

/// The input that asks for a seed.
fn field(seed: u32) -> Vec<u8> {
    format!("{seed:>6}\n").into_bytes()
}

/// Seed 0, worked out by hand:
///
/// | 1,664,525 × s + 1,013,904,223 | less so many times 2^32 | s | / 65,536 |
/// |---|---|---|---|
/// | 1,013,904,223 | 0 | 1,013,904,223 | 15,470 |
/// | 1,687,669,940,693,298 | 392,941 | 1,196,435,762 | 18,256 |
/// | 1,991,498,250,647,273 | 463,681 | 3,519,870,697 | 53,708 |
///
/// and so on. A draw is of the s that the step has just made; of seed 0 itself it would be 0.
#[test]
fn the_first_draws_of_seed_0() {
    let mut draws = Draws::new(0);
    let drawn = [(); 9].map(|()| draws.draw());
    let states = [
        1_013_904_223,
        1_196_435_762,
        3_519_870_697,
        2_868_466_484,
        1_649_599_747,
        2_670_642_822,
        1_476_291_629,
        2_748_932_008,
        2_180_890_343_u32,
    ];
    assert_eq!(
        drawn,
        [15_470, 18_256, 53_708, 43_769, 25_170, 40_750, 22_526, 41_945, 33_277]
    );
    assert_eq!(drawn, states.map(|s| s / 65_536));
}

/// 15,470 mod 8 is 6: 7 blowers. 18,256 mod 201 is 166, 53,708 mod 65 is 18.
/// Tank 1: 43,769 mod 96 is 89: first 90. 25,170 mod 7 is 5: last 95. Of 6 slots
/// 40,750 mod 6 is 4: volume 5.
/// Tank 2: 22,526 mod 96 is 62: first 63. 41,945 mod 34 is 23: last 86. Of 24 slots
/// 33,277 mod 24 is 13: volume 14.
#[test]
fn the_sheet_of_seed_0_begins_so() {
    let sheet = program(b"     0\n");
    assert_eq!(sheet.len(), 19 * 25);
    assert_eq!(
        sheet[..3 * 25],
        text("96 7 166 18 / 1 90 95 5 / 2 63 86 14")
    );
}

/// Seed 21, the whole sheet. s and the draw, and what it gives:
///
/// - 1,048,859,248: 16,004, mod 8 is 4, 5 blowers; 787,464,975: 12,015, mod 201 is 156;
///   852,153,634: 13,002, mod 65 is 2.
/// - 1,912,164,889: 29,177, mod 96 is 89, first 90; 1,631,524,004: 24,895, mod 7 is 3,
///   last 93; 1,390,434,227: 21,216, mod 4 is 0, volume 1.
/// - 1,698,675,062: 25,919, mod 96 is 95, first 96; then only one last slot and one volume
///   are left, whatever the draws 57,622 and 12,504.
#[test]
fn the_sheet_of_seed_21() {
    let sheet = text("96 5 156 2 / 1 90 93 1 / 2 96 96 1");
    assert_eq!(program(b"    21\n"), sheet);
    assert_eq!(practice_sheet(21).text(), sheet);
}

/// The plan of seed 21. One blower is enough: 2 to 5 are off all day. Blower 1 idles until
/// tank 1 must be fed, in 93; nothing can be fed in 94 and 95, and tank 2 is fed in 96. The two
/// slots between are fewer than 156, so it is on from 93 to 96: 4 slots and one start make an
/// energy of 160, each unit at 22 tenths of a cent, 3,520 in all.
#[test]
fn the_plan_of_seed_21() {
    let plan = text(
        "160 1 8 2 / 1 1 92 0 / 1 93 93 2 / 1 94 95 1 / 1 96 96 2 / 2 1 96 0 / 3 1 96 0 / \
         4 1 96 0 / 5 1 96 0 / 93 1 1 1 / 96 1 2 1 / 3 52 0 0",
    );
    let expected = [b"PLAN\n", &plan[..]].concat();
    assert_eq!(listing::program(&program(b"    21\n")), expected);
}

/// Its causes: idle in 93 too, tank 1 has none of its four slots; busy in 94 or idle in 96,
/// that slot alone decides.
#[test]
fn the_causes_of_seed_21() {
    let entries = "1 92 1 4 / 90 0 0 0 / 91 0 0 0 / 92 0 0 0 / 93 0 0 0 / \
         1 93 2 1 / 94 0 0 0 / 1 95 1 1 / 96 0 0 0";
    assert_eq!(why(&program(b"    21\n")), text(entries));
}

/// Seed 133, the whole sheet:
///
/// - 1,235,286,048: 18,848, mod 8 is 0, 1 blower; 1,469,598,975: 22,424, mod 201 is 113;
///   3,804,198,482: 58,047, mod 65 is 2.
/// - 2,538,512,777: 38,734, mod 96 is 46, first 47; 103,464,276: 1,578, mod 50 is 28,
///   last 75; 289,278,115: 4,414, mod 29 is 6, volume 7.
/// - 2,884,720,038: 44,017, mod 96 is 49, first 50; 2,097,574,093: 32,006, mod 47 is 46,
///   last 96, the latest there is; 716,790,728: 10,937, mod 47 is 33, volume 34.
#[test]
fn the_sheet_of_seed_133() {
    let sheet = text("96 1 113 2 / 1 47 75 7 / 2 50 96 34");
    assert_eq!(program(b"   133\n"), sheet);
}

/// The first step by hand. For the last seed, which is 2^32 − 1, the product is 1,664,525
/// below a multiple of 2^32, and s is 1,013,904,223 − 1,664,525 = 1,012,239,698.
#[test]
fn blowers_of_some_seeds() {
    for (seed, s, blowers) in [
        (1, 1_015_568_748, 1),
        (2, 1_017_233_273, 2),
        (99_998, 4_254_317_925, 4),
        (99_999, 4_255_982_450, 6),
        (100_000, 4_257_646_975, 7),
        (u32::MAX - 1, 1_010_575_173, 5),
        (u32::MAX, 1_012_239_698, 6),
        // The steps that just reach 2^32, and just do not.
        (634_785_765, 0, 1),
        (653_637_408, u32::MAX, 8),
    ] {
        assert_eq!(Draws::new(seed).draw(), s / 65_536);
        assert_eq!(s / 65_536 % 8 + 1, blowers);
        assert_eq!(practice_sheet(seed).blowers, blowers);
    }
}

/// The draw at place k, counted from 1, by its place alone: after k steps s is
/// a^k × seed + c × (a^k − 1) / (a − 1) modulo 2^32. To divide by a − 1, a^k is taken
/// modulo 2^32 × (a − 1).
fn draw_at(seed: u32, k: u32) -> u32 {
    let (a, c) = (1_664_525, 1_013_904_223);
    let modulus = (1 << 32) * (a - 1);
    let power = (0..k).fold(1_u128, |power, _| power * a % modulus);
    let s = (power * u128::from(seed) + c * ((power - 1) / (a - 1))) % (1 << 32);
    (s / 65_536) as u32
}

/// Three draws of the head line, then three of each tank, each at its place.
fn drawn_lines(seed: u32) -> Vec<[u32; 4]> {
    let n = draw_at(seed, 3) % 65;
    let mut lines = vec![[96, 1 + draw_at(seed, 1) % 8, draw_at(seed, 2) % 201, n]];
    for tank in 1..=n {
        let first = 1 + draw_at(seed, 3 * tank + 1) % 96;
        let last = first + draw_at(seed, 3 * tank + 2) % (97 - first);
        let volume = 1 + draw_at(seed, 3 * tank + 3) % (last - first + 1);
        lines.push([tank, first, last, volume]);
    }
    lines
}

/// The text of these lines.
fn bytes_of(lines: &[[u32; 4]]) -> Vec<u8> {
    let line = |[a, b, c, d]: &[u32; 4]| format!("{a:>6}{b:>6}{c:>6}{d:>6}\n");
    lines.iter().map(line).collect::<String>().into_bytes()
}

fn lines_of(sheet: &Sheet) -> Vec<[u32; 4]> {
    let n = sheet.rations.len() as u32;
    let head = [sheet.slots, sheet.blowers, sheet.wake, n];
    let rations = sheet
        .rations
        .iter()
        .map(|r| [r.tank, r.first, r.last, r.volume]);
    [head].into_iter().chain(rations).collect()
}

#[test]
fn each_number_is_drawn_at_its_place() {
    for seed in some_seeds().step_by(5) {
        assert_eq!(lines_of(&practice_sheet(seed)), drawn_lines(seed), "{seed}");
    }
}

/// Checks 1 to 9 and 13, and the values of the sheet come back.
#[test]
fn every_sheet_is_read_back() {
    for seed in some_seeds() {
        let sheet = practice_sheet(seed);
        assert_eq!(read(&sheet.text()), Ok(sheet), "{seed}");
    }
}

/// Each value at the edge of its range is reached, and none beyond it.
#[test]
fn the_edges_of_each_range_are_reached() {
    let sheets: Vec<Sheet> = some_seeds().map(practice_sheet).collect();
    let range = |value: &dyn Fn(&Sheet) -> u32| {
        let least = sheets.iter().map(value).min();
        let most = sheets.iter().map(value).max();
        (least.expect("a sheet"), most.expect("a sheet"))
    };
    assert_eq!(range(&|s| s.slots), (96, 96));
    assert_eq!(range(&|s| s.blowers), (1, 8));
    assert_eq!(range(&|s| s.wake), (0, 200));
    assert_eq!(range(&|s| s.rations.len() as u32), (0, 64));
    let rations = || sheets.iter().flat_map(|s| &s.rations);
    let firsts = || rations().map(|r| r.first);
    assert_eq!((firsts().min(), firsts().max()), (Some(1), Some(96)));
    assert_eq!(rations().map(|r| r.last).max(), Some(96));
    assert!(rations().any(|r| r.first == 1 && r.last == 96));
    assert!(rations().any(|r| r.first < 90 && r.last == r.first));
    assert!(rations().any(|r| r.last - r.first > 80 && r.volume == 1));
    assert!(rations().any(|r| r.last - r.first > 80 && r.volume == r.last - r.first + 1));
}

/// Nothing is said of check 12: some sheets are planned, and some are held.
#[test]
fn some_sheets_are_planned_and_some_are_held() {
    let held = (0..400).filter(|&seed| shown_set(&practice_sheet(seed)).is_some());
    let held = held.count();
    assert!((100..300).contains(&held), "{held} held");
}

/// One blower has 96 feedings in a day: a sheet for one blower that asks for more is held.
#[test]
fn a_sheet_that_is_held() {
    let mut crowded = (0..100_000).map(practice_sheet).filter(|sheet| {
        let volumes = sheet.rations.iter().map(|r| r.volume);
        sheet.blowers == 1 && volumes.sum::<u32>() > 96
    });
    let sheet = crowded.next().expect("such a seed");
    assert!(listing::program(&sheet.text()).starts_with(b"HELD\n    12"));
}

#[test]
fn the_program_takes_every_seed_to_99_999() {
    let seeds = [0, 1, 9, 10, 99, 100, 999, 1_000, 9_999, 10_000, 99_999];
    for seed in seeds.into_iter().chain((0..100_000).step_by(97)) {
        let sheet = bytes_of(&drawn_lines(seed));
        assert_eq!(program(&field(seed)), sheet, "{seed}");
    }
}

/// A field holds more numbers than there are seeds, and the call takes these.
#[test]
fn a_number_above_99_999_is_no_seed_of_the_program() {
    let numbers = [
        100_000, 100_001, 100_021, 131_072, 165_535, 200_000, 999_998, 999_999,
    ];
    for number in numbers.into_iter().chain((100_000..1_000_000).step_by(997)) {
        assert_eq!(field(number).len(), 7);
        assert_eq!(program(&field(number)), REFUSED, "{number}");
        let mut buffer = vec![7; 1_625];
        assert_eq!(practice(number, &mut buffer).0, 0);
    }
}

#[test]
fn any_other_input_is_number_2_on_line_1() {
    for length in [8, 263, 65_536, 65_543, 70_000] {
        let long = long_input(length);
        assert_eq!((long.len(), &long[..7]), (length, &b"     1\n"[..]));
        assert_eq!(program(&long), REFUSED, "{length}");
    }
    for input in OTHER_INPUTS {
        assert_eq!(program(input), REFUSED, "{input:?}");
    }
    assert_eq!(program(&text("96 7 166 0")), REFUSED);
}

/// Each byte in each place of a field: a digit there, or a blank before the first digit, makes
/// another seed, and no other byte does.
#[test]
fn only_digits_blanks_and_the_closing_byte_make_a_seed() {
    for start in [b"   407\n", b" 12345\n", b"     0\n"] {
        for at in 0..7 {
            for byte in 0..=255 {
                let mut input = *start;
                input[at] = byte;
                let digits = String::from_utf8_lossy(&input[..6]);
                let value: Option<u32> = digits.trim_start_matches(' ').parse().ok();
                // A number has one text: any other form is no seed, nor is a number above the last.
                let seed = value.filter(|&seed| seed < 100_000 && input[..] == field(seed)[..]);
                let expected = seed.map(|seed| practice_sheet(seed).text());
                let expected = expected.unwrap_or(REFUSED.to_vec());
                assert_eq!(program(&input), expected, "{input:?}");
            }
        }
    }
}

/// Buffers of no byte, without the last line, a byte too short, exact, a byte longer and more.
#[test]
fn the_call_settles_every_lent_byte() {
    let seeds = [0, 1, 2, 21, 133, 99_998, 99_999, 100_000, 1 << 31, u32::MAX];
    for seed in seeds {
        let sheet = bytes_of(&drawn_lines(seed));
        let exact = sheet.len();
        assert_eq!(exact % LINE, 0);
        for short in [0, 1, LINE - 1, exact - LINE, exact - 1] {
            let mut buffer = vec![7; short];
            assert_eq!(practice(seed, &mut buffer), (10, 0, 0), "{seed}");
            assert_eq!(buffer, vec![7; short]);
        }
        for more in [0, 1, LINE, 2_000] {
            let mut buffer = vec![7; exact + more];
            assert_eq!(practice(seed, &mut buffer), (0, 0, exact), "{seed}");
            assert_eq!(buffer[..exact], sheet);
            assert_eq!(buffer[exact..], vec![7; more]);
        }
    }
}

/// A sheet without rations is its head line, and 25 bytes are enough for it.
#[test]
fn the_shortest_sheet_and_the_longest() {
    for (n, length) in [(0, 25), (64, 1_625)] {
        let with_rations = |&seed: &u32| draw_at(seed, 3) % 65 == n;
        for seed in (0..20_000).filter(with_rations).take(20) {
            let mut buffer = vec![7; length];
            assert_eq!(practice(seed, &mut buffer[1..]), (10, 0, 0));
            assert_eq!(practice(seed, &mut buffer), (0, 0, length));
            assert_eq!(read(&buffer), Ok(practice_sheet(seed)));
        }
    }
}
