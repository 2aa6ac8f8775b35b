//! Days of all sizes: what holds of every plan and of every held sheet, without
//! enumerating anything. Each answer of the flow is checked by what it shows, a
//! placing or a set of slots, so these runs would stop at a wrong one.

use reference::comparison::{compare, Order};
use reference::damage::damaged_sheet;
use reference::draws::Draws;
use reference::generate::{any_sheet, held_sheet, settled_full_sheet, tight_sheet, FULL};
use reference::listing::{program, PLAN_BUFFER};
use reference::method::{self, State};
use reference::placing::{bounds, shortfall, Question};
use reference::sheet::{field_text, find, line_text, read, write, LINE};

#[test]
fn generated_sheets_are_well_formed_and_keep_values_and_bytes() {
    let mut draws = Draws::new(5);
    for _ in 0..500 {
        let sheet = any_sheet(&mut draws, FULL);
        let bytes = sheet.text();
        assert_eq!(read(&bytes), Ok(sheet.clone()));
        let mut buffer = vec![0; bytes.len()];
        let n = sheet.rations.len() as u32;
        let flat = sheet.flat_rations();
        let (slots, blowers, wake) = (sheet.slots, sheet.blowers, sheet.wake);
        let answer = write(slots, blowers, wake, n, &flat, &mut buffer);
        assert_eq!(answer, (0, 0, bytes.len()));
        assert_eq!(buffer, bytes);
        for tank in sheet.rations.iter().map(|r| r.tank) {
            let field = field_text(tank);
            let own = bytes[LINE..].chunks(LINE);
            let own = own.filter(|line| line.starts_with(&field));
            assert_eq!(find(&bytes, tank), own.collect::<Vec<_>>().concat());
        }
    }
}

#[test]
fn tight_sheets_are_planned() {
    let mut draws = Draws::new(6);
    for _ in 0..30 {
        let sheet = tight_sheet(&mut draws, FULL);
        let plan = method::plan(&sheet).expect("built around a sound placing");
        assert!(Question::of_day(&sheet).is_sound(&plan.placing));
        let bytes = sheet.text();
        assert_eq!(bounds(&bytes, &plan.counts, &plan.counts), (0, 0, true));
        assert_eq!(compare(&bytes, &bytes), (0, 0, Order::Same));
        assert!(program(&bytes).len() <= PLAN_BUFFER);

        // The stretches of each blower cover the day and alternate.
        for blower in 1..=sheet.blowers {
            let own: Vec<_> = plan
                .stretches
                .iter()
                .filter(|s| s.blower == blower)
                .collect();
            assert_eq!(own[0].first, 1);
            assert_eq!(own[own.len() - 1].last, sheet.slots);
            for pair in own.windows(2) {
                assert_eq!(pair[0].last + 1, pair[1].first);
                let busy = pair.iter().filter(|s| s.state == State::Busy);
                assert_eq!(busy.count(), 1);
            }
        }
    }
}

/// Such a sheet leaves no choice: a ration is fed in every slot of its window.
#[test]
fn settled_sheets_are_planned_as_they_say() {
    let mut draws = Draws::new(9);
    for _ in 0..30 {
        let sheet = settled_full_sheet(&mut draws);
        assert_eq!(read(&sheet.text()), Ok(sheet.clone()));
        let plan = method::plan(&sheet).expect("eight windows at most in a slot");
        for (ration, row) in sheet.rations.iter().zip(&plan.placing) {
            let window = (1..=sheet.slots).map(|t| ration.window_holds(t));
            assert!(row.iter().copied().eq(window));
        }
    }
}

#[test]
fn held_sheets_show_a_shortfall_that_no_slot_less_has() {
    let mut draws = Draws::new(7);
    for _ in 0..60 {
        let sheet = held_sheet(&mut draws, FULL);
        let shown = method::plan(&sheet).expect_err("held");
        let marks: Vec<u8> = shown.iter().map(|&q| u8::from(q)).collect();
        let (_, _, greatest) = shortfall(&sheet.text(), &marks);
        assert!(greatest > 0);
        for t in 0..marks.len() {
            let mut other = marks.clone();
            other[t] = 1 - other[t];
            let (_, _, value) = shortfall(&sheet.text(), &other);
            assert!(if marks[t] == 1 {
                value < greatest
            } else {
                value <= greatest
            });
        }
    }
}

#[test]
fn damaged_sheets_are_answered() {
    let mut draws = Draws::new(8);
    let mut refused = 0;
    for _ in 0..300 {
        let bytes = damaged_sheet(&mut draws, FULL);
        match read(&bytes) {
            Ok(sheet) => assert_eq!(sheet.text(), bytes),
            Err(refusal) => {
                refused += 1;
                let line = line_text([refusal.number, refusal.line, 0, 0]);
                assert_eq!(program(&bytes), [b"HELD\n", &line[..]].concat());
            }
        }
    }
    assert!(refused > 150, "{refused} refused");
}
