//! Every call of the libraries on one sheet, each held to what is expected.

use crate::expected::Expected;
use crate::form::Form;
use crate::lent::Lent;
use crate::values::Values;
use crate::{causes, planning, questions, reading};
use reference::causes::CAUSES_BUFFER;
use reference::draws::Draws;
use reference::listing::{PLACING_WORDS, PLAN_BUFFER};
use reference::sheet::LINE;

/// The buffers that all calls of a run are lent.
pub struct Buffers {
    pub listing: Lent<u8>,
    pub placing: Lent<u64>,
    pub causes: Lent<u8>,
    pub sheet: Lent<u8>,
}

/// Beyond the least size of a buffer, so many bytes or words are lent at most.
const MORE: usize = 40;

impl Buffers {
    pub fn new() -> Self {
        Buffers {
            listing: Lent::bytes(PLAN_BUFFER + MORE),
            placing: Lent::words(PLACING_WORDS + MORE),
            causes: Lent::bytes(CAUSES_BUFFER + MORE),
            sheet: Lent::bytes(65 * LINE + MORE),
        }
    }
}

/// Buffers of no byte or word, one too few, just enough, and more.
pub fn sizes(least: usize, draws: &mut Draws) -> [usize; 4] {
    [0, least - 1, least, least + 1 + draws.index(MORE)]
}

/// Says which call answered otherwise than expected.
pub type Checked = Result<(), String>;

pub fn same<T: PartialEq + std::fmt::Debug>(call: &str, answer: T, expected: T) -> Checked {
    if answer == expected {
        return Ok(());
    }
    Err(format!("{call} answers {answer:?}, expected {expected:?}"))
}

pub fn holds<T: Copy + PartialEq>(call: &str, buffer: &mut Lent<T>, written: &[T]) -> Checked {
    if buffer.holds(written) {
        return Ok(());
    }
    Err(format!("{call} leaves memory otherwise than expected"))
}

/// All calls. The second sheet is compared with the first, in both orders. Gives what is
/// expected of changed values as records, unless these are the sheet's own again.
pub fn check(
    e: &Expected,
    second: &Expected,
    draws: &mut Draws,
    b: &mut Buffers,
) -> Result<Option<Expected>, String> {
    let before = e.bytes.clone();
    reading::check_read(e)?;
    reading::check_find(e, draws)?;
    planning::check_sheet(e, draws, b)?;
    planning::check_compare(e, second)?;
    causes::check_causes(e, draws, b)?;

    let mut values = Values::of(e, draws);
    reading::check_write(&values, draws, b)?;
    let rations = values.rations();
    let own = values.records(&rations);
    let sheet = Form::Sheet(&e.bytes);
    match &e.sheet {
        Ok(_) => check_forms(e, &[sheet, Form::Records(own)], draws, b)?,
        // The values were drawn, and are not this day's.
        Err(_) => check_forms(e, &[sheet], draws, b)?,
    }
    same("some call changes the sheet", &e.bytes, &before)?;
    same("some call changes the records", &rations, &values.rations())?;

    values.change(draws);
    reading::check_write(&values, draws, b)?;
    let rations = values.rations();
    let changed = values.records(&rations);
    if e.sheet.is_ok() && changed == own {
        return Ok(None);
    }
    let e = Expected::of_records(&values);
    check_forms(&e, &[Form::Records(changed)], draws, b)?;
    same("some call changes the records", &rations, &values.rations())?;
    Ok(Some(e))
}

/// The calls that take a day in more forms than one, in these forms.
fn check_forms(e: &Expected, forms: &[Form], draws: &mut Draws, b: &mut Buffers) -> Checked {
    for form in forms {
        form.named(planning::check_plan(e, *form, draws, b))?;
    }
    questions::check_shortfall(e, forms, draws)?;
    questions::check_bounds(e, forms, draws)
}
