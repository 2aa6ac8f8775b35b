//! Why bytes are no sheet.
use std::error::Error;
use std::fmt;

/// The checks that a sheet must pass, by their numbers.
#[derive(Clone, Copy, Debug, PartialEq, Eq, Hash, PartialOrd, Ord)]
pub enum Fault {
    /// 1: shorter than 25 bytes, longer than 65,520, or not a multiple of 25 long.
    Length = 1,
    /// 2: a field is not in the stated form, or a line's closing byte 10 is missing.
    Field = 2,
    /// 3: slots outside 1 to 96.
    Slots = 3,
    /// 4: blowers outside 1 to 8.
    Blowers = 4,
    /// 5: a wake cost above 2,000.
    Wake = 5,
    /// 6: rations above 64, or not the number of ration lines.
    Rations = 6,
    /// 7: a tank outside 1 to 250,000, or below the tank before it.
    Tank = 7,
    /// 8: a window that breaks 1 ≤ first ≤ last ≤ slots.
    Window = 8,
    /// 9: a volume of 0, or above its window's length.
    Volume = 9,
    /// 13: a meal begins at or before the end of the same tank's preceding window. It is checked after 9 on the same line.
    Meal = 13,
}

impl Fault {
    /// The fault with a number that the library gives a sheet; `None` for 0.
    pub(crate) fn from_number(number: u32) -> Option<Fault> {
        Some(match number {
            1 => Fault::Length,
            2 => Fault::Field,
            3 => Fault::Slots,
            4 => Fault::Blowers,
            5 => Fault::Wake,
            6 => Fault::Rations,
            7 => Fault::Tank,
            8 => Fault::Window,
            9 => Fault::Volume,
            13 => Fault::Meal,
            0 => return None,
            _ => unreachable!("number {number} for a sheet"),
        })
    }

    fn words(self) -> &'static str {
        match self {
            Fault::Length => {
                "the sheet's length is under 25 bytes, above 65,520 or no multiple of 25"
            }
            Fault::Field => {
                "a field is not a number in the stated form, or the closing byte is missing"
            }
            Fault::Slots => "the slots are not 1 to 96",
            Fault::Blowers => "the blowers are not 1 to 8",
            Fault::Wake => "the wake cost is above 2,000",
            Fault::Rations => "the rations are above 64 or not as many as the ration lines",
            Fault::Tank => "the tank is not 1 to 250,000 or below the tank before it",
            Fault::Window => "the window breaks 1 ≤ first ≤ last ≤ slots",
            Fault::Volume => "the volume is 0 or above the window's length",
            Fault::Meal => {
                "the meal begins at or before the end of the same tank's preceding window"
            }
        }
    }
}

/// The first fault of a sheet, and the line that it names.
#[derive(Clone, Copy, Debug, PartialEq, Eq, Hash)]
pub struct Refusal {
    /// What is wrong.
    pub fault: Fault,
    /// The line at fault, the head line being 1; 0 where the fault is the whole sheet's.
    pub line: u32,
}

impl Refusal {
    /// The refusal's number: 1 to 9, or 13.
    pub fn number(self) -> u32 {
        self.fault as u32
    }
}

impl fmt::Display for Refusal {
    fn fmt(&self, f: &mut fmt::Formatter<'_>) -> fmt::Result {
        write!(f, "refused, number {}", self.number())?;
        if self.line != 0 {
            write!(f, ", line {}", self.line)?;
        }
        write!(f, ": {}", self.fault.words())
    }
}

impl Error for Refusal {}
