//! The library's calls, as include/kiwimound.h declares them, each behind a safe function: a slice's pointer and length
//! are valid as lent, and `&mut` overlaps nothing. No other module is unsafe.
#![allow(unsafe_code)]

use std::array;

/// The least length of a plan buffer.
const LISTING_BYTES: usize = 38_455;
/// The least length of a placing buffer, in words of 64 bits: a word for each slot that a day can have.
const PLACING_WORDS: usize = 96;
/// The least length of a buffer for causes.
const CAUSES_BYTES: usize = 65_536;
/// Columns of a field.
pub const FIELD_COLUMNS: usize = 6;
/// Bytes of a line of a sheet or of a listing: four fields and byte 10.
pub const LINE_BYTES: usize = 4 * FIELD_COLUMNS + 1;
/// The most rations of a sheet.
pub const MAX_RATIONS: usize = 64;
/// The most halls that are planned together.
const MAX_HALLS: usize = 4;
/// Bytes of the longest practice sheet.
const PRACTICE_BYTES: usize = LINE_BYTES * (MAX_RATIONS + 1);

#[repr(C)]
pub struct Reading {
    pub number: u32,
    pub line: u32,
    pub slots: u32,
    pub blowers: u32,
    pub wake: u32,
    pub rations: u32,
    pub numbers: [u32; 4 * MAX_RATIONS],
}

#[repr(C)]
pub struct Written {
    pub number: u32,
    pub line: u32,
    pub length: usize,
}

#[repr(C)]
pub struct Part {
    pub start: usize,
    pub length: usize,
}

#[repr(C)]
pub struct Planned {
    pub number: u32,
    pub line: u32,
    pub length: usize,
}

#[repr(C)]
pub struct ShareAnswer {
    pub number: u32,
    pub line: u32,
    pub length: usize,
    pub share: u32,
}

#[repr(C)]
pub struct Halls {
    pub number: u32,
    pub line: u32,
    pub hall: [Planned; MAX_HALLS],
}

#[repr(C)]
pub struct Compared {
    pub number: u32,
    pub line: u32,
    pub order: u32,
}

#[repr(C)]
pub struct ShortfallAnswer {
    pub number: u32,
    pub line: u32,
    pub shortfall: i32,
}

#[repr(C)]
pub struct BoundsAnswer {
    pub number: u32,
    pub line: u32,
    pub yes: bool,
}

#[repr(C)]
pub struct CausesAnswer {
    pub number: u32,
    pub line: u32,
    pub length: usize,
    pub cut: bool,
}

mod calls {
    use super::{
        BoundsAnswer, CausesAnswer, Compared, Halls, Part, Planned, Reading, ShareAnswer,
        ShortfallAnswer, Written,
    };

    extern "C" {
        pub fn kiwimound_version_2() -> u32;
        pub fn kiwimound_read(sheet: *const u8, length: usize) -> Reading;
        pub fn kiwimound_write(
            slots: u32,
            blowers: u32,
            wake: u32,
            rations: u32,
            numbers: *const u32,
            numbers_length: usize,
            out: *mut u8,
            out_length: usize,
        ) -> Written;
        pub fn kiwimound_practice(seed: u32, out: *mut u8, out_length: usize) -> Written;
        pub fn kiwimound_find(sheet: *const u8, length: usize, tank: u32) -> Part;
        pub fn kiwimound_shortfall(
            sheet: *const u8,
            length: usize,
            marks: *const u8,
            marks_length: usize,
        ) -> ShortfallAnswer;
        pub fn kiwimound_bounds(
            sheet: *const u8,
            length: usize,
            lows: *const u32,
            lows_length: usize,
            highs: *const u32,
            highs_length: usize,
        ) -> BoundsAnswer;
        pub fn kiwimound_plan_both(
            sheet: *const u8,
            length: usize,
            listing: *mut u8,
            listing_length: usize,
            placing: *mut u64,
            placing_words: usize,
        ) -> Planned;
        pub fn kiwimound_plan_share(
            sheet: *const u8,
            length: usize,
            listing: *mut u8,
            listing_length: usize,
            placing: *mut u64,
            placing_words: usize,
        ) -> ShareAnswer;
        pub fn kiwimound_plan_halls(
            limit: u32,
            halls: u32,
            sheet_1: *const u8,
            sheet_1_length: usize,
            listing_1: *mut u8,
            listing_1_length: usize,
            placing_1: *mut u64,
            placing_1_words: usize,
            sheet_2: *const u8,
            sheet_2_length: usize,
            listing_2: *mut u8,
            listing_2_length: usize,
            placing_2: *mut u64,
            placing_2_words: usize,
            sheet_3: *const u8,
            sheet_3_length: usize,
            listing_3: *mut u8,
            listing_3_length: usize,
            placing_3: *mut u64,
            placing_3_words: usize,
            sheet_4: *const u8,
            sheet_4_length: usize,
            listing_4: *mut u8,
            listing_4_length: usize,
            placing_4: *mut u64,
            placing_4_words: usize,
        ) -> Halls;
        pub fn kiwimound_plan_number(sheet: *const u8, length: usize) -> Planned;
        pub fn kiwimound_compare(
            first: *const u8,
            first_length: usize,
            second: *const u8,
            second_length: usize,
        ) -> Compared;
        pub fn kiwimound_causes(
            sheet: *const u8,
            length: usize,
            out: *mut u8,
            out_length: usize,
        ) -> CausesAnswer;
    }
}

/// Refers to the library's version by a name that no other version has, so that the crate links with no other.
#[used]
static LINKED_VERSION: unsafe extern "C" fn() -> u32 = calls::kiwimound_version_2;

pub fn read(sheet: &[u8]) -> Reading {
    unsafe { calls::kiwimound_read(sheet.as_ptr(), sheet.len()) }
}

pub fn write(
    slots: u32,
    blowers: u32,
    wake: u32,
    rations: u32,
    numbers: &[u32],
    out: &mut [u8],
) -> Written {
    unsafe {
        calls::kiwimound_write(
            slots,
            blowers,
            wake,
            rations,
            numbers.as_ptr(),
            numbers.len(),
            out.as_mut_ptr(),
            out.len(),
        )
    }
}

/// Writes the practice sheet of a seed into a buffer that the longest one fits in, so that it is not too short.
pub fn practice(seed: u32) -> Vec<u8> {
    let mut sheet = vec![0; PRACTICE_BYTES];
    let written = unsafe { calls::kiwimound_practice(seed, sheet.as_mut_ptr(), sheet.len()) };
    sheet.truncate(written.length);
    sheet
}

pub fn find(sheet: &[u8], tank: u32) -> Part {
    unsafe { calls::kiwimound_find(sheet.as_ptr(), sheet.len(), tank) }
}

pub fn shortfall(sheet: &[u8], marks: &[u8]) -> ShortfallAnswer {
    unsafe { calls::kiwimound_shortfall(sheet.as_ptr(), sheet.len(), marks.as_ptr(), marks.len()) }
}

pub fn bounds(sheet: &[u8], lows: &[u32], highs: &[u32]) -> BoundsAnswer {
    unsafe {
        calls::kiwimound_bounds(
            sheet.as_ptr(),
            sheet.len(),
            lows.as_ptr(),
            lows.len(),
            highs.as_ptr(),
            highs.len(),
        )
    }
}

/// What planning gives: its number, the listing's bytes, and the placing's words: slot t in word t - 1, ration i in bit
/// i - 1.
pub struct Day {
    pub number: u32,
    pub listing: Vec<u8>,
    pub placing: Vec<u64>,
}

impl Day {
    /// Before planning: buffers of their full size, so that none is too short.
    fn lent() -> Day {
        Day {
            number: 0,
            listing: vec![0; LISTING_BYTES],
            placing: vec![0; PLACING_WORDS],
        }
    }

    /// In place of a hall that is not there: empty buffers.
    fn absent() -> Day {
        Day {
            number: 0,
            listing: Vec::new(),
            placing: Vec::new(),
        }
    }

    /// Takes over what planning into these buffers answered: its number, and the length of the listing.
    fn settle(&mut self, number: u32, length: usize) {
        self.number = number;
        self.listing.truncate(length);
    }
}

pub fn plan(sheet: &[u8]) -> Day {
    let mut day = Day::lent();
    let planned = unsafe {
        calls::kiwimound_plan_both(
            sheet.as_ptr(),
            sheet.len(),
            day.listing.as_mut_ptr(),
            day.listing.len(),
            day.placing.as_mut_ptr(),
            day.placing.len(),
        )
    };
    day.settle(planned.number, planned.length);
    day
}

/// Plans a sheet with its rations cut to the greatest share that has a plan. Gives the share and the day of it.
pub fn plan_share(sheet: &[u8]) -> (u32, Day) {
    let mut day = Day::lent();
    let answer = unsafe {
        calls::kiwimound_plan_share(
            sheet.as_ptr(),
            sheet.len(),
            day.listing.as_mut_ptr(),
            day.listing.len(),
            day.placing.as_mut_ptr(),
            day.placing.len(),
        )
    };
    day.settle(answer.number, answer.length);
    (answer.share, day)
}

/// Plans sheets as halls, in their order. There are none where the limit or their number is refused.
pub fn plan_halls(limit: u32, sheets: &[&[u8]]) -> Option<Vec<Day>> {
    // a count that 32 bits can't hold is refused as any count above 4 is
    let halls = u32::try_from(sheets.len()).unwrap_or(u32::MAX);
    let [s1, s2, s3, s4] = array::from_fn(|h| sheets.get(h).copied().unwrap_or(&[]));
    let mut days: [Day; MAX_HALLS] = array::from_fn(|h| match sheets.get(h) {
        Some(_) => Day::lent(),
        None => Day::absent(),
    });
    let [d1, d2, d3, d4] = &mut days;
    let answer = unsafe {
        calls::kiwimound_plan_halls(
            limit,
            halls,
            s1.as_ptr(),
            s1.len(),
            d1.listing.as_mut_ptr(),
            d1.listing.len(),
            d1.placing.as_mut_ptr(),
            d1.placing.len(),
            s2.as_ptr(),
            s2.len(),
            d2.listing.as_mut_ptr(),
            d2.listing.len(),
            d2.placing.as_mut_ptr(),
            d2.placing.len(),
            s3.as_ptr(),
            s3.len(),
            d3.listing.as_mut_ptr(),
            d3.listing.len(),
            d3.placing.as_mut_ptr(),
            d3.placing.len(),
            s4.as_ptr(),
            s4.len(),
            d4.listing.as_mut_ptr(),
            d4.listing.len(),
            d4.placing.as_mut_ptr(),
            d4.placing.len(),
        )
    };
    for (day, planned) in days.iter_mut().zip(&answer.hall) {
        day.settle(planned.number, planned.length);
    }
    (answer.number == 0).then(|| days.into_iter().take(sheets.len()).collect())
}

pub fn plan_number(sheet: &[u8]) -> Planned {
    unsafe { calls::kiwimound_plan_number(sheet.as_ptr(), sheet.len()) }
}

pub fn compare(first: &[u8], second: &[u8]) -> Compared {
    unsafe { calls::kiwimound_compare(first.as_ptr(), first.len(), second.as_ptr(), second.len()) }
}

/// What listing causes gives: its number, the listing's bytes, and whether it was cut.
pub struct Caused {
    pub number: u32,
    pub listing: Vec<u8>,
    pub cut: bool,
}

/// Lists causes into a buffer of its full size, so that it is not too short.
pub fn causes(sheet: &[u8]) -> Caused {
    let mut listing = vec![0; CAUSES_BYTES];
    let answer = unsafe {
        calls::kiwimound_causes(
            sheet.as_ptr(),
            sheet.len(),
            listing.as_mut_ptr(),
            listing.len(),
        )
    };
    listing.truncate(answer.length);
    Caused {
        number: answer.number,
        listing,
        cut: answer.cut,
    }
}
