//! The calls of the proved static libraries, over slices. A slice is handed over as a
//! pointer and a length.

mod foreign;
mod records;

pub use foreign::{
    BoundsAnswer, CausesAnswer, Compared, Halls, Part, Planned, Reading, ShareAnswer,
    ShortfallAnswer, Written,
};
pub use records::{Ration, Records};

/// The version that these declarations are for. It is in the name of a call, so that a library
/// of another version is not linked.
pub const VERSION: u32 = 2;

/// The library's own version.
pub fn version() -> u32 {
    // SAFETY: it is lent nothing.
    unsafe { foreign::kiwimound_version_2() }
}

/// Plans a sheet, with a plan buffer lent.
pub fn plan(sheet: &[u8], listing: &mut [u8]) -> Planned {
    let (out, size) = (listing.as_mut_ptr(), listing.len());
    // SAFETY: here and below, each pointer and length are those of one slice.
    unsafe { foreign::kiwimound_plan(sheet.as_ptr(), sheet.len(), out, size) }
}

/// Plans a sheet, with a placing buffer lent: a word for each slot.
pub fn plan_placing(sheet: &[u8], placing: &mut [u64]) -> Planned {
    let (out, words) = (placing.as_mut_ptr(), placing.len());
    unsafe { foreign::kiwimound_plan_placing(sheet.as_ptr(), sheet.len(), out, words) }
}

/// Plans a sheet, with both buffers lent.
pub fn plan_both(sheet: &[u8], listing: &mut [u8], placing: &mut [u64]) -> Planned {
    let (bytes, n) = (sheet.as_ptr(), sheet.len());
    let (out, size) = (listing.as_mut_ptr(), listing.len());
    unsafe {
        foreign::kiwimound_plan_both(bytes, n, out, size, placing.as_mut_ptr(), placing.len())
    }
}

/// Plans a sheet with its rations equally cut, with both buffers lent.
pub fn plan_share(sheet: &[u8], listing: &mut [u8], placing: &mut [u64]) -> ShareAnswer {
    let (bytes, n) = (sheet.as_ptr(), sheet.len());
    let (out, size) = (listing.as_mut_ptr(), listing.len());
    unsafe {
        foreign::kiwimound_plan_share(bytes, n, out, size, placing.as_mut_ptr(), placing.len())
    }
}

/// What a hall lends.
pub struct Hall<'a> {
    pub sheet: &'a [u8],
    pub listing: &'a mut [u8],
    pub placing: &'a mut [u64],
}

/// Plans the first `halls` of four halls that share a limit.
pub fn plan_halls(limit: u32, halls: u32, lent: [Hall; 4]) -> Halls {
    let [h1, h2, h3, h4] = lent;
    unsafe {
        foreign::kiwimound_plan_halls(
            limit,
            halls,
            h1.sheet.as_ptr(),
            h1.sheet.len(),
            h1.listing.as_mut_ptr(),
            h1.listing.len(),
            h1.placing.as_mut_ptr(),
            h1.placing.len(),
            h2.sheet.as_ptr(),
            h2.sheet.len(),
            h2.listing.as_mut_ptr(),
            h2.listing.len(),
            h2.placing.as_mut_ptr(),
            h2.placing.len(),
            h3.sheet.as_ptr(),
            h3.sheet.len(),
            h3.listing.as_mut_ptr(),
            h3.listing.len(),
            h3.placing.as_mut_ptr(),
            h3.placing.len(),
            h4.sheet.as_ptr(),
            h4.sheet.len(),
            h4.listing.as_mut_ptr(),
            h4.listing.len(),
            h4.placing.as_mut_ptr(),
            h4.placing.len(),
        )
    }
}

/// Plans a sheet with no buffer lent.
pub fn plan_number(sheet: &[u8]) -> Planned {
    unsafe { foreign::kiwimound_plan_number(sheet.as_ptr(), sheet.len()) }
}

/// Compares the plans of two sheets.
pub fn compare(one: &[u8], other: &[u8]) -> Compared {
    unsafe { foreign::kiwimound_compare(one.as_ptr(), one.len(), other.as_ptr(), other.len()) }
}

/// Lists why each stretch of a sheet's plan ends where it does.
pub fn causes(sheet: &[u8], out: &mut [u8]) -> CausesAnswer {
    let (listing, size) = (out.as_mut_ptr(), out.len());
    unsafe { foreign::kiwimound_causes(sheet.as_ptr(), sheet.len(), listing, size) }
}

/// The shortfall of the marked slots.
pub fn shortfall(sheet: &[u8], marks: &[u8]) -> ShortfallAnswer {
    unsafe {
        foreign::kiwimound_shortfall(sheet.as_ptr(), sheet.len(), marks.as_ptr(), marks.len())
    }
}

/// Whether a sound placing exists under bounds.
pub fn bounds(sheet: &[u8], lows: &[u32], highs: &[u32]) -> BoundsAnswer {
    let (bytes, n) = (sheet.as_ptr(), sheet.len());
    let (low, size) = (lows.as_ptr(), lows.len());
    unsafe { foreign::kiwimound_bounds(bytes, n, low, size, highs.as_ptr(), highs.len()) }
}

/// Reads a sheet.
pub fn read(sheet: &[u8]) -> Reading {
    unsafe { foreign::kiwimound_read(sheet.as_ptr(), sheet.len()) }
}

/// Writes a sheet: its head line's four numbers and the flat numbers of its rations.
pub fn write(head: [u32; 4], numbers: &[u32], out: &mut [u8]) -> Written {
    let [slots, blowers, wake, rations] = head;
    let (flat, n) = (numbers.as_ptr(), numbers.len());
    unsafe {
        let (buffer, size) = (out.as_mut_ptr(), out.len());
        foreign::kiwimound_write(slots, blowers, wake, rations, flat, n, buffer, size)
    }
}

/// Writes the practice sheet of a seed.
pub fn practice(seed: u32, out: &mut [u8]) -> Written {
    unsafe { foreign::kiwimound_practice(seed, out.as_mut_ptr(), out.len()) }
}

/// Where the lines of a tank stand in the sheet.
pub fn find(sheet: &[u8], tank: u32) -> Part {
    unsafe { foreign::kiwimound_find(sheet.as_ptr(), sheet.len(), tank) }
}
