//! The calls of `librecords.a`, over slices: a day by its numbers and a record for each ration.

use crate::{BoundsAnswer, Planned, ShortfallAnswer, Written};

#[repr(C)]
#[derive(Clone, Copy, Debug, PartialEq, Eq)]
pub struct Ration {
    pub tank: u32,
    pub first: u32,
    pub last: u32,
    pub volume: u32,
}

/// A day: the numbers of a head line, and the rations in their order.
#[derive(Clone, Copy, Debug, PartialEq, Eq)]
pub struct Records<'a> {
    pub slots: u32,
    pub blowers: u32,
    pub wake: u32,
    pub rations: &'a [Ration],
}

extern "C" {
    fn kiwimound_write_rations(
        slots: u32,
        blowers: u32,
        wake: u32,
        rations: *const Ration,
        n: usize,
        out: *mut u8,
        size: usize,
    ) -> Written;
    fn kiwimound_plan_rations(
        slots: u32,
        blowers: u32,
        wake: u32,
        rations: *const Ration,
        n: usize,
        listing: *mut u8,
        size: usize,
    ) -> Planned;
    fn kiwimound_plan_rations_both(
        slots: u32,
        blowers: u32,
        wake: u32,
        rations: *const Ration,
        n: usize,
        listing: *mut u8,
        listing_size: usize,
        placing: *mut u64,
        placing_words: usize,
    ) -> Planned;
    fn kiwimound_shortfall_rations(
        slots: u32,
        blowers: u32,
        wake: u32,
        rations: *const Ration,
        n: usize,
        marks: *const u8,
        count: usize,
    ) -> ShortfallAnswer;
    fn kiwimound_bounds_rations(
        slots: u32,
        blowers: u32,
        wake: u32,
        rations: *const Ration,
        n: usize,
        lows: *const u32,
        low_count: usize,
        highs: *const u32,
        high_count: usize,
    ) -> BoundsAnswer;
}

impl Records<'_> {
    /// Writes the sheet of this day.
    pub fn write(&self, out: &mut [u8]) -> Written {
        let (records, n) = (self.rations.as_ptr(), self.rations.len());
        let (to, size) = (out.as_mut_ptr(), out.len());
        // SAFETY: here and below, each pointer and length are those of one slice.
        unsafe {
            kiwimound_write_rations(self.slots, self.blowers, self.wake, records, n, to, size)
        }
    }

    /// Plans the day, with a plan buffer lent.
    pub fn plan(&self, listing: &mut [u8]) -> Planned {
        let (records, n) = (self.rations.as_ptr(), self.rations.len());
        let (out, size) = (listing.as_mut_ptr(), listing.len());
        unsafe {
            kiwimound_plan_rations(self.slots, self.blowers, self.wake, records, n, out, size)
        }
    }

    /// Plans the day, with both buffers lent.
    pub fn plan_both(&self, listing: &mut [u8], placing: &mut [u64]) -> Planned {
        unsafe {
            kiwimound_plan_rations_both(
                self.slots,
                self.blowers,
                self.wake,
                self.rations.as_ptr(),
                self.rations.len(),
                listing.as_mut_ptr(),
                listing.len(),
                placing.as_mut_ptr(),
                placing.len(),
            )
        }
    }

    /// The shortfall of the marked slots.
    pub fn shortfall(&self, marks: &[u8]) -> ShortfallAnswer {
        let (records, n) = (self.rations.as_ptr(), self.rations.len());
        let (list, count) = (marks.as_ptr(), marks.len());
        unsafe {
            kiwimound_shortfall_rations(
                self.slots,
                self.blowers,
                self.wake,
                records,
                n,
                list,
                count,
            )
        }
    }

    /// Whether a sound placing exists under bounds.
    pub fn bounds(&self, lows: &[u32], highs: &[u32]) -> BoundsAnswer {
        unsafe {
            kiwimound_bounds_rations(
                self.slots,
                self.blowers,
                self.wake,
                self.rations.as_ptr(),
                self.rations.len(),
                lows.as_ptr(),
                lows.len(),
                highs.as_ptr(),
                highs.len(),
            )
        }
    }
}
