//! The declarations of `libkiwimound.a`, as in include/kiwimound.h.

#[repr(C)]
#[derive(Clone, Copy, Debug, PartialEq, Eq)]
pub struct Planned {
    pub number: u32,
    pub line: u32,
    pub length: usize,
}

#[repr(C)]
#[derive(Clone, Copy, Debug, PartialEq, Eq)]
pub struct ShareAnswer {
    pub number: u32,
    pub line: u32,
    pub length: usize,
    pub share: u32,
}

#[repr(C)]
#[derive(Clone, Copy, Debug, PartialEq, Eq)]
pub struct Halls {
    pub number: u32,
    pub line: u32,
    pub hall: [Planned; 4],
}

#[repr(C)]
#[derive(Clone, Copy, Debug, PartialEq, Eq)]
pub struct Compared {
    pub number: u32,
    pub line: u32,
    pub order: u32,
}

#[repr(C)]
#[derive(Clone, Copy, Debug, PartialEq, Eq)]
pub struct ShortfallAnswer {
    pub number: u32,
    pub line: u32,
    pub shortfall: i32,
}

#[repr(C)]
#[derive(Clone, Copy, Debug, PartialEq, Eq)]
pub struct BoundsAnswer {
    pub number: u32,
    pub line: u32,
    pub yes: bool,
}

#[repr(C)]
#[derive(Clone, Copy, Debug, PartialEq, Eq)]
pub struct CausesAnswer {
    pub number: u32,
    pub line: u32,
    pub length: usize,
    pub cut: bool,
}

#[repr(C)]
#[derive(Clone, Copy, Debug, PartialEq, Eq)]
pub struct Reading {
    pub number: u32,
    pub line: u32,
    pub slots: u32,
    pub blowers: u32,
    pub wake: u32,
    pub rations: u32,
    pub numbers: [u32; 256],
}

#[repr(C)]
#[derive(Clone, Copy, Debug, PartialEq, Eq)]
pub struct Written {
    pub number: u32,
    pub line: u32,
    pub length: usize,
}

#[repr(C)]
#[derive(Clone, Copy, Debug, PartialEq, Eq)]
pub struct Part {
    pub start: usize,
    pub length: usize,
}

extern "C" {
    pub fn kiwimound_version_2() -> u32;
    pub fn kiwimound_plan(b: *const u8, n: usize, listing: *mut u8, size: usize) -> Planned;
    pub fn kiwimound_plan_placing(
        b: *const u8,
        n: usize,
        placing: *mut u64,
        words: usize,
    ) -> Planned;
    pub fn kiwimound_plan_both(
        b: *const u8,
        n: usize,
        listing: *mut u8,
        listing_size: usize,
        placing: *mut u64,
        placing_words: usize,
    ) -> Planned;
    pub fn kiwimound_plan_share(
        b: *const u8,
        n: usize,
        listing: *mut u8,
        listing_size: usize,
        placing: *mut u64,
        placing_words: usize,
    ) -> ShareAnswer;
    pub fn kiwimound_plan_halls(
        limit: u32,
        halls: u32,
        b1: *const u8,
        n1: usize,
        listing1: *mut u8,
        listing1_size: usize,
        placing1: *mut u64,
        placing1_words: usize,
        b2: *const u8,
        n2: usize,
        listing2: *mut u8,
        listing2_size: usize,
        placing2: *mut u64,
        placing2_words: usize,
        b3: *const u8,
        n3: usize,
        listing3: *mut u8,
        listing3_size: usize,
        placing3: *mut u64,
        placing3_words: usize,
        b4: *const u8,
        n4: usize,
        listing4: *mut u8,
        listing4_size: usize,
        placing4: *mut u64,
        placing4_words: usize,
    ) -> Halls;
    pub fn kiwimound_plan_number(b: *const u8, n: usize) -> Planned;
    pub fn kiwimound_compare(a: *const u8, m: usize, b: *const u8, n: usize) -> Compared;
    pub fn kiwimound_causes(b: *const u8, n: usize, out: *mut u8, size: usize) -> CausesAnswer;
    pub fn kiwimound_shortfall(
        b: *const u8,
        n: usize,
        marks: *const u8,
        slots: usize,
    ) -> ShortfallAnswer;
    pub fn kiwimound_bounds(
        b: *const u8,
        n: usize,
        lows: *const u32,
        low_count: usize,
        highs: *const u32,
        high_count: usize,
    ) -> BoundsAnswer;
    pub fn kiwimound_read(b: *const u8, n: usize) -> Reading;
    pub fn kiwimound_write(
        slots: u32,
        blowers: u32,
        wake: u32,
        rations: u32,
        numbers: *const u32,
        count: usize,
        out: *mut u8,
        size: usize,
    ) -> Written;
    pub fn kiwimound_practice(seed: u32, out: *mut u8, size: usize) -> Written;
    pub fn kiwimound_find(b: *const u8, n: usize, tank: u32) -> Part;
}
