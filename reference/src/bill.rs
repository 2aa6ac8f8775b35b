//! The day's power bill (request 103), from the stretches as they are listed. A charge is
//! in tenths of a cent.

use crate::method::{State, Stretch};

/// Slots of an hour.
const SLOTS_OF_HOUR: u32 = 4;

/// Tenths of a cent per energy unit in a slot, counted from 1: the rate of its hour.
pub fn rate(slot: u32) -> u32 {
    match (slot - 1) / SLOTS_OF_HOUR {
        0..=5 => 18,
        6..=8 => 31,
        9..=16 => 24,
        17..=20 => 36,
        21..=23 => 22,
        hour => panic!("no day has an hour {hour}"),
    }
}

/// The day's charge: the sum of the blowers'. The stretches are by blower, then slot.
pub fn charge(wake: u32, stretches: &[Stretch]) -> u32 {
    stretches
        .chunk_by(|a, b| a.blower == b.blower)
        .map(|own| blower_charge(wake, own))
        .sum()
}

/// The charge of one blower, which is off before slot 1: an on slot costs its rate, a
/// start the wake cost times the rate of its first on slot.
fn blower_charge(wake: u32, stretches: &[Stretch]) -> u32 {
    let mut charge = 0;
    let mut before = State::Off;
    for stretch in stretches {
        if stretch.state != State::Off {
            charge += (stretch.first..=stretch.last).map(rate).sum::<u32>();
            if before == State::Off {
                charge += wake * rate(stretch.first);
            }
        }
        before = stretch.state;
    }
    charge
}

/// The whole cents of a charge, halves upward.
pub fn cents(charge: u32) -> u32 {
    (charge + 5) / 10
}
