//! Days for the power bill (request 103), which several streams share.

use super::sheets::{day_of, Lines};
use crate::sheet::MOST_WAKE;

/// For each hour a day with one feeding in its first slot, whose start costs, and one with
/// one in its last slot, whose start is free.
pub fn hour_days() -> Vec<Lines> {
    let days = (0..24).flat_map(|hour| {
        let (first, last) = (4 * hour + 1, 4 * hour + 4);
        [
            day_of(96, 1, 10 + hour, &[[first, first, 1]]),
            day_of(96, 1, 0, &[[last, last, 1]]),
        ]
    });
    days.collect()
}

/// Small days whose charges are near a half or a whole hundred of cents, and days whose
/// blowers' charges would be rounded to another sum one by one.
pub fn rounding_days() -> Vec<Lines> {
    vec![
        // 155 tenths of a cent, 55, 54, 36, 995, 990, 1,008.
        day_of(29, 1, 0, &[[25, 29, 5]]),
        day_of(37, 1, 0, &[[36, 37, 2]]),
        day_of(3, 1, 0, &[[1, 3, 3]]),
        day_of(2, 1, 0, &[[1, 2, 2]]),
        day_of(70, 1, 0, &[[32, 70, 39]]),
        day_of(1, 1, 54, &[[1, 1, 1]]),
        day_of(1, 1, 55, &[[1, 1, 1]]),
        // Twice 54, twice 55, 93 and 62.
        day_of(3, 2, 0, &[[1, 3, 3]; 2]),
        day_of(37, 2, 0, &[[36, 37, 2]; 2]),
        day_of(27, 2, 0, &[[25, 27, 3], [26, 27, 2]]),
    ]
}

/// Days of 96 slots with starts in all hours: one feeding in every second slot, two in
/// every third, eight in every twelfth, each with wake costs that switch a blower off in
/// between and with the least that leaves it on.
pub fn start_days() -> Vec<Lines> {
    let mut days = Vec::new();
    for (step, blowers) in [(2, 1), (3, 2), (12, 8)] {
        let windows: Vec<[u32; 3]> = (1..=96)
            .step_by(step)
            .flat_map(|slot| vec![[slot, slot, 1]; blowers])
            .collect();
        let idle = step as u32 - 1;
        for wake in [0, 1, idle, idle + 1] {
            days.push(day_of(96, blowers as u32, wake, &windows));
        }
    }
    days
}

/// Eight blowers busy together from a slot on to the end of the day, at the greatest wake
/// cost: from the first slot of each rate.
pub fn dear_days() -> Vec<Lines> {
    let busy_from = |first| day_of(96, 8, MOST_WAKE, &[[first, 96, 97 - first]; 8]);
    [1, 25, 37, 69, 85].map(busy_from).to_vec()
}

#[cfg(test)]
mod tests {
    use super::*;
    use crate::bill::cents;
    use crate::cases::sheets::text;
    use crate::method::{self, Plan, State};
    use crate::sheet::read;

    fn plans(days: &[Lines]) -> Vec<Plan> {
        let plan = |lines: &Lines| method::plan(&read(&text(lines)).expect("accepted"));
        days.iter().map(|l| plan(l).expect("planned")).collect()
    }

    fn charges(days: &[Lines]) -> Vec<u32> {
        plans(days).iter().map(|plan| plan.charge).collect()
    }

    #[test]
    fn each_hour_has_its_days() {
        for (hour, days) in hour_days().chunks(2).enumerate() {
            let hours: Vec<Vec<u32>> = plans(days)
                .iter()
                .map(|plan| {
                    let busy = plan.stretches.iter().filter(|s| s.state == State::Busy);
                    busy.map(|s| (s.first - 1) / 4).collect()
                })
                .collect();
            assert_eq!(hours, vec![vec![hour as u32]; 2]);
        }
    }

    #[test]
    fn charges_that_are_rounded() {
        let expected = [155, 55, 54, 36, 995, 990, 1_008, 108, 110, 155];
        assert_eq!(charges(&rounding_days()), expected);
    }

    #[test]
    fn some_days_have_a_start_in_each_hour() {
        let starts: Vec<u32> = plans(&start_days()).iter().map(|p| p.starts).collect();
        assert_eq!(starts, [48, 48, 48, 1, 64, 64, 64, 2, 64, 64, 64, 8]);
    }

    #[test]
    fn dear_days_cost_hundreds_of_hundreds_of_cents() {
        let charges = charges(&dear_days());
        let expected = [
            8 * (2_412 + 2_000 * 18),
            8 * (1_980 + 2_000 * 31),
            8 * (1_608 + 2_000 * 24),
            8 * (840 + 2_000 * 36),
            8 * (264 + 2_000 * 22),
        ];
        assert_eq!(charges, expected);
        assert!(charges.into_iter().all(|charge| cents(charge) > 30_000));
    }
}
