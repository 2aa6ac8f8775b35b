//! Small days settled by the definitions alone: every placing and every set of
//! slots is enumerated, and nothing is taken from the flow.

use reference::draws::Draws;
use reference::generate::{any_sheet, random_sheet, Sizes};
use reference::listing::held_text_under;
use reference::method::{self, plan_under, Feeding, State};
use reference::placing::{bounds, shortfall, shown_set, Placing, Question};
use reference::sheet::{line_text, Ration, Sheet, LINE};

const SMALL: Sizes = Sizes {
    slots: 4,
    blowers: 3,
    wake: 5,
    rations: 4,
};

/// Every way to give each ration its volume of distinct slots of its window.
fn all_placings(sheet: &Sheet) -> Vec<Placing> {
    let mut placings = vec![vec![]];
    for ration in &sheet.rations {
        let rows: Vec<Vec<bool>> = all_sets(sheet.slots)
            .into_iter()
            .filter(|row| {
                let slots = || (1..=sheet.slots).filter(|&t| row[t as usize - 1]);
                slots().count() as u32 == ration.volume
                    && slots().all(|t| ration.first <= t && t <= ration.last)
            })
            .collect();
        placings = placings
            .iter()
            .flat_map(|before: &Placing| {
                rows.iter().map(|row| {
                    let mut longer = before.clone();
                    longer.push(row.clone());
                    longer
                })
            })
            .collect();
    }
    placings
}

/// Every set of the day's slots, the empty one included.
fn all_sets(slots: u32) -> Vec<Vec<bool>> {
    (0..1_u32 << slots)
        .map(|bits| (0..slots).map(|t| bits >> t & 1 == 1).collect())
        .collect()
}

fn feedings_in(placing: &Placing, t: usize) -> u32 {
    placing.iter().map(|row| u32::from(row[t])).sum()
}

fn within(placing: &Placing, low: &[u32], high: &[u32]) -> bool {
    (0..low.len()).all(|t| (low[t]..=high[t]).contains(&feedings_in(placing, t)))
}

/// Shortfall of a set, by document 01.
fn shortfall_of(sheet: &Sheet, set: &[bool], high: &[u32]) -> i64 {
    let forced: i64 = sheet
        .rations
        .iter()
        .map(|r| {
            let outside = (r.first..=r.last).filter(|&t| !set[t as usize - 1]);
            0.max(i64::from(r.volume) - outside.count() as i64)
        })
        .sum();
    let capacity: i64 = (0..set.len())
        .filter(|&t| set[t])
        .map(|t| i64::from(high[t]))
        .sum();
    forced - capacity
}

/// Excess of a set, by document 01.
fn excess_of(sheet: &Sheet, set: &[bool], low: &[u32]) -> i64 {
    let possible: i64 = sheet
        .rations
        .iter()
        .map(|r| {
            let inside = (r.first..=r.last).filter(|&t| set[t as usize - 1]);
            i64::from(r.volume).min(inside.count() as i64)
        })
        .sum();
    let required: i64 = (0..set.len())
        .filter(|&t| set[t])
        .map(|t| i64::from(low[t]))
        .sum();
    required - possible
}

/// The counts under these highs, each run found as the greatest length for which a placing
/// exists.
fn counts_by_definition(sheet: &Sheet, highs: &[u32], placings: &[Placing]) -> Vec<u32> {
    let day = sheet.slots as usize;
    let mut low = vec![0; day];
    let mut high = highs.to_vec();
    let exists = |low: &[u32], high: &[u32]| placings.iter().any(|p| within(p, low, high));
    for k in (1..=sheet.blowers).rev() {
        let mut t = 0;
        while t < day {
            let narrowed = |length: usize| {
                let mut narrowed = high.clone();
                for bound in &mut narrowed[t..t + length] {
                    *bound = (*bound).min(k - 1);
                }
                narrowed
            };
            let idle = (0..=day - t)
                .rfind(|&length| exists(&low, &narrowed(length)))
                .expect("no slot at all is a run");
            high = narrowed(idle);
            t += idle;
            let raised = |length: usize| {
                let mut raised = low.clone();
                for bound in &mut raised[t..t + length] {
                    *bound = (*bound).max(k);
                }
                raised
            };
            let busy = (0..=day - t)
                .rfind(|&length| exists(&raised(length), &high))
                .expect("no slot at all is a run");
            low = raised(busy);
            t += busy;
            assert!(idle + busy > 0);
        }
    }
    assert_eq!(low, high);
    low
}

/// The feedings, as the placings that are left after each choice.
fn feedings_by_definition(sheet: &Sheet, counts: &[u32], placings: &[Placing]) -> Placing {
    let mut left: Vec<&Placing> = placings
        .iter()
        .filter(|p| within(p, counts, counts))
        .collect();
    for t in 0..sheet.slots as usize {
        for i in 0..sheet.rations.len() {
            if left.iter().any(|p| p[i][t]) {
                left.retain(|p| p[i][t]);
            }
        }
    }
    assert_eq!(left.len(), 1);
    left[0].clone()
}

/// The slots shown: the set of greatest shortfall that lies in every other such set.
fn shown_by_definition(sheet: &Sheet, high: &[u32]) -> Vec<bool> {
    let sets = all_sets(sheet.slots);
    let shortfalls = sets.iter().map(|set| shortfall_of(sheet, set, high));
    let greatest = shortfalls.max().expect("the empty set is one");
    assert!(greatest > 0);
    let best: Vec<&Vec<bool>> = sets
        .iter()
        .filter(|set| shortfall_of(sheet, set, high) == greatest)
        .collect();
    let lies_in = |a: &[bool], b: &[bool]| a.iter().zip(b).all(|(&x, &y)| y || !x);
    let least: Vec<&&Vec<bool>> = best
        .iter()
        .filter(|set| best.iter().all(|other| lies_in(set, other)))
        .collect();
    assert_eq!(least.len(), 1);
    least[0].to_vec()
}

/// A stretch as demand 3 speaks of it: whether it is busy, and its slots from
/// `begin` up to but without `end`, counted from 0.
struct Settled {
    blower: u32,
    busy: bool,
    begin: usize,
    end: usize,
}

impl Settled {
    fn kept_up_to(&self, placing: &Placing, end: usize) -> bool {
        (self.begin..end).all(|t| {
            let feedings = feedings_in(placing, t);
            if self.busy {
                feedings >= self.blower
            } else {
                feedings < self.blower
            }
        })
    }
}

/// Demand 3: the plan keeps all its stretches, and no sound placing that keeps the
/// stretches settled before one carries that one a slot further.
fn check_that_stretches_stop_where_they_must(
    sheet: &Sheet,
    plan: &method::Plan,
    sound: &[&Placing],
) {
    let mut settled = Vec::new();
    for blower in (1..=sheet.blowers).rev() {
        let own = plan.stretches.iter().filter(|s| s.blower == blower);
        for stretch in own {
            let busy = stretch.state == State::Busy;
            let begin = stretch.first as usize - 1;
            if busy && begin == 0 {
                settled.push(Settled {
                    blower,
                    busy: false,
                    begin: 0,
                    end: 0,
                });
            }
            settled.push(Settled {
                blower,
                busy,
                begin,
                end: stretch.last as usize,
            });
        }
    }
    assert!(settled.iter().all(|s| s.kept_up_to(&plan.placing, s.end)));
    let mut keeping: Vec<&Placing> = sound.to_vec();
    for stretch in &settled {
        if stretch.end < sheet.slots as usize {
            let further = |p: &&&Placing| stretch.kept_up_to(p, stretch.end + 1);
            assert_eq!(keeping.iter().find(further), None);
        }
        keeping.retain(|p| stretch.kept_up_to(p, stretch.end));
    }
}

/// The plan of a day alone, whose highs are its blowers. Says whether it is planned.
fn check_plan(sheet: &Sheet) -> bool {
    let high = vec![sheet.blowers; sheet.slots as usize];
    assert_eq!(method::plan(sheet), plan_under(sheet, &high));
    let is_planned = check_plan_under(sheet, &high, &all_placings(sheet));
    assert_eq!(shown_set(sheet).is_none(), is_planned);
    is_planned
}

/// The plan under these highs. Says whether there is one.
fn check_plan_under(sheet: &Sheet, high: &[u32], placings: &[Placing]) -> bool {
    let low = vec![0; high.len()];
    let sound: Vec<&Placing> = placings.iter().filter(|p| within(p, &low, high)).collect();
    match plan_under(sheet, high) {
        Ok(plan) => {
            assert!(!sound.is_empty(), "{sheet:?} {high:?}");
            let counts = counts_by_definition(sheet, high, placings);
            assert_eq!(plan.counts, counts, "{sheet:?} {high:?}");
            let placing = feedings_by_definition(sheet, &counts, placings);
            assert_eq!(plan.placing, placing, "{sheet:?} {high:?}");
            check_feed_lines(sheet, &plan);
            check_energy(sheet, &plan);
            check_that_stretches_stop_where_they_must(sheet, &plan, &sound);
            true
        }
        Err(shown) => {
            assert!(sound.is_empty(), "{sheet:?} {high:?}");
            assert_eq!(
                shown,
                shown_by_definition(sheet, high),
                "{sheet:?} {high:?}"
            );
            check_counts_shown(sheet, high, &shown);
            false
        }
    }
}

/// The line of counts in a held listing: the number of slots shown, what is forced into them,
/// and the sum of their highs.
fn check_counts_shown(sheet: &Sheet, high: &[u32], shown: &Vec<bool>) {
    let slots = || (0..shown.len()).filter(|&t| shown[t]);
    let capacity: u32 = slots().map(|t| high[t]).sum();
    let forced = shortfall_of(sheet, shown, high) + i64::from(capacity);
    let counts = line_text([12, slots().count() as u32, forced as u32, capacity]);
    let listing = held_text_under(sheet, high, shown);
    assert_eq!(
        listing[b"HELD\n".len()..][..LINE],
        counts,
        "{sheet:?} {high:?}"
    );
}

/// Feed lines: in each slot the fed rations in sheet order on blowers 1, 2, .., each with
/// the number of its own feedings so far. No tank is fed by two blowers.
fn check_feed_lines(sheet: &Sheet, plan: &method::Plan) {
    let mut lines = Vec::new();
    for t in 0..sheet.slots as usize {
        let fed = (0..sheet.rations.len()).filter(|&i| plan.placing[i][t]);
        let here: Vec<Feeding> = fed
            .zip(1..)
            .map(|(i, blower)| Feeding {
                slot: t as u32 + 1,
                blower,
                tank: sheet.rations[i].tank,
                part: (0..=t).map(|u| u32::from(plan.placing[i][u])).sum(),
            })
            .collect();
        assert!(here.windows(2).all(|pair| pair[0].tank < pair[1].tank));
        lines.extend(here);
    }
    assert_eq!(plan.feedings, lines, "{sheet:?}");
}

/// Energy slot by slot: an idle slot is on if fewer than q idle slots lie together, and
/// the blower is busy both before and after them.
fn check_energy(sheet: &Sheet, plan: &method::Plan) {
    let day = plan.counts.len();
    let (mut energy, mut starts) = (0, 0);
    for blower in 1..=sheet.blowers {
        let idle = |t: usize| plan.counts[t] < blower;
        let mut on_before = false;
        for t in 0..day {
            let before = (0..t).rev().take_while(|&u| idle(u)).count();
            let after = (t..day).take_while(|&u| idle(u)).count();
            let inner = before < t && t + after < day;
            let on = !idle(t) || (inner && ((before + after) as u32) < sheet.wake);
            energy += u32::from(on);
            if on && !on_before {
                starts += 1;
                energy += sheet.wake;
            }
            on_before = on;
        }
    }
    assert_eq!((plan.energy, plan.starts), (energy, starts), "{sheet:?}");
}

#[test]
fn plans_of_small_days() {
    let mut draws = Draws::new(2);
    let (mut planned, mut meals) = (0, 0);
    for _ in 0..6_000 {
        let sheet = any_sheet(&mut draws, SMALL);
        let is_planned = check_plan(&sheet);
        planned += u32::from(is_planned);
        let is_next = |pair: &[Ration]| pair[0].tank == pair[1].tank;
        meals += u32::from(is_planned && sheet.rations.windows(2).any(is_next));
    }
    assert!((1_000..5_000).contains(&planned), "{planned} planned");
    assert!(meals > 100, "{meals} planned with several meals");
}

/// Highs at random from 0 to the blowers, as earlier halls leave them (request 108).
#[test]
fn plans_of_small_days_under_highs() {
    let mut draws = Draws::new(14);
    let (mut planned, mut elsewhere) = (0, 0);
    for _ in 0..8_000 {
        let mut sheet = random_sheet(&mut draws, SMALL);
        // With less to feed, more of them have a plan.
        for ration in &mut sheet.rations {
            ration.volume = ration.volume.div_ceil(2);
        }
        let most = sheet.blowers;
        let high: Vec<u32> = (0..sheet.slots)
            .map(|_| draws.between(0, most + 1).min(most))
            .collect();
        let is_planned = check_plan_under(&sheet, &high, &all_placings(&sheet));
        planned += u32::from(is_planned);
        elsewhere += u32::from(is_planned && plan_under(&sheet, &high) != method::plan(&sheet));
    }
    assert!((1_000..5_000).contains(&planned), "{planned} planned");
    assert!(elsewhere > 300, "{elsewhere} planned otherwise than alone");
}

/// Every list of highs up to the blowers.
fn all_highs(slots: u32, blowers: u32) -> Vec<Vec<u32>> {
    let mut lists = vec![vec![]];
    for _ in 0..slots {
        let longer = |list: &Vec<u32>| {
            let list = list.clone();
            (0..=blowers).map(move |high| [&list[..], &[high]].concat())
        };
        lists = lists.iter().flat_map(longer).collect();
    }
    lists
}

/// Tanks for a list of windows: one each, and as few as check 13 allows.
fn tank_choices(list: &[(u32, u32, u32)]) -> [Vec<u32>; 2] {
    let mut few: Vec<u32> = Vec::new();
    for (i, &(first, _, _)) in list.iter().enumerate() {
        few.push(match few.last() {
            None => 1,
            Some(&tank) if list[i - 1].1 < first => tank,
            Some(&tank) => tank + 1,
        });
    }
    [(1..=list.len() as u32).collect(), few]
}

/// Every day of up to three slots, two blowers and three rations, alone and under all highs.
#[test]
fn plans_of_all_tiny_days() {
    for slots in 1..=3 {
        let mut kinds = Vec::new();
        for first in 1..=slots {
            for last in first..=slots {
                for volume in 1..=last - first + 1 {
                    kinds.push((first, last, volume));
                }
            }
        }
        let mut lists = vec![vec![]];
        for length in 0..=3 {
            for list in &lists {
                let ration = |(&(first, last, volume), tank)| Ration {
                    tank,
                    first,
                    last,
                    volume,
                };
                for tanks in tank_choices(list) {
                    let rations: Vec<Ration> = list.iter().zip(tanks).map(ration).collect();
                    for blowers in 1..=2 {
                        let sheet = Sheet {
                            slots,
                            blowers,
                            wake: length,
                            rations: rations.clone(),
                        };
                        check_plan(&sheet);
                        let placings = all_placings(&sheet);
                        for high in all_highs(slots, blowers) {
                            check_plan_under(&sheet, &high, &placings);
                        }
                    }
                }
            }
            lists = lists
                .iter()
                .flat_map(|list| {
                    kinds.iter().map(|&kind| {
                        let mut longer = list.clone();
                        longer.push(kind);
                        longer
                    })
                })
                .collect();
        }
    }
}

#[test]
fn bounds_of_small_days() {
    let mut draws = Draws::new(3);
    let mut yes = 0;
    for _ in 0..6_000 {
        let sheet = random_sheet(&mut draws, SMALL);
        let placings = all_placings(&sheet);
        let day = sheet.slots as usize;
        let low: Vec<u32> = (0..day).map(|_| draws.below(6).saturating_sub(3)).collect();
        let lent: Vec<u32> = (0..day)
            .map(|t| low[t].max(1) + draws.below(4) - 1)
            .collect();
        let high: Vec<u32> = lent.iter().map(|&h| h.min(sheet.blowers)).collect();
        let answer = placings.iter().any(|p| within(p, &low, &high));
        assert_eq!(
            bounds(&sheet.text(), &low, &lent),
            (0, 0, answer),
            "{sheet:?}"
        );
        // The condition of document 01.
        let condition = (0..day).all(|t| low[t] <= high[t])
            && all_sets(sheet.slots).iter().all(|set| {
                shortfall_of(&sheet, set, &high) <= 0 && excess_of(&sheet, set, &low) <= 0
            });
        assert_eq!(condition, answer, "{sheet:?}");
        yes += u32::from(answer);
    }
    assert!((500..5_500).contains(&yes), "{yes} answered yes");
}

#[test]
fn shortfalls_of_small_days() {
    let mut draws = Draws::new(4);
    for _ in 0..2_000 {
        let sheet = any_sheet(&mut draws, SMALL);
        let high = vec![sheet.blowers; sheet.slots as usize];
        let low: Vec<u32> = high.iter().map(|_| draws.below(3)).collect();
        let question = Question::under(&sheet, &low, &high);
        for set in all_sets(sheet.slots) {
            let marks: Vec<u8> = set.iter().map(|&q| u8::from(q)).collect();
            let (number, line, value) = shortfall(&sheet.text(), &marks);
            assert_eq!((number, line), (0, 0));
            assert_eq!(i64::from(value), shortfall_of(&sheet, &set, &high));
            assert_eq!(i64::from(question.shortfall(&set)), i64::from(value));
            assert_eq!(
                i64::from(question.excess(&set)),
                excess_of(&sheet, &set, &low)
            );
        }
    }
}
