//! The least sets of slots of greatest shortfall and of greatest excess, each by a least
//! cut of a network made for it alone: the highs have no part in an excess, nor the lows in
//! a shortfall.
//!
//! In both networks the least cuts are the sets in question, and the cut nearest the source
//! lies in every other least one. So the slots on its source's side are the set contained
//! in every set of greatest shortfall, or of greatest excess; it is empty exactly if no set
//! has one above zero, the empty set having 0.

use crate::flow::Network;
use crate::placing::{Placing, Question, SlotSet};

/// The set contained in every set of greatest shortfall.
///
/// Rations give their volume and slots take up to their high. A cut with slots Q on the
/// source's side costs the high of each slot of Q, and for each ration the less of its
/// volume, if the ration is on the sink's side, and its open slots outside Q, if it is on
/// the source's. This less is the volume without what is forced into Q, so the cut costs
/// the whole volume − shortfall(Q).
///
/// The flow may start from a placing known before; this changes nothing but the time.
pub fn of_greatest_shortfall(question: &Question, start: Option<&Placing>) -> SlotSet {
    let cell = |ration: usize, slot: usize| question.open[ration][slot];
    let known = |ration: usize, slot: usize| start.is_some_and(|fed| fed[ration][slot]);
    let cut = nearest_cut(&question.volume, &question.high, cell, known);
    let volume: u32 = question.volume.iter().sum();
    // The flow shows that no set has a greater shortfall than this one.
    assert_eq!(
        question.shortfall(&cut.takers),
        volume as i32 - cut.flow as i32
    );
    cut.takers
}

/// The set contained in every set of greatest excess.
///
/// Slots give their low and rations take up to their volume. A cut with slots Q on the
/// source's side costs the low of each slot outside Q, and for each ration the less of its
/// volume, if the ration is on the source's side, and its open slots inside Q, if it is on
/// the sink's. This less is what is possible in Q, so the cut costs the sum of all lows −
/// excess(Q).
///
/// The flow may start from a placing known before; this changes nothing but the time.
pub fn of_greatest_excess(question: &Question, start: Option<&Placing>) -> SlotSet {
    let cell = |slot: usize, ration: usize| question.open[ration][slot];
    let known = |slot: usize, ration: usize| start.is_some_and(|fed| fed[ration][slot]);
    let cut = nearest_cut(&question.low, &question.volume, cell, known);
    let lows: u32 = question.low.iter().sum();
    // The flow shows that no set has a greater excess than this one.
    assert_eq!(question.excess(&cut.givers), lows as i32 - cut.flow as i32);
    cut.givers
}

/// The source's side of the least cut nearest the source, and the greatest flow.
struct Cut {
    givers: Vec<bool>,
    takers: Vec<bool>,
    flow: u32,
}

/// From the source to each giver goes what it gives, from a giver to a taker one unit if
/// they have a cell, and from each taker to the sink what it takes. The flow starts with
/// the known cells, as far as they fit.
fn nearest_cut(
    gives: &[u32],
    takes: &[u32],
    cell: impl Fn(usize, usize) -> bool,
    known: impl Fn(usize, usize) -> bool,
) -> Cut {
    let (source, sink) = (0, 1);
    let giver_node = |g: usize| 2 + g;
    let taker_node = |t: usize| 2 + gives.len() + t;
    let mut network = Network::new(2 + gives.len() + takes.len());
    let mut out = Vec::new();
    for (g, &amount) in gives.iter().enumerate() {
        out.push(network.add_edge(source, giver_node(g), amount));
    }
    let mut into = Vec::new();
    for (t, &amount) in takes.iter().enumerate() {
        into.push(network.add_edge(taker_node(t), sink, amount));
    }
    for (g, &from) in out.iter().enumerate() {
        for (t, &to) in into.iter().enumerate().filter(|&(t, _)| cell(g, t)) {
            let unit = network.add_edge(giver_node(g), taker_node(t), 1);
            if known(g, t) {
                network.send_along(&[from, unit, to]);
            }
        }
    }
    network.maximise(source, sink);
    let reached = network.reached_from(source);
    Cut {
        givers: (0..gives.len()).map(|g| reached[giver_node(g)]).collect(),
        takers: (0..takes.len()).map(|t| reached[taker_node(t)]).collect(),
        flow: out.iter().map(|&e| network.flow_on(e)).sum(),
    }
}

#[cfg(test)]
mod tests {
    use super::*;
    use crate::draws::Draws;
    use crate::generate::{any_sheet, Sizes};
    use crate::placing::shown_set;

    const SMALL: Sizes = Sizes {
        slots: 7,
        blowers: 4,
        wake: 5,
        rations: 6,
    };

    /// The set of the greatest value that lies in every other such set.
    fn least_of_greatest(slots: usize, value: impl Fn(&[bool]) -> i32) -> SlotSet {
        let all: Vec<SlotSet> = (0..1_u32 << slots)
            .map(|bits| (0..slots).map(|t| bits >> t & 1 == 1).collect())
            .collect();
        let greatest = all.iter().map(|set| value(set)).max();
        let best: Vec<&SlotSet> = all
            .iter()
            .filter(|set| Some(value(set)) == greatest)
            .collect();
        let common: SlotSet = (0..slots).map(|t| best.iter().all(|set| set[t])).collect();
        assert!(best.contains(&&common));
        common
    }

    /// Bounds at random, lows above highs and infeasible ones included; the flow starts
    /// from nothing, and from any choice of open slots.
    #[test]
    fn sets_under_any_bounds() {
        let mut draws = Draws::new(12);
        let (mut shortfalls, mut excesses) = (0, 0);
        for _ in 0..4_000 {
            let sheet = any_sheet(&mut draws, SMALL);
            let mut question = Question::of_day(&sheet);
            let day = question.low.len();
            let most = draws.between(1, 5);
            for t in 0..day {
                question.low[t] = draws.below(most);
                question.high[t] = draws.below(5);
            }
            let start: Placing = question
                .open
                .iter()
                .map(|row| row.iter().map(|&o| o && draws.one_in(2)).collect())
                .collect();
            let short = least_of_greatest(day, |set| question.shortfall(set));
            let over = least_of_greatest(day, |set| question.excess(set));
            for start in [None, Some(&start)] {
                assert_eq!(of_greatest_shortfall(&question, start), short, "{sheet:?}");
                assert_eq!(of_greatest_excess(&question, start), over, "{sheet:?}");
            }
            shortfalls += u32::from(question.shortfall(&short) > 0);
            excesses += u32::from(question.excess(&over) > 0);
        }
        assert!((1_000..3_900).contains(&shortfalls), "{shortfalls}");
        assert!((1_000..3_900).contains(&excesses), "{excesses}");
    }

    #[test]
    fn the_slots_shown_of_a_held_sheet() {
        let mut draws = Draws::new(13);
        for _ in 0..1_000 {
            let sheet = any_sheet(&mut draws, SMALL);
            let set = of_greatest_shortfall(&Question::of_day(&sheet), None);
            let empty = !set.contains(&true);
            assert_eq!((!empty).then_some(set), shown_set(&sheet));
        }
    }
}
