//! The order of plans, and the comparison of two sheets (request 109).

use crate::method::{self, Plan};
use crate::sheet::{read, Refusal};

/// What a comparison says of the first of two plans, by the number that its answer has for
/// it. No where a sheet is refused, by 12 too.
#[derive(Clone, Copy, Debug, PartialEq, Eq)]
pub enum Order {
    No = 0,
    Same = 1,
    Before = 2,
    After = 3,
}

/// For each slot of a day the list of fed tanks, in sheet order, as the feed lines of that
/// slot have them. There are as many lists as slots.
pub type Tanks = Vec<Vec<u32>>;

pub fn fed_tanks(plan: &Plan) -> Tanks {
    let mut tanks = vec![Vec::new(); plan.counts.len()];
    for feeding in &plan.feedings {
        tanks[feeding.slot as usize - 1].push(feeding.tank);
    }
    tanks
}

/// The order of two numbers: the smaller first.
fn order_of_numbers<N: PartialOrd>(one: N, other: N) -> Order {
    if one < other {
        Order::Before
    } else if one > other {
        Order::After
    } else {
        Order::Same
    }
}

/// The order of two lists: number by number, a list that ends first being smaller.
fn order_of_lists(one: &[u32], other: &[u32]) -> Order {
    for (a, b) in one.iter().zip(other) {
        if a != b {
            return order_of_numbers(a, b);
        }
    }
    order_of_numbers(one.len(), other.len())
}

/// The order of two plans: the smaller D first, then at the first slot that differs the
/// smaller list.
pub fn order_of_plans(one: &[Vec<u32>], other: &[Vec<u32>]) -> Order {
    if one.len() != other.len() {
        return order_of_numbers(one.len(), other.len());
    }
    for (a, b) in one.iter().zip(other) {
        if a != b {
            return order_of_lists(a, b);
        }
    }
    Order::Same
}

/// The fed tanks of a sheet's plan. All checks of the sheet are made, 12 included.
fn planned(bytes: &[u8]) -> Result<Tanks, Refusal> {
    let sheet = read(bytes)?;
    let held = Refusal {
        number: 12,
        line: 0,
    };
    let plan = method::plan(&sheet).map_err(|_| held)?;
    Ok(fed_tanks(&plan))
}

/// The comparison: number, line, and the order of the plans, said of the first. All checks
/// of the first sheet, 12 included, come before those of the second.
pub fn compare(first: &[u8], second: &[u8]) -> (u32, u32, Order) {
    match planned(first).and_then(|one| Ok((one, planned(second)?))) {
        Ok((one, other)) => (0, 0, order_of_plans(&one, &other)),
        Err(Refusal { number, line }) => (number, line, Order::No),
    }
}
