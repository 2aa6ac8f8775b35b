//! Halls that share a limit on busy blowers.
use crate::ffi;
use crate::plan::{Held, Plan};
use crate::sheet::Sheet;
use std::borrow::Borrow;
use std::error::Error;
use std::fmt;

/// Plans up to four halls on one fuse: in every slot at most `limit` blowers are busy, those of all halls counted
/// together.
///
/// Halls are planned in the order of the slice. In each slot a hall has its own blowers, or what those before it leave
/// of the limit there if that is less; a hall that is held takes none, and none takes any after its day. So what a hall
/// gets is not changed by those after it. Each result is that of the hall with the same place. A hall whose sheet
/// [`Sheet::read`] refuses is left out: it would take no blower either.
///
/// ```
/// use kiwimound::{plan_halls, Sheet};
///
/// // One feeding in three slots, as late as can be; one blower for four halls.
/// let sheet = Sheet::read("     3     1     1     1\n     1     1     3     1\n")?;
/// let days = plan_halls(1, &[&sheet; 4])?;
/// let fed: Vec<u32> = days.iter().flatten().map(|plan| plan.feedings()[0].slot).collect();
/// assert_eq!(fed, [3, 2, 1]);
/// assert_eq!(days[3].as_ref().unwrap_err().capacity, 0);
/// # Ok::<(), Box<dyn std::error::Error>>(())
/// ```
///
/// # Errors
///
/// The limit or the number of halls is refused, and no hall is planned.
pub fn plan_halls<S: Borrow<Sheet>>(
    limit: u32,
    halls: &[S],
) -> Result<Vec<Result<Plan, Held>>, HallsRefusal> {
    let sheets: Vec<&[u8]> = halls.iter().map(|hall| hall.borrow().bytes()).collect();
    let days = ffi::plan_halls(limit, &sheets).ok_or(HallsRefusal {
        limit,
        halls: halls.len(),
    })?;
    let outcomes = halls.iter().zip(days);
    Ok(outcomes
        .map(|(hall, day)| hall.borrow().outcome(day))
        .collect())
}

/// Number 14: the limit is not 1 to 32, or the halls are not 1 to 4.
#[derive(Clone, Copy, Debug, PartialEq, Eq, Hash)]
pub struct HallsRefusal {
    /// The limit that was given.
    pub limit: u32,
    /// How many halls there were.
    pub halls: usize,
}

impl HallsRefusal {
    /// The refusal's number, 14.
    pub fn number(self) -> u32 {
        14
    }
}

impl fmt::Display for HallsRefusal {
    fn fmt(&self, f: &mut fmt::Formatter<'_>) -> fmt::Result {
        write!(
            f,
            "refused, number {}: the limit, {}, is not 1 to 32, or the halls, {}, are not 1 to 4",
            self.number(),
            self.limit,
            self.halls
        )
    }
}

impl Error for HallsRefusal {}
