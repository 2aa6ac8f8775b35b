//! Plans the feed day of a trout farm: which blowers run in which quarter-hour, and what they feed.
//!
//! The planning is done by `libkiwimound.a`, whose every function is proved against a written definition. The crate is
//! for version 2 of it, and links with no other. It adds types that leave little to get wrong: a [`Sheet`] is bytes
//! that were accepted, so that each question about one has an answer; buffers have their full size; the listing comes
//! back as numbers.
//!
//! ```
//! use kiwimound::{Sheet, State};
//!
//! let sheet = Sheet::read(concat!(
//!     "     4     2     2     3\n",
//!     "     1     1     2     2\n",
//!     "     2     1     4     2\n",
//!     "     3     2     3     1\n",
//! ))?;
//! let plan = sheet.plan()?;
//! assert_eq!(plan.energy(), 9);
//! assert_eq!(plan.bill(), 16);
//! let off = plan.stretches().iter().find(|s| s.state == State::Off).unwrap();
//! assert_eq!((off.blower, off.first, off.last), (2, 1, 2));
//! assert!(plan.tanks_in(3).eq([2, 3]));
//! # Ok::<(), Box<dyn std::error::Error>>(())
//! ```
//!
//! The library keeps no state: all types here are [`Send`] and [`Sync`], and any number of threads may plan at once.
#![deny(missing_docs)]
#![deny(unsafe_code)]

mod causes;
mod ffi;
mod halls;
mod listing;
mod plan;
mod refusal;
mod sheet;

pub use causes::{Cause, Causes, Ending};
pub use halls::{plan_halls, HallsRefusal};
pub use plan::{Feeding, Held, Plan, State, Stretch};
pub use refusal::{Fault, Refusal};
pub use sheet::{Bounds, Head, Ration, Sheet};
