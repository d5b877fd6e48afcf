//! The protocol bench: n processes, the network and a failure detector, stepped by records; and the calendar, which
//! says whose processes are on the bench of a week.
//!
//! The state is the plain `repr(C)` layout of `layout`, changed in place.

pub mod aggregates;
pub mod calendar;
pub mod calendar_text;
pub mod calendars;
pub mod carried;
pub mod check;
pub mod closes;
pub mod closing;
#[cfg(feature = "proved")]
pub mod compare;
#[cfg(feature = "proved")]
pub mod compare_calendars;
#[cfg(feature = "proved")]
pub mod compare_carried;
pub mod counters;
pub mod date;
pub mod explore;
pub mod gen;
pub mod kinds;
pub mod layout;
pub mod listed;
#[cfg(feature = "proved")]
pub mod met;
pub mod old;
#[cfg(feature = "proved")]
pub mod proved;
pub mod read;
pub mod received;
pub mod record;
pub mod refusal;
pub mod run;
pub mod simulate;
pub mod step;
pub mod summed;
pub mod text;
pub mod ties;
pub mod tool;
pub mod value;
pub mod values;

pub use closing::Closing;
pub use counters::Counters;
pub use layout::{Bench, GlobalData, Process};
pub use old::OldBench;
pub use record::{Event, Message, Record};
pub use refusal::Refusal;
pub use run::{Cause, Ended};
pub use value::Value;
