//! A second reader of NodaZoneData (`.nzd`) files.
//!
//! It is written from the papers alone (`01-scope.md`, `02-change-requests.md`, the readings in `docs/DECISIONS.md`, the published format) and
//! shares no code, table or text with the proved reader, so that its results can stand as expected results for that one.
//! Plain over clever: everything is decoded first and judged in the order that the paper gives.
//!
//! The comments cite the sentences of `01-scope.md` as "01", those of `02-change-requests.md` as "02", the points of
//! `docs/DECISIONS.md` as "reading N", and those on an ask of 02 as "reading ASK.N".

pub mod aliases;
pub mod calendar;
pub mod close_pool;
pub mod codes;
mod data;
pub mod difference;
pub mod file;
pub mod generate;
pub mod lines;
pub mod local;
pub mod locations;
pub mod named;
pub mod number;
pub mod old;
pub mod pool;
pub mod receiver;
pub mod recurrence;
pub mod replay;
pub mod rewrite;
pub mod starts;
pub mod transition;
pub mod zone;

pub use close_pool::close_pool;
pub use difference::difference;
pub use file::{ask, ask_plain, check, version_text, Answer, Edition, Mark};
pub use lines::lines;
pub use local::{map_local, LocalInstants};
pub use locations::{location, LocationField, Pin};
pub use named::ask_named;
pub use number::{Number, Refusal};
pub use old::ask_named_old;
pub use receiver::Receiver;
pub use replay::replay;
pub use rewrite::{normalize, rewrite};
pub use starts::{find_start, interval_starts};
pub use transition::Transition;
