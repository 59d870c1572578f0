//! How the library's C entries are called.

mod cutting;
#[cfg(feature = "division")]
mod dividing;
#[cfg(feature = "exact")]
mod searching;
#[cfg(feature = "earlier")]
mod writing;

pub use cutting::estimate;
#[cfg(feature = "earlier")]
pub use cutting::CutRow;
#[cfg(feature = "division")]
pub use dividing::divide;
#[cfg(feature = "earlier")]
pub use dividing::DivideTable;
#[cfg(feature = "exact")]
pub use searching::search;
#[cfg(feature = "earlier")]
pub use writing::{share_out, write, ShareOut, WriteText, Written};
