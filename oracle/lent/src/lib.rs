//! 01's lent tables as plain vectors, the rows that they hold, a call with all that it is lent, and the refusals that
//! slatedb's code has no counterpart for.
pub mod case;
pub mod refusals;
pub mod rows;
pub mod tables;

pub use case::{Answer, Case, Kind, Options};
pub use rows::{Job, Run, Source, Tree, Ulid, View, Watermark};
pub use tables::{Jobs, LoneJob, LoneSpec, Plan, Sources, Trees};

/// 01, "Capacities".
pub const TREES: usize = 32;
pub const L0_ROWS: usize = 512;
pub const RUNS: usize = 512;
pub const JOBS: usize = 64;
pub const SOURCES: usize = 1024;
pub const CONCURRENT: u32 = 64;
/// 01, refusal 3: "not 1 <= min <= max <= 64".
pub const MAX: u32 = 64;
