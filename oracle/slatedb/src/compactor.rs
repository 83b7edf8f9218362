//! Stand-in for compactor.rs: the two scheduler traits, as far as the size-tiered scheduler has them. Decides nothing.
use crate::compactor_state::CompactionSpec;
use crate::compactor_state_protocols::CompactorStateView;
use crate::config::CompactorOptions;
use crate::error::Error;

/// The scheduler is made from options as numbers here, so nobody asks a supplier for one.
#[allow(dead_code)]
pub trait CompactionSchedulerSupplier: Send + Sync {
    fn compaction_scheduler(
        &self,
        options: &CompactorOptions,
    ) -> Box<dyn CompactionScheduler + Send + Sync>;
}

pub trait CompactionScheduler: Send + Sync {
    fn propose(&self, state: &CompactorStateView) -> Vec<CompactionSpec>;
    fn validate(&self, state: &CompactorStateView, spec: &CompactionSpec) -> Result<(), Error>;
}
