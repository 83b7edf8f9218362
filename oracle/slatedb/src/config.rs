//! Stand-in for config.rs: the scheduler's options, always given and as numbers. Decides nothing: reading them from a map of
//! texts, and their defaults, are not compared.
use std::collections::HashMap;

#[derive(Clone, Copy, Debug)]
pub struct SizeTieredCompactionSchedulerOptions {
    pub min_compaction_sources: usize,
    pub max_compaction_sources: usize,
    pub include_size_threshold: f32,
}

impl Default for SizeTieredCompactionSchedulerOptions {
    fn default() -> Self {
        unreachable!("every option is given")
    }
}

impl From<&HashMap<String, String>> for SizeTieredCompactionSchedulerOptions {
    fn from(_map: &HashMap<String, String>) -> Self {
        unreachable!("options are handed over as numbers")
    }
}

pub struct CompactorOptions {
    pub(crate) scheduler_options: HashMap<String, String>,
    pub(crate) max_concurrent_compactions: usize,
}
