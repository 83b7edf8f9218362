//! Stand-in for compactor_state_protocols.rs: the view that a scheduler is shown. Decides nothing.
use crate::compactor_state::VersionedCompactions;
use crate::manifest::VersionedManifest;

pub struct CompactorStateView {
    pub(crate) compactions: Option<VersionedCompactions>,
    pub(crate) manifest: VersionedManifest,
}

impl CompactorStateView {
    pub fn compactions(&self) -> Option<&VersionedCompactions> {
        self.compactions.as_ref()
    }

    pub fn manifest(&self) -> &VersionedManifest {
        &self.manifest
    }
}
