//! One call with all that it is lent, and what a call answers.
use crate::rows::{Run, Ulid};
use crate::tables::{Jobs, LoneJob, LoneSpec, Plan, Trees};

/// 01's options, as C hands them over.
#[repr(C)]
#[derive(Clone, Copy, Debug)]
pub struct Options {
    pub min: u32,
    pub max: u32,
    pub concurrent: u32,
    pub threshold: f32,
}

/// By the threshold's bits: not a number is the same option as itself.
impl PartialEq for Options {
    fn eq(&self, other: &Self) -> bool {
        (self.min, self.max, self.concurrent) == (other.min, other.max, other.concurrent)
            && self.threshold.to_bits() == other.threshold.to_bits()
    }
}

#[derive(Clone, Debug, PartialEq)]
pub enum Case {
    Plan {
        trees: Trees,
        jobs: Jobs,
        options: Options,
        plan: Plan,
    },
    Validate {
        trees: Trees,
        spec: LoneSpec,
    },
    Add {
        jobs: Jobs,
        job: LoneJob,
    },
    Merge {
        local: Jobs,
        remote: Jobs,
    },
    Retain {
        jobs: Jobs,
    },
    Finish {
        trees: Trees,
        jobs: Jobs,
        id: Ulid,
        output: Run,
    },
    Drain {
        trees: Trees,
        jobs: Jobs,
        id: Ulid,
    },
}

#[derive(Clone, Copy, Debug, PartialEq, Eq, PartialOrd, Ord)]
pub enum Kind {
    Plan,
    Validate,
    Add,
    Merge,
    Retain,
    Finish,
    Drain,
}

impl Kind {
    pub const ALL: [Kind; 7] = [
        Kind::Plan,
        Kind::Validate,
        Kind::Add,
        Kind::Merge,
        Kind::Retain,
        Kind::Finish,
        Kind::Drain,
    ];

    pub fn name(self) -> &'static str {
        match self {
            Kind::Plan => "plan",
            Kind::Validate => "validate",
            Kind::Add => "add",
            Kind::Merge => "merge",
            Kind::Retain => "retain",
            Kind::Finish => "finish",
            Kind::Drain => "drain",
        }
    }

    /// The refusals that 01 gives this call.
    pub fn refusals(self) -> &'static [u32] {
        match self {
            Kind::Plan => &[1, 2, 3, 4, 5],
            Kind::Validate => &[1, 2, 6, 7, 8, 9],
            Kind::Add => &[1, 2, 10, 14],
            Kind::Merge => &[1, 2, 14],
            Kind::Retain => &[1, 2],
            Kind::Finish => &[1, 2, 7, 11, 12, 13, 14],
            Kind::Drain => &[1, 2, 11, 12],
        }
    }
}

impl Case {
    pub fn kind(&self) -> Kind {
        match self {
            Case::Plan { .. } => Kind::Plan,
            Case::Validate { .. } => Kind::Validate,
            Case::Add { .. } => Kind::Add,
            Case::Merge { .. } => Kind::Merge,
            Case::Retain { .. } => Kind::Retain,
            Case::Finish { .. } => Kind::Finish,
            Case::Drain { .. } => Kind::Drain,
        }
    }
}

#[derive(Clone, Copy, Debug, PartialEq, Eq, PartialOrd, Ord)]
pub enum Answer {
    Planned { specs: usize, passes: usize },
    Accepted,
    Jobs(usize),
    Committed,
    SegmentMissing,
    Refused(u32),
}
