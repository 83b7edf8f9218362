//! The rows of 01's tables as records. A part that a mark makes idle is a field like any other, so that a record that is
//! moved takes its idle parts along.

/// "A ULID is two u64, high word first, compared in that order."
pub type Ulid = (u64, u64);

#[derive(Clone, Copy, Debug, Default, PartialEq, Eq)]
pub struct Watermark {
    pub view_mark: u8,
    pub sst_mark: u8,
    pub view: Ulid,
    pub sst: Ulid,
}

/// An L0 row.
#[derive(Clone, Copy, Debug, Default, PartialEq, Eq)]
pub struct View {
    pub id: Ulid,
    pub sst: Ulid,
    pub size: u64,
}

#[derive(Clone, Copy, Debug, Default, PartialEq, Eq)]
pub struct Run {
    pub id: u32,
    pub size: u64,
}

#[derive(Clone, Debug, Default, PartialEq, Eq)]
pub struct Tree {
    pub prefix: u32,
    pub watermark: Watermark,
    pub l0: Vec<View>,
    pub runs: Vec<Run>,
}

#[derive(Clone, Copy, Debug, Default, PartialEq, Eq)]
pub struct Source {
    pub mark: u8,
    pub run: u32,
    pub view: Ulid,
}

impl Source {
    pub fn run(id: u32) -> Self {
        Source {
            mark: 1,
            run: id,
            view: (0, 0),
        }
    }

    pub fn view(id: Ulid) -> Self {
        Source {
            mark: 0,
            run: 0,
            view: id,
        }
    }
}

#[derive(Clone, Debug, Default, PartialEq, Eq)]
pub struct Job {
    pub id: Ulid,
    pub status: u8,
    pub drain: u8,
    pub prefix: u32,
    pub destination: u32,
    pub sources: Vec<Source>,
}

impl Job {
    /// "Active: 0 to 3."
    pub fn active(&self) -> bool {
        self.status <= 3
    }

    /// "Slots are held by 0, 1, 2."
    pub fn holds_slot(&self) -> bool {
        self.status <= 2
    }
}
