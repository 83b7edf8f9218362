//! The tables as they are lent: few, wide slices at full capacity. Row i of a slice with w numbers to a row starts at i * w.
use crate::rows::{Job, Run, Source, Tree, Ulid, View, Watermark};
use crate::{JOBS, L0_ROWS, RUNS, SOURCES, TREES};

/// `trees` 32 x (prefix, L0 count, run count), `watermark_marks` 32 x (view present, SST present), `watermarks` 32 x (view
/// high, view low, SST high, SST low), `l0_ids` 512 x the same four, `l0_sizes`, `run_ids` and `run_sizes` 512 x 1.
#[derive(Clone, Debug, PartialEq, Eq)]
pub struct Trees {
    pub count: usize,
    pub trees: Vec<u32>,
    pub watermark_marks: Vec<u8>,
    pub watermarks: Vec<u64>,
    pub l0_ids: Vec<u64>,
    pub l0_sizes: Vec<u64>,
    pub run_ids: Vec<u32>,
    pub run_sizes: Vec<u64>,
}

/// `job_ids` 64 x (high, low), `job_marks` 64 x (status, drain), `job_specs` 64 x (prefix, destination, source count), and
/// the source entries of all jobs.
#[derive(Clone, Debug, PartialEq, Eq)]
pub struct Jobs {
    pub count: usize,
    pub job_ids: Vec<u64>,
    pub job_marks: Vec<u8>,
    pub job_specs: Vec<u32>,
    pub sources: Sources,
}

/// `marks` n x 1 (1 for a run), `runs` n x 1, `views` n x (high, low).
#[derive(Clone, Debug, PartialEq, Eq)]
pub struct Sources {
    pub marks: Vec<u8>,
    pub runs: Vec<u32>,
    pub views: Vec<u64>,
}

/// A spec to validate. Its source count is the length of its slices.
#[derive(Clone, Debug, PartialEq, Eq)]
pub struct LoneSpec {
    pub drain: u8,
    pub prefix: u32,
    pub destination: u32,
    pub sources: Sources,
}

/// A job to be added.
#[derive(Clone, Debug, PartialEq, Eq)]
pub struct LoneJob {
    pub id: Ulid,
    pub status: u8,
    pub spec: LoneSpec,
}

/// `specs` n x (prefix, destination, source count), and the source entries of all specs.
#[derive(Clone, Debug, PartialEq, Eq)]
pub struct Plan {
    pub specs: Vec<u32>,
    pub sources: Sources,
}

/// Bytes that unused places hold before a call, so that a write where none belongs is seen, and a read: damaged marks, zeros,
/// and marks that look right.
pub const UNUSED: [u8; 3] = [0xA5, 0x00, 0x01];

fn unused_u32(places: usize, byte: u8) -> Vec<u32> {
    vec![u32::from_ne_bytes([byte; 4]); places]
}

fn unused_u64(places: usize, byte: u8) -> Vec<u64> {
    vec![u64::from_ne_bytes([byte; 8]); places]
}

/// Puts `new` at the front of a slice of which `used` numbers were in use: "Places that a call frees hold zeros; other
/// unused places keep their bytes."
fn lay<T: Copy + Default>(slice: &mut [T], used: usize, new: impl Iterator<Item = T>) {
    let mut end = 0;
    for number in new {
        slice[end] = number;
        end += 1;
    }
    if end < used {
        slice[end..used].fill(T::default());
    }
}

impl Trees {
    /// No tree at all, every place unused.
    pub fn unused(byte: u8) -> Self {
        Trees {
            count: 0,
            trees: unused_u32(TREES * 3, byte),
            watermark_marks: vec![byte; TREES * 2],
            watermarks: unused_u64(TREES * 4, byte),
            l0_ids: unused_u64(L0_ROWS * 4, byte),
            l0_sizes: unused_u64(L0_ROWS, byte),
            run_ids: unused_u32(RUNS, byte),
            run_sizes: unused_u64(RUNS, byte),
        }
    }

    /// These trees, and a byte for the unused places.
    pub fn holding(rows: &[Tree], byte: u8) -> Self {
        let mut tables = Self::unused(byte);
        tables.lay(rows);
        tables
    }

    /// The trees in use. Only for tables that are refused neither 1 nor 2.
    pub fn rows(&self) -> Vec<Tree> {
        let (mut l0, mut run) = (0, 0);
        (0..self.count)
            .map(|i| {
                let l0_end = l0 + self.trees[3 * i + 1] as usize;
                let run_end = run + self.trees[3 * i + 2] as usize;
                let tree = Tree {
                    prefix: self.trees[3 * i],
                    watermark: Watermark {
                        view_mark: self.watermark_marks[2 * i],
                        sst_mark: self.watermark_marks[2 * i + 1],
                        view: (self.watermarks[4 * i], self.watermarks[4 * i + 1]),
                        sst: (self.watermarks[4 * i + 2], self.watermarks[4 * i + 3]),
                    },
                    l0: (l0..l0_end)
                        .map(|row| View {
                            id: (self.l0_ids[4 * row], self.l0_ids[4 * row + 1]),
                            sst: (self.l0_ids[4 * row + 2], self.l0_ids[4 * row + 3]),
                            size: self.l0_sizes[row],
                        })
                        .collect(),
                    runs: (run..run_end)
                        .map(|row| Run {
                            id: self.run_ids[row],
                            size: self.run_sizes[row],
                        })
                        .collect(),
                };
                (l0, run) = (l0_end, run_end);
                tree
            })
            .collect()
    }

    /// Puts these trees in place of those in use. They must fit.
    pub fn lay(&mut self, rows: &[Tree]) {
        let (mut l0, mut runs) = (0, 0);
        for i in 0..self.count {
            l0 += self.trees[3 * i + 1] as usize;
            runs += self.trees[3 * i + 2] as usize;
        }
        let was = self.count;
        self.count = rows.len();
        lay(
            &mut self.trees,
            3 * was,
            rows.iter()
                .flat_map(|t| [t.prefix, t.l0.len() as u32, t.runs.len() as u32]),
        );
        lay(
            &mut self.watermark_marks,
            2 * was,
            rows.iter()
                .flat_map(|t| [t.watermark.view_mark, t.watermark.sst_mark]),
        );
        lay(
            &mut self.watermarks,
            4 * was,
            rows.iter()
                .map(|t| &t.watermark)
                .flat_map(|w| [w.view.0, w.view.1, w.sst.0, w.sst.1]),
        );
        let views = || rows.iter().flat_map(|t| &t.l0);
        lay(
            &mut self.l0_ids,
            4 * l0,
            views().flat_map(|v| [v.id.0, v.id.1, v.sst.0, v.sst.1]),
        );
        lay(&mut self.l0_sizes, l0, views().map(|v| v.size));
        let all_runs = || rows.iter().flat_map(|t| &t.runs);
        lay(&mut self.run_ids, runs, all_runs().map(|r| r.id));
        lay(&mut self.run_sizes, runs, all_runs().map(|r| r.size));
    }
}

impl Sources {
    pub fn unused(places: usize, byte: u8) -> Self {
        Sources {
            marks: vec![byte; places],
            runs: unused_u32(places, byte),
            views: unused_u64(places * 2, byte),
        }
    }

    /// Just these entries and no place more, as a spec or a job lends them by itself.
    pub fn holding(rows: &[Source]) -> Self {
        let mut sources = Self::unused(rows.len(), 0);
        sources.lay(0, rows.iter());
        sources
    }

    pub fn row(&self, i: usize) -> Source {
        Source {
            mark: self.marks[i],
            run: self.runs[i],
            view: (self.views[2 * i], self.views[2 * i + 1]),
        }
    }

    /// Every entry. Only for slices of n, n and 2n numbers.
    pub fn rows(&self) -> Vec<Source> {
        (0..self.marks.len()).map(|i| self.row(i)).collect()
    }

    fn lay<'a>(&mut self, used: usize, rows: impl Iterator<Item = &'a Source> + Clone) {
        lay(&mut self.marks, used, rows.clone().map(|s| s.mark));
        lay(&mut self.runs, used, rows.clone().map(|s| s.run));
        lay(
            &mut self.views,
            2 * used,
            rows.flat_map(|s| [s.view.0, s.view.1]),
        );
    }
}

impl Jobs {
    /// No job at all, every place unused.
    pub fn unused(byte: u8) -> Self {
        Jobs {
            count: 0,
            job_ids: unused_u64(JOBS * 2, byte),
            job_marks: vec![byte; JOBS * 2],
            job_specs: unused_u32(JOBS * 3, byte),
            sources: Sources::unused(SOURCES, byte),
        }
    }

    /// These jobs, and a byte for the unused places.
    pub fn holding(rows: &[Job], byte: u8) -> Self {
        let mut tables = Self::unused(byte);
        tables.lay(rows);
        tables
    }

    /// The jobs in use. Only for tables that are refused neither 1 nor 2.
    pub fn rows(&self) -> Vec<Job> {
        let mut entry = 0;
        (0..self.count)
            .map(|i| {
                let end = entry + self.job_specs[3 * i + 2] as usize;
                let sources = (entry..end).map(|e| self.sources.row(e)).collect();
                entry = end;
                Job {
                    id: (self.job_ids[2 * i], self.job_ids[2 * i + 1]),
                    status: self.job_marks[2 * i],
                    drain: self.job_marks[2 * i + 1],
                    prefix: self.job_specs[3 * i],
                    destination: self.job_specs[3 * i + 1],
                    sources,
                }
            })
            .collect()
    }

    /// Puts these jobs in place of those in use. They must fit.
    pub fn lay(&mut self, rows: &[Job]) {
        let was = self.count;
        let entries = (0..was)
            .map(|i| self.job_specs[3 * i + 2] as usize)
            .sum::<usize>();
        self.count = rows.len();
        lay(
            &mut self.job_ids,
            2 * was,
            rows.iter().flat_map(|j| [j.id.0, j.id.1]),
        );
        lay(
            &mut self.job_marks,
            2 * was,
            rows.iter().flat_map(|j| [j.status, j.drain]),
        );
        lay(
            &mut self.job_specs,
            3 * was,
            rows.iter()
                .flat_map(|j| [j.prefix, j.destination, j.sources.len() as u32]),
        );
        self.sources
            .lay(entries, rows.iter().flat_map(|j| &j.sources));
    }
}

impl LoneSpec {
    pub fn of(job: &Job) -> Self {
        LoneSpec {
            drain: job.drain,
            prefix: job.prefix,
            destination: job.destination,
            sources: Sources::holding(&job.sources),
        }
    }
}

impl LoneJob {
    pub fn of(job: &Job) -> Self {
        LoneJob {
            id: job.id,
            status: job.status,
            spec: LoneSpec::of(job),
        }
    }

    /// Only for a job that is not refused 2.
    pub fn row(&self) -> Job {
        Job {
            id: self.id,
            status: self.status,
            drain: self.spec.drain,
            prefix: self.spec.prefix,
            destination: self.spec.destination,
            sources: self.spec.sources.rows(),
        }
    }
}

impl Plan {
    pub fn unused(spec_places: usize, source_places: usize, byte: u8) -> Self {
        Plan {
            specs: unused_u32(spec_places * 3, byte),
            sources: Sources::unused(source_places, byte),
        }
    }

    /// Puts these specs at the front. "Places of the plan beyond the answer keep their bytes." They must fit.
    pub fn lay(&mut self, specs: &[Job]) {
        lay(
            &mut self.specs,
            0,
            specs
                .iter()
                .flat_map(|s| [s.prefix, s.destination, s.sources.len() as u32]),
        );
        self.sources.lay(0, specs.iter().flat_map(|s| &s.sources));
    }
}
