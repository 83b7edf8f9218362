/*
 * Fiervalun: which parts of a cabinet's store are merged next.
 *
 * Every call works on tables that the caller lends, in place, with no heap and no other state. It answers 0 where its work
 * is done, else the number of one refusal (enum fiervalun_refusal): then no table and no output has changed. Any tables,
 * options and jobs may be handed in; what each call answers and leaves behind is proved for all of them.
 *
 * Two things are the caller's to see to, since no program can test them: each pointer has as many numbers behind it as its
 * length says, and a buffer that a call may change overlaps no other buffer of that call. An overlap would let one write
 * change what another table is said to hold. A length of 0 may come with any pointer.
 *
 * Two layers: the raw calls over slices (a pointer, then a length in numbers, not rows), and over them structs at capacity
 * with one inline function a call.
 */
#ifndef FIERVALUN_H
#define FIERVALUN_H

#include <stddef.h>
#include <stdint.h>

#ifdef __cplusplus
extern "C" {
#endif

/* Capacities, in rows: "Every table is lent at its full capacity, with counts that say how much of it is used." */
#define FIERVALUN_MAX_TREES 32
#define FIERVALUN_MAX_L0 512
#define FIERVALUN_MAX_RUNS 512
#define FIERVALUN_MAX_JOBS 64
#define FIERVALUN_MAX_SOURCES 1024
#define FIERVALUN_MAX_CONCURRENT 64

/* A plan has a spec for each free slot at the most, and names each L0 row and each run once at the most. */
#define FIERVALUN_PLAN_SPECS FIERVALUN_MAX_CONCURRENT
#define FIERVALUN_PLAN_SOURCES (FIERVALUN_MAX_L0 + FIERVALUN_MAX_RUNS)

/* A job's status. Active: up to COMPACTED. Slots are held by the first three. */
enum fiervalun_status {
    FIERVALUN_SUBMITTED = 0,
    FIERVALUN_SCHEDULED = 1,
    FIERVALUN_RUNNING = 2,
    FIERVALUN_COMPACTED = 3,
    FIERVALUN_COMPLETED = 4,
    FIERVALUN_FAILED = 5
};

enum fiervalun_refusal {
    FIERVALUN_DONE = 0,
    FIERVALUN_OUT_OF_BOUNDS = 1,
    FIERVALUN_MISSHAPEN = 2,
    FIERVALUN_BAD_OPTIONS = 3,
    FIERVALUN_SIZES_TOO_LARGE = 4,
    FIERVALUN_PLAN_TOO_SMALL = 5,
    FIERVALUN_UNKNOWN_PREFIX = 6,
    FIERVALUN_NO_SOURCES = 7,
    FIERVALUN_NOT_CONSECUTIVE = 8,
    FIERVALUN_WRONG_DESTINATION = 9,
    FIERVALUN_CLASHES = 10,
    FIERVALUN_NO_SUCH_JOB = 11,
    FIERVALUN_WRONG_KIND = 12,
    FIERVALUN_RUNS_OUT_OF_ORDER = 13,
    FIERVALUN_TABLE_FULL = 14
};

/* What a finish or a drain that is not refused did. */
enum fiervalun_outcome {
    FIERVALUN_COMMITTED = 0,
    FIERVALUN_SEGMENT_MISSING = 1
};

typedef struct fiervalun_options {
    uint32_t min;
    uint32_t max;
    uint32_t concurrent;
    float threshold;
} fiervalun_options;

/* ---- the raw calls ---- */

/* Plans: writes the specs and their sources to the front of the four plan slices (places behind keep their bytes), and the
 * number of specs and of passes that picked something. Refusals 1 to 5. */
uint32_t fiervalun_plan(
    size_t tree_count, const uint32_t *trees, size_t trees_len, const uint8_t *watermark_marks,
    size_t watermark_marks_len, const uint64_t *watermarks, size_t watermarks_len, const uint64_t *l0_ids,
    size_t l0_ids_len, const uint64_t *l0_sizes, size_t l0_sizes_len, const uint32_t *run_ids, size_t run_ids_len,
    const uint64_t *run_sizes, size_t run_sizes_len, size_t job_count, const uint64_t *job_ids, size_t job_ids_len,
    const uint8_t *job_marks, size_t job_marks_len, const uint32_t *job_specs, size_t job_specs_len,
    const uint8_t *source_marks, size_t source_marks_len, const uint32_t *source_runs, size_t source_runs_len,
    const uint64_t *source_views, size_t source_views_len, fiervalun_options options, uint32_t *plan_specs,
    size_t plan_specs_len, uint8_t *plan_marks, size_t plan_marks_len, uint32_t *plan_runs, size_t plan_runs_len,
    uint64_t *plan_views, size_t plan_views_len, size_t *spec_count, size_t *pass_count);

/* Validates a spec against the trees: 0 where it may become a job. Changes nothing. Refusals 1, 2, 6 to 9. */
uint32_t fiervalun_validate(
    size_t tree_count, const uint32_t *trees, size_t trees_len, const uint8_t *watermark_marks,
    size_t watermark_marks_len, const uint64_t *watermarks, size_t watermarks_len, const uint64_t *l0_ids,
    size_t l0_ids_len, const uint64_t *l0_sizes, size_t l0_sizes_len, const uint32_t *run_ids, size_t run_ids_len,
    const uint64_t *run_sizes, size_t run_sizes_len, uint8_t drain, uint32_t prefix, uint32_t destination,
    const uint8_t *marks, size_t marks_len, const uint32_t *runs, size_t runs_len, const uint64_t *views,
    size_t views_len);

/* Adds a job at its place by id, or replaces the record of that id, and writes the new count. Refusals 1, 2, 10, 14. */
uint32_t fiervalun_add(
    size_t *job_count, uint64_t *job_ids, size_t job_ids_len, uint8_t *job_marks, size_t job_marks_len,
    uint32_t *job_specs, size_t job_specs_len, uint8_t *source_marks, size_t source_marks_len, uint32_t *source_runs,
    size_t source_runs_len, uint64_t *source_views, size_t source_views_len, uint64_t id_high, uint64_t id_low,
    uint8_t status, uint8_t drain, uint32_t prefix, uint32_t destination, const uint8_t *marks, size_t marks_len,
    const uint32_t *runs, size_t runs_len, const uint64_t *views, size_t views_len);

/* Takes over from a remote job table the records that the adoption table says, whole. Refusals 1, 2, 14. */
uint32_t fiervalun_merge(
    size_t *job_count, uint64_t *job_ids, size_t job_ids_len, uint8_t *job_marks, size_t job_marks_len,
    uint32_t *job_specs, size_t job_specs_len, uint8_t *source_marks, size_t source_marks_len, uint32_t *source_runs,
    size_t source_runs_len, uint64_t *source_views, size_t source_views_len, size_t remote_count,
    const uint64_t *remote_ids, size_t remote_ids_len, const uint8_t *remote_marks, size_t remote_marks_len,
    const uint32_t *remote_specs, size_t remote_specs_len, const uint8_t *remote_source_marks,
    size_t remote_source_marks_len, const uint32_t *remote_source_runs, size_t remote_source_runs_len,
    const uint64_t *remote_source_views, size_t remote_source_views_len);

/* Keeps the active jobs and the finished job of largest id, and writes the new count. Refusals 1, 2. */
uint32_t fiervalun_retain(
    size_t *job_count, uint64_t *job_ids, size_t job_ids_len, uint8_t *job_marks, size_t job_marks_len,
    uint32_t *job_specs, size_t job_specs_len, uint8_t *source_marks, size_t source_marks_len, uint32_t *source_runs,
    size_t source_runs_len, uint64_t *source_views, size_t source_views_len);

/* Finishes a tiered job: its source rows and runs and its destination go, the output run comes, the watermark and the
 * job's status are set. Writes an outcome. Refusals 1, 2, 11, 12, 7, 13, 14. */
uint32_t fiervalun_finish(
    size_t tree_count, uint32_t *trees, size_t trees_len, uint8_t *watermark_marks, size_t watermark_marks_len,
    uint64_t *watermarks, size_t watermarks_len, uint64_t *l0_ids, size_t l0_ids_len, uint64_t *l0_sizes,
    size_t l0_sizes_len, uint32_t *run_ids, size_t run_ids_len, uint64_t *run_sizes, size_t run_sizes_len,
    size_t job_count, const uint64_t *job_ids, size_t job_ids_len, uint8_t *job_marks, size_t job_marks_len,
    const uint32_t *job_specs, size_t job_specs_len, const uint8_t *source_marks, size_t source_marks_len,
    const uint32_t *source_runs, size_t source_runs_len, const uint64_t *source_views, size_t source_views_len,
    uint64_t id_high, uint64_t id_low, uint32_t output, uint64_t output_size, uint32_t *outcome);

/* Drains: the job's source rows and runs go, the watermark and the job's status are set. Writes an outcome. Refusals 1, 2,
 * 11, 12. */
uint32_t fiervalun_drain(
    size_t tree_count, uint32_t *trees, size_t trees_len, uint8_t *watermark_marks, size_t watermark_marks_len,
    uint64_t *watermarks, size_t watermarks_len, uint64_t *l0_ids, size_t l0_ids_len, uint64_t *l0_sizes,
    size_t l0_sizes_len, uint32_t *run_ids, size_t run_ids_len, uint64_t *run_sizes, size_t run_sizes_len,
    size_t job_count, const uint64_t *job_ids, size_t job_ids_len, uint8_t *job_marks, size_t job_marks_len,
    const uint32_t *job_specs, size_t job_specs_len, const uint8_t *source_marks, size_t source_marks_len,
    const uint32_t *source_runs, size_t source_runs_len, const uint64_t *source_views, size_t source_views_len,
    uint64_t id_high, uint64_t id_low, uint32_t *outcome);

/* ---- the tables as structs ---- */

/* Trees in manifest order, the root (prefix 0) first; their L0 rows and runs packed one tree after the other. */
typedef struct fiervalun_trees {
    size_t count;
    uint32_t trees[FIERVALUN_MAX_TREES * 3];        /* prefix, L0 count, run count */
    uint8_t watermark_marks[FIERVALUN_MAX_TREES * 2]; /* view present, SST present */
    uint64_t watermarks[FIERVALUN_MAX_TREES * 4];   /* view high, view low, SST high, SST low */
    uint64_t l0_ids[FIERVALUN_MAX_L0 * 4];          /* view high, view low, SST high, SST low */
    uint64_t l0_sizes[FIERVALUN_MAX_L0];
    uint32_t run_ids[FIERVALUN_MAX_RUNS];
    uint64_t run_sizes[FIERVALUN_MAX_RUNS];
} fiervalun_trees;

/* Jobs in rising id order; their source entries packed one job after the other. */
typedef struct fiervalun_jobs {
    size_t count;
    uint64_t job_ids[FIERVALUN_MAX_JOBS * 2];       /* id high, id low */
    uint8_t job_marks[FIERVALUN_MAX_JOBS * 2];      /* status, drain */
    uint32_t job_specs[FIERVALUN_MAX_JOBS * 3];     /* prefix, destination, source count */
    uint8_t source_marks[FIERVALUN_MAX_SOURCES];    /* 1 for a run */
    uint32_t source_runs[FIERVALUN_MAX_SOURCES];
    uint64_t source_views[FIERVALUN_MAX_SOURCES * 2]; /* view high, view low */
} fiervalun_jobs;

/* A plan, with places for every plan that can be made, so that refusal 5 is never met with it. */
typedef struct fiervalun_plan_table {
    size_t count;
    size_t passes;
    uint32_t specs[FIERVALUN_PLAN_SPECS * 3];       /* prefix, destination, source count */
    uint8_t marks[FIERVALUN_PLAN_SOURCES];
    uint32_t runs[FIERVALUN_PLAN_SOURCES];
    uint64_t views[FIERVALUN_PLAN_SOURCES * 2];
} fiervalun_plan_table;

typedef struct fiervalun_ulid {
    uint64_t high;
    uint64_t low;
} fiervalun_ulid;

/* A spec: `count` marks, as many runs, twice as many view words. */
typedef struct fiervalun_spec {
    uint8_t drain;
    uint32_t prefix;
    uint32_t destination;
    size_t count;
    const uint8_t *marks;
    const uint32_t *runs;
    const uint64_t *views;
} fiervalun_spec;

/* ---- the calls over them: the same promises ---- */

#define FIERVALUN_LEN(a) (sizeof(a) / sizeof((a)[0]))
#define FIERVALUN_SLICE(a) (a), FIERVALUN_LEN(a)

static inline uint32_t fiervalun_plan_cabinet(
    const fiervalun_trees *t, const fiervalun_jobs *j, fiervalun_options options, fiervalun_plan_table *plan)
{
    return fiervalun_plan(
        t->count, FIERVALUN_SLICE(t->trees), FIERVALUN_SLICE(t->watermark_marks), FIERVALUN_SLICE(t->watermarks),
        FIERVALUN_SLICE(t->l0_ids), FIERVALUN_SLICE(t->l0_sizes), FIERVALUN_SLICE(t->run_ids),
        FIERVALUN_SLICE(t->run_sizes), j->count, FIERVALUN_SLICE(j->job_ids), FIERVALUN_SLICE(j->job_marks),
        FIERVALUN_SLICE(j->job_specs), FIERVALUN_SLICE(j->source_marks), FIERVALUN_SLICE(j->source_runs),
        FIERVALUN_SLICE(j->source_views), options, FIERVALUN_SLICE(plan->specs), FIERVALUN_SLICE(plan->marks),
        FIERVALUN_SLICE(plan->runs), FIERVALUN_SLICE(plan->views), &plan->count, &plan->passes);
}

/* Spec `at` of a plan, below its count: its sources are the plan's own. */
static inline fiervalun_spec fiervalun_plan_spec(const fiervalun_plan_table *plan, size_t at)
{
    fiervalun_spec s;
    size_t first = 0, k;
    for (k = 0; k < at; k++) {
        first += plan->specs[3 * k + 2];
    }
    s.drain = 0;
    s.prefix = plan->specs[3 * at];
    s.destination = plan->specs[3 * at + 1];
    s.count = plan->specs[3 * at + 2];
    s.marks = plan->marks + first;
    s.runs = plan->runs + first;
    s.views = plan->views + 2 * first;
    return s;
}

static inline uint32_t fiervalun_validate_spec(const fiervalun_trees *t, const fiervalun_spec *s)
{
    return fiervalun_validate(
        t->count, FIERVALUN_SLICE(t->trees), FIERVALUN_SLICE(t->watermark_marks), FIERVALUN_SLICE(t->watermarks),
        FIERVALUN_SLICE(t->l0_ids), FIERVALUN_SLICE(t->l0_sizes), FIERVALUN_SLICE(t->run_ids),
        FIERVALUN_SLICE(t->run_sizes), s->drain, s->prefix, s->destination, s->marks, s->count, s->runs, s->count,
        s->views, 2 * s->count);
}

static inline uint32_t fiervalun_add_job(
    fiervalun_jobs *j, fiervalun_ulid id, uint8_t status, const fiervalun_spec *s)
{
    return fiervalun_add(
        &j->count, FIERVALUN_SLICE(j->job_ids), FIERVALUN_SLICE(j->job_marks), FIERVALUN_SLICE(j->job_specs),
        FIERVALUN_SLICE(j->source_marks), FIERVALUN_SLICE(j->source_runs), FIERVALUN_SLICE(j->source_views), id.high,
        id.low, status, s->drain, s->prefix, s->destination, s->marks, s->count, s->runs, s->count, s->views,
        2 * s->count);
}

static inline uint32_t fiervalun_merge_jobs(fiervalun_jobs *j, const fiervalun_jobs *remote)
{
    return fiervalun_merge(
        &j->count, FIERVALUN_SLICE(j->job_ids), FIERVALUN_SLICE(j->job_marks), FIERVALUN_SLICE(j->job_specs),
        FIERVALUN_SLICE(j->source_marks), FIERVALUN_SLICE(j->source_runs), FIERVALUN_SLICE(j->source_views),
        remote->count, FIERVALUN_SLICE(remote->job_ids), FIERVALUN_SLICE(remote->job_marks),
        FIERVALUN_SLICE(remote->job_specs), FIERVALUN_SLICE(remote->source_marks),
        FIERVALUN_SLICE(remote->source_runs), FIERVALUN_SLICE(remote->source_views));
}

static inline uint32_t fiervalun_retain_jobs(fiervalun_jobs *j)
{
    return fiervalun_retain(
        &j->count, FIERVALUN_SLICE(j->job_ids), FIERVALUN_SLICE(j->job_marks), FIERVALUN_SLICE(j->job_specs),
        FIERVALUN_SLICE(j->source_marks), FIERVALUN_SLICE(j->source_runs), FIERVALUN_SLICE(j->source_views));
}

static inline uint32_t fiervalun_finish_job(
    fiervalun_trees *t, fiervalun_jobs *j, fiervalun_ulid id, uint32_t output, uint64_t output_size,
    uint32_t *outcome)
{
    return fiervalun_finish(
        t->count, FIERVALUN_SLICE(t->trees), FIERVALUN_SLICE(t->watermark_marks), FIERVALUN_SLICE(t->watermarks),
        FIERVALUN_SLICE(t->l0_ids), FIERVALUN_SLICE(t->l0_sizes), FIERVALUN_SLICE(t->run_ids),
        FIERVALUN_SLICE(t->run_sizes), j->count, FIERVALUN_SLICE(j->job_ids), FIERVALUN_SLICE(j->job_marks),
        FIERVALUN_SLICE(j->job_specs), FIERVALUN_SLICE(j->source_marks), FIERVALUN_SLICE(j->source_runs),
        FIERVALUN_SLICE(j->source_views), id.high, id.low, output, output_size, outcome);
}

static inline uint32_t fiervalun_drain_job(
    fiervalun_trees *t, fiervalun_jobs *j, fiervalun_ulid id, uint32_t *outcome)
{
    return fiervalun_drain(
        t->count, FIERVALUN_SLICE(t->trees), FIERVALUN_SLICE(t->watermark_marks), FIERVALUN_SLICE(t->watermarks),
        FIERVALUN_SLICE(t->l0_ids), FIERVALUN_SLICE(t->l0_sizes), FIERVALUN_SLICE(t->run_ids),
        FIERVALUN_SLICE(t->run_sizes), j->count, FIERVALUN_SLICE(j->job_ids), FIERVALUN_SLICE(j->job_marks),
        FIERVALUN_SLICE(j->job_specs), FIERVALUN_SLICE(j->source_marks), FIERVALUN_SLICE(j->source_runs),
        FIERVALUN_SLICE(j->source_views), id.high, id.low, outcome);
}

/* A refusal in words: what to mend. */
static inline const char *fiervalun_refusal_text(uint32_t refusal)
{
    static const char *const texts[] = {
        "done",
        "a count or the concurrent limit is out of bounds: 1 to 32 trees, at most 512 L0 rows, 512 runs, 64 jobs, "
        "1024 source entries and 64 concurrent jobs",
        "a table is misshapen: lend every table at its capacity, the root first, each prefix, run id and view id once, "
        "run ids falling in a tree, job ids rising, statuses up to 5, marks 0 or 1, a spec's slices of one length",
        "bad options: 1 <= min <= max <= 64",
        "the L0 sizes or the run sizes of one tree sum above 2^64 - 1",
        "the plan has too few places: a spec place for each free slot, a source place for each L0 row and run in use",
        "the spec names a prefix that no tree has",
        "the spec has no sources",
        "the sources do not stand one after the other in the tree's L0 rows and runs",
        "the destination is not the lowest run among the sources",
        "an active job has this destination, or an active drain this prefix",
        "no job has this id",
        "finish takes a tiered job, drain a drain",
        "the output's number is that of a run that stays",
        "the result has no room: at most 64 jobs, 1024 source entries, 512 runs"
    };
    return refusal < FIERVALUN_LEN(texts) ? texts[refusal] : "no refusal has this number";
}

#ifdef __cplusplus
}
#endif

#endif
