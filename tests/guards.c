/* Buffers exactly at capacity, with a page on either side that must not be touched: once with the buffer's end at the
 * page behind it, once with its start at the page before it. What the calls leave there is what they leave in structs. */
#define _DEFAULT_SOURCE
#include <sys/mman.h>
#include <unistd.h>

#include "cabinet.h"

enum side { AT_START, AT_END };

static size_t page;

/* A copy of `size` bytes between two pages that nothing may touch. */
static void *guarded(const void *from, size_t size, enum side side)
{
    size_t body = (size + page - 1) / page * page;
    unsigned char *all = (unsigned char *)mmap(
        NULL, body + 2 * page, PROT_READ | PROT_WRITE, MAP_PRIVATE | MAP_ANONYMOUS, -1, 0);
    unsigned char *at;
    CHECK(all != (unsigned char *)MAP_FAILED);
    CHECK(mprotect(all, page, PROT_NONE) == 0 && mprotect(all + page + body, page, PROT_NONE) == 0);
    at = all + page + (side == AT_END ? body - size : 0);
    memcpy(at, from, size);
    return at;
}

/* A table's column between guards: `name` points at it. */
#define GUARD(type, name, column) type *name = (type *)guarded((column), sizeof(column), side)
#define SAME(name, column) CHECK(memcmp(name, (column), sizeof(column)) == 0)
#define LENT(name, column) name, FIERVALUN_LEN(column)

#define GUARD_TREES(t)                                      \
    GUARD(uint32_t, trees, (t)->trees);                     \
    GUARD(uint8_t, watermark_marks, (t)->watermark_marks);  \
    GUARD(uint64_t, watermarks, (t)->watermarks);           \
    GUARD(uint64_t, l0_ids, (t)->l0_ids);                   \
    GUARD(uint64_t, l0_sizes, (t)->l0_sizes);               \
    GUARD(uint32_t, run_ids, (t)->run_ids);                 \
    GUARD(uint64_t, run_sizes, (t)->run_sizes)

#define GUARD_JOBS(j)                                       \
    GUARD(uint64_t, job_ids, (j)->job_ids);                 \
    GUARD(uint8_t, job_marks, (j)->job_marks);              \
    GUARD(uint32_t, job_specs, (j)->job_specs);             \
    GUARD(uint8_t, source_marks, (j)->source_marks);        \
    GUARD(uint32_t, source_runs, (j)->source_runs);         \
    GUARD(uint64_t, source_views, (j)->source_views)

#define LENT_TREES(t)                                                                                        \
    LENT(trees, (t)->trees), LENT(watermark_marks, (t)->watermark_marks), LENT(watermarks, (t)->watermarks), \
        LENT(l0_ids, (t)->l0_ids), LENT(l0_sizes, (t)->l0_sizes), LENT(run_ids, (t)->run_ids),               \
        LENT(run_sizes, (t)->run_sizes)

#define LENT_JOBS(j)                                                                                              \
    LENT(job_ids, (j)->job_ids), LENT(job_marks, (j)->job_marks), LENT(job_specs, (j)->job_specs),                \
        LENT(source_marks, (j)->source_marks), LENT(source_runs, (j)->source_runs),                               \
        LENT(source_views, (j)->source_views)

#define SAME_TREES(t)                                                                                           \
    SAME(trees, (t)->trees);                                                                                    \
    SAME(watermark_marks, (t)->watermark_marks);                                                                \
    SAME(watermarks, (t)->watermarks);                                                                          \
    SAME(l0_ids, (t)->l0_ids);                                                                                  \
    SAME(l0_sizes, (t)->l0_sizes);                                                                              \
    SAME(run_ids, (t)->run_ids);                                                                                \
    SAME(run_sizes, (t)->run_sizes)

#define SAME_JOBS(j)                            \
    SAME(job_ids, (j)->job_ids);                \
    SAME(job_marks, (j)->job_marks);            \
    SAME(job_specs, (j)->job_specs);            \
    SAME(source_marks, (j)->source_marks);      \
    SAME(source_runs, (j)->source_runs);        \
    SAME(source_views, (j)->source_views)

static void plan_guarded(const fiervalun_trees *t, const fiervalun_jobs *j, fiervalun_options o, enum side side)
{
    static fiervalun_plan_table plan;
    size_t count = 7, passes = 7;
    memset(&plan, 0x55, sizeof plan);
    GUARD_TREES(t);
    GUARD_JOBS(j);
    GUARD(uint32_t, specs, plan.specs);
    GUARD(uint8_t, marks, plan.marks);
    GUARD(uint32_t, runs, plan.runs);
    GUARD(uint64_t, views, plan.views);
    CHECK(fiervalun_plan_cabinet(t, j, o, &plan) == FIERVALUN_DONE);
    CHECK(
        fiervalun_plan(
            t->count, LENT_TREES(t), j->count, LENT_JOBS(j), o, LENT(specs, plan.specs), LENT(marks, plan.marks),
            LENT(runs, plan.runs), LENT(views, plan.views), &count, &passes)
        == FIERVALUN_DONE);
    CHECK(count == plan.count && passes == plan.passes && count > 0);
    SAME(specs, plan.specs);
    SAME(marks, plan.marks);
    SAME(runs, plan.runs);
    SAME(views, plan.views);
    SAME_TREES(t);
    SAME_JOBS(j);
}

/* Adds a job, which the struct's copy gets too. */
static void add_guarded(fiervalun_jobs *j, uint64_t id, const fiervalun_spec *s, enum side side)
{
    size_t count = j->count;
    GUARD_JOBS(j);
    uint8_t *marks = (uint8_t *)guarded(s->marks, s->count, side);
    uint32_t *runs = (uint32_t *)guarded(s->runs, 4 * s->count, side);
    uint64_t *views = (uint64_t *)guarded(s->views, 16 * s->count, side);
    CHECK(fiervalun_add_job(j, id_of(id), FIERVALUN_SUBMITTED, s) == FIERVALUN_DONE);
    CHECK(
        fiervalun_add(
            &count, LENT_JOBS(j), 0, id, FIERVALUN_SUBMITTED, s->drain, s->prefix, s->destination, marks, s->count,
            runs, s->count, views, 2 * s->count)
        == FIERVALUN_DONE);
    CHECK(count == j->count);
    SAME_JOBS(j);
}

static void retain_guarded(fiervalun_jobs *j, enum side side)
{
    size_t count = j->count;
    GUARD_JOBS(j);
    CHECK(fiervalun_retain_jobs(j) == FIERVALUN_DONE);
    CHECK(fiervalun_retain(&count, LENT_JOBS(j)) == FIERVALUN_DONE);
    CHECK(count == j->count);
    SAME_JOBS(j);
}

static void merge_guarded(fiervalun_jobs *j, const fiervalun_jobs *r, enum side side)
{
    size_t count = j->count;
    GUARD_JOBS(j);
    GUARD(uint64_t, remote_ids, r->job_ids);
    GUARD(uint8_t, remote_marks, r->job_marks);
    GUARD(uint32_t, remote_specs, r->job_specs);
    GUARD(uint8_t, remote_source_marks, r->source_marks);
    GUARD(uint32_t, remote_source_runs, r->source_runs);
    GUARD(uint64_t, remote_source_views, r->source_views);
    CHECK(fiervalun_merge_jobs(j, r) == FIERVALUN_DONE);
    CHECK(
        fiervalun_merge(
            &count, LENT_JOBS(j), r->count, LENT(remote_ids, r->job_ids), LENT(remote_marks, r->job_marks),
            LENT(remote_specs, r->job_specs), LENT(remote_source_marks, r->source_marks),
            LENT(remote_source_runs, r->source_runs), LENT(remote_source_views, r->source_views))
        == FIERVALUN_DONE);
    CHECK(count == j->count);
    SAME_JOBS(j);
}

static void finish_guarded(fiervalun_trees *t, fiervalun_jobs *j, uint64_t id, uint32_t output, enum side side)
{
    uint32_t outcome, other = 77;
    GUARD_TREES(t);
    GUARD_JOBS(j);
    CHECK(fiervalun_finish_job(t, j, id_of(id), output, 5, &outcome) == FIERVALUN_DONE);
    CHECK(
        fiervalun_finish(t->count, LENT_TREES(t), j->count, LENT_JOBS(j), 0, id, output, 5, &other)
        == FIERVALUN_DONE);
    CHECK(outcome == other);
    SAME_TREES(t);
    SAME_JOBS(j);
}

static void drain_guarded(fiervalun_trees *t, fiervalun_jobs *j, uint64_t id, enum side side)
{
    uint32_t outcome, other = 77;
    GUARD_TREES(t);
    GUARD_JOBS(j);
    CHECK(fiervalun_drain_job(t, j, id_of(id), &outcome) == FIERVALUN_DONE);
    CHECK(fiervalun_drain(t->count, LENT_TREES(t), j->count, LENT_JOBS(j), 0, id, &other) == FIERVALUN_DONE);
    CHECK(outcome == other);
    SAME_TREES(t);
    SAME_JOBS(j);
}

/* Full tables: 32 trees with 16 L0 rows and 16 runs each, and 64 jobs with 16 source entries each, all finished but one,
 * that name runs which are gone. */
static void fill_all(fiervalun_trees *t, fiervalun_jobs *j)
{
    size_t k;
    memset(t, 0, sizeof *t);
    memset(j, 0, sizeof *j);
    t->count = FIERVALUN_MAX_TREES;
    for (k = 0; k < FIERVALUN_MAX_TREES; k++) {
        t->trees[3 * k] = (uint32_t)k;
        t->trees[3 * k + 1] = t->trees[3 * k + 2] = 16;
    }
    for (k = 0; k < FIERVALUN_MAX_RUNS; k++) {
        t->l0_ids[4 * k + 1] = t->l0_ids[4 * k + 3] = k + 1;
        t->l0_sizes[k] = 1;
        t->run_ids[k] = (uint32_t)(5000 - k);
        t->run_sizes[k] = 10;
    }
    j->count = FIERVALUN_MAX_JOBS;
    for (k = 0; k < FIERVALUN_MAX_JOBS; k++) {
        j->job_ids[2 * k + 1] = 2 * k + 1;
        j->job_marks[2 * k] = k == 7 ? FIERVALUN_RUNNING : FIERVALUN_COMPLETED;
        j->job_specs[3 * k] = (uint32_t)(k / 2);
        j->job_specs[3 * k + 1] = (uint32_t)(4985 - 16 * (k / 2)); /* its tree's last run */
        j->job_specs[3 * k + 2] = 16;
    }
    for (k = 0; k < FIERVALUN_MAX_SOURCES; k++) {
        j->source_marks[k] = 1;
        j->source_runs[k] = (uint32_t)(4400 - k);
    }
}

static void both_kinds_of_tables(enum side side)
{
    static fiervalun_trees t;
    static fiervalun_jobs j, r;
    static const uint8_t marks[] = {0, 1};
    static const uint32_t runs[] = {0, 12};
    static const uint64_t views[] = {0, 4, 0, 0};
    fiervalun_options o = {2, 8, 64, 4.0f};
    fiervalun_spec s = runs_spec(0, 12, marks, runs, views, 2);

    fill_trees(&t, 0x55);
    fill_jobs(&j, 0x55);
    fill_jobs(&r, 0x55);
    plan_guarded(&t, &j, usual, side);
    add_guarded(&j, 5, &s, side);
    add_guarded(&r, 4, &s, side);
    s.drain = 1;
    add_guarded(&r, 3, &s, side);
    merge_guarded(&j, &r, side);
    CHECK(j.count == 3);
    finish_guarded(&t, &j, 5, 12, side);
    drain_guarded(&t, &j, 3, side);
    retain_guarded(&j, side);

    fill_all(&t, &j);
    plan_guarded(&t, &j, o, side);
    r = j;
    r.job_marks[14] = FIERVALUN_COMPACTED;
    merge_guarded(&j, &r, side);
    finish_guarded(&t, &j, 15, 6000, side);
    retain_guarded(&j, side);
    CHECK(j.count == 1);
}

int main(void)
{
    page = (size_t)sysconf(_SC_PAGESIZE);
    both_kinds_of_tables(AT_START);
    both_kinds_of_tables(AT_END);
    printf("guards: no call touches what lies before or behind its buffers\n");
    return 0;
}
