/* Every refusal, reached through the header: the number comes alone, and every table and output keeps its bytes. */
#include "cabinet.h"

static fiervalun_trees trees, trees_before;
static fiervalun_jobs jobs, jobs_before, remote;
static fiervalun_plan_table plan, plan_before;
static uint32_t outcome;

static uint8_t ones[FIERVALUN_MAX_SOURCES + 1];
static uint32_t numbers[FIERVALUN_MAX_SOURCES + 1];
static uint64_t zeros[2 * (FIERVALUN_MAX_SOURCES + 1)];

static void fresh(void)
{
    fill_trees(&trees, 0x55);
    fill_jobs(&jobs, 0x55);
    fill_jobs(&remote, 0x55);
    memset(&plan, 0x55, sizeof plan);
    outcome = 77;
}

static void remember(void)
{
    trees_before = trees;
    jobs_before = jobs;
    plan_before = plan;
}

static void unchanged(void)
{
    CHECK(memcmp(&trees, &trees_before, sizeof trees) == 0);
    CHECK(memcmp(&jobs, &jobs_before, sizeof jobs) == 0);
    CHECK(memcmp(&plan, &plan_before, sizeof plan) == 0);
    CHECK(outcome == 77);
}

static uint32_t plan_with(fiervalun_options o)
{
    remember();
    return fiervalun_plan_cabinet(&trees, &jobs, o, &plan);
}

static uint32_t validate_runs(uint32_t prefix, uint32_t destination, size_t count)
{
    fiervalun_spec s = runs_spec(prefix, destination, ones, numbers, zeros, count);
    remember();
    return fiervalun_validate_spec(&trees, &s);
}

static uint32_t add_runs(uint64_t id, uint32_t prefix, uint32_t destination, size_t count)
{
    fiervalun_spec s = runs_spec(prefix, destination, ones, numbers, zeros, count);
    remember();
    return fiervalun_add_job(&jobs, id_of(id), FIERVALUN_SUBMITTED, &s);
}

static void planning(void)
{
    fiervalun_options o = usual;
    fresh();
    trees.count = 0;
    CHECK(plan_with(o) == FIERVALUN_OUT_OF_BOUNDS);
    unchanged();
    fresh();
    trees.count = 33;
    CHECK(plan_with(o) == FIERVALUN_OUT_OF_BOUNDS);
    unchanged();
    fresh();
    o.concurrent = 65;
    CHECK(plan_with(o) == FIERVALUN_OUT_OF_BOUNDS);
    unchanged();
    o = usual;
    fresh();
    trees.trees[3] = 0; /* a prefix twice */
    CHECK(plan_with(o) == FIERVALUN_MISSHAPEN);
    unchanged();
    fresh();
    o.min = 0;
    CHECK(plan_with(o) == FIERVALUN_BAD_OPTIONS);
    unchanged();
    o = usual;
    fresh();
    trees.run_sizes[0] = UINT64_MAX;
    trees.run_sizes[1] = 1;
    CHECK(plan_with(o) == FIERVALUN_SIZES_TOO_LARGE);
    unchanged();
    fresh();
    remember();
    CHECK(
        fiervalun_plan(
            trees.count, FIERVALUN_SLICE(trees.trees), FIERVALUN_SLICE(trees.watermark_marks),
            FIERVALUN_SLICE(trees.watermarks), FIERVALUN_SLICE(trees.l0_ids), FIERVALUN_SLICE(trees.l0_sizes),
            FIERVALUN_SLICE(trees.run_ids), FIERVALUN_SLICE(trees.run_sizes), jobs.count,
            FIERVALUN_SLICE(jobs.job_ids), FIERVALUN_SLICE(jobs.job_marks), FIERVALUN_SLICE(jobs.job_specs),
            FIERVALUN_SLICE(jobs.source_marks), FIERVALUN_SLICE(jobs.source_runs),
            FIERVALUN_SLICE(jobs.source_views), o, plan.specs, 9, plan.marks, 7, plan.runs, 8, plan.views, 16,
            &plan.count, &plan.passes)
        == FIERVALUN_PLAN_TOO_SMALL);
    unchanged();
}

static void validation(void)
{
    fresh();
    numbers[0] = 12;
    CHECK(validate_runs(1, 12, 1) == FIERVALUN_UNKNOWN_PREFIX);
    CHECK(validate_runs(0, 12, 0) == FIERVALUN_NO_SOURCES);
    numbers[0] = 11;
    numbers[1] = 12;
    CHECK(validate_runs(0, 11, 2) == FIERVALUN_NOT_CONSECUTIVE);
    numbers[0] = 12;
    numbers[1] = 11;
    CHECK(validate_runs(0, 12, 2) == FIERVALUN_WRONG_DESTINATION);
    CHECK(validate_runs(0, 11, 2) == FIERVALUN_DONE);
    unchanged();
}

static void adding(void)
{
    fresh();
    CHECK(add_runs(1, 0, 11, 2) == FIERVALUN_DONE && jobs.count == 1);
    CHECK(add_runs(2, 0, 11, 2) == FIERVALUN_CLASHES);
    unchanged();
    CHECK(add_runs(2, 0, 9, FIERVALUN_MAX_SOURCES - 1) == FIERVALUN_TABLE_FULL);
    unchanged();
    CHECK(add_runs(2, 0, 9, FIERVALUN_MAX_SOURCES - 2) == FIERVALUN_DONE && jobs.count == 2);
    remember();
    CHECK(fiervalun_retain_jobs(&jobs) == FIERVALUN_DONE && jobs.count == 2);
    unchanged();
}

static void merging(void)
{
    size_t k;
    fresh();
    for (k = 0; k < FIERVALUN_MAX_JOBS; k++) {
        CHECK(add_runs(k, 0, (uint32_t)k, 1) == FIERVALUN_DONE);
    }
    CHECK(add_runs(k, 0, (uint32_t)k, 1) == FIERVALUN_TABLE_FULL);
    unchanged();
    remote = jobs;
    remote.count = 1;
    remote.job_ids[1] = FIERVALUN_MAX_JOBS;
    remember();
    CHECK(fiervalun_merge_jobs(&jobs, &remote) == FIERVALUN_TABLE_FULL);
    unchanged();
    remote.job_marks[0] = 6;
    CHECK(fiervalun_merge_jobs(&jobs, &remote) == FIERVALUN_MISSHAPEN);
    unchanged();
}

static void finishing(void)
{
    fiervalun_spec d;
    fresh();
    numbers[0] = 11;
    CHECK(add_runs(1, 0, 11, 1) == FIERVALUN_DONE);
    d = runs_spec(0, 0, ones, numbers, zeros, 1);
    d.drain = 1;
    CHECK(fiervalun_add_job(&jobs, id_of(2), FIERVALUN_SUBMITTED, &d) == FIERVALUN_DONE);
    CHECK(add_runs(3, 0, 5, 0) == FIERVALUN_DONE);
    CHECK(add_runs(4, 1, 6, 1) == FIERVALUN_DONE);
    remember();
    CHECK(fiervalun_finish_job(&trees, &jobs, id_of(9), 11, 1, &outcome) == FIERVALUN_NO_SUCH_JOB);
    CHECK(fiervalun_finish_job(&trees, &jobs, id_of(2), 11, 1, &outcome) == FIERVALUN_WRONG_KIND);
    CHECK(fiervalun_drain_job(&trees, &jobs, id_of(1), &outcome) == FIERVALUN_WRONG_KIND);
    CHECK(fiervalun_finish_job(&trees, &jobs, id_of(3), 5, 1, &outcome) == FIERVALUN_NO_SOURCES);
    CHECK(fiervalun_finish_job(&trees, &jobs, id_of(1), 12, 1, &outcome) == FIERVALUN_RUNS_OUT_OF_ORDER);
    unchanged();
    CHECK(fiervalun_finish_job(&trees, &jobs, id_of(4), 6, 1, &outcome) == FIERVALUN_DONE);
    CHECK(outcome == FIERVALUN_SEGMENT_MISSING && jobs.job_marks[6] == FIERVALUN_FAILED);
    CHECK(fiervalun_finish_job(&trees, &jobs, id_of(1), 11, 1, &outcome) == FIERVALUN_DONE);
    CHECK(outcome == FIERVALUN_COMMITTED && jobs.job_marks[0] == FIERVALUN_COMPLETED);
    CHECK(fiervalun_drain_job(&trees, &jobs, id_of(2), &outcome) == FIERVALUN_DONE);
    CHECK(outcome == FIERVALUN_COMMITTED && trees.trees[2] == 1 && trees.run_ids[0] == 12);
}

static void too_many_runs(void)
{
    size_t k;
    fresh();
    trees.count = 1;
    trees.trees[2] = FIERVALUN_MAX_RUNS;
    for (k = 0; k < FIERVALUN_MAX_RUNS; k++) {
        trees.run_ids[k] = (uint32_t)(2000 - k);
        trees.run_sizes[k] = 1;
    }
    numbers[0] = 3; /* a run that is not there */
    CHECK(add_runs(1, 0, 1, 1) == FIERVALUN_DONE);
    remember();
    CHECK(fiervalun_finish_job(&trees, &jobs, id_of(1), 1, 1, &outcome) == FIERVALUN_TABLE_FULL);
    unchanged();
}

int main(void)
{
    memset(ones, 1, sizeof ones);
    planning();
    validation();
    adding();
    merging();
    finishing();
    too_many_runs();
    CHECK(strcmp(fiervalun_refusal_text(3), "bad options: 1 <= min <= max <= 64") == 0);
    printf("refusals: each is reached, and a refused call changes nothing\n");
    return 0;
}
