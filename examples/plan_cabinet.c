/*
 * A cabinet of two trees, from its tables to the tables after one round: plan, add the specs as jobs, finish them.
 * The root has L0 rows a, b, c, d of size 1 and runs 12, 11 of size 100; segment 7 has runs 10, 9 of size 50.
 */
#include "show.h"

/* Fixed tables, as on a concentrator: lent at capacity, zeros where nothing is in use. */
static fiervalun_trees trees;
static fiervalun_jobs jobs;
static fiervalun_plan_table plan;

static void fill_cabinet(void)
{
    size_t row;
    trees.count = 2;
    trees.trees[0] = 0; /* the root: four L0 rows, two runs */
    trees.trees[1] = 4;
    trees.trees[2] = 2;
    trees.trees[3] = 7; /* segment 7: two runs */
    trees.trees[5] = 2;
    for (row = 0; row < 4; row++) {
        trees.l0_ids[4 * row + 1] = 0xa + row; /* the view a, b, c or d */
        trees.l0_ids[4 * row + 3] = 0x5a + row; /* and its SST */
        trees.l0_sizes[row] = 1;
    }
    trees.run_ids[0] = 12;
    trees.run_ids[1] = 11;
    trees.run_ids[2] = 10;
    trees.run_ids[3] = 9;
    trees.run_sizes[0] = 100;
    trees.run_sizes[1] = 100;
    trees.run_sizes[2] = 50;
    trees.run_sizes[3] = 50;
}

/* Whether the call did its work; a refusal is told in words. */
static int done(const char *call, uint32_t refusal)
{
    if (refusal != FIERVALUN_DONE) {
        printf("  %s is refused, %" PRIu32 ": %s\n", call, refusal, fiervalun_refusal_text(refusal));
    }
    return refusal == FIERVALUN_DONE;
}

/* The id of the job that is made of spec `at`. */
static fiervalun_ulid job_id(size_t at)
{
    fiervalun_ulid id;
    id.high = 1;
    id.low = at;
    return id;
}

int main(void)
{
    fiervalun_options options = {2, 3, 3, 4.0f};
    fiervalun_spec broken;
    size_t at;

    fill_cabinet();
    printf("the cabinet\n");
    show_trees(&trees);

    printf("the plan\n");
    if (!done("plan", fiervalun_plan_cabinet(&trees, &jobs, options, &plan))) {
        return 1;
    }
    show_plan(&plan);

    printf("its specs as jobs\n");
    for (at = 0; at < plan.count; at++) {
        fiervalun_spec s = fiervalun_plan_spec(&plan, at);
        if (!done("validate", fiervalun_validate_spec(&trees, &s))
            || !done("add", fiervalun_add_job(&jobs, job_id(at), FIERVALUN_SUBMITTED, &s))) {
            return 1;
        }
    }
    show_jobs(&jobs);

    printf("all finished, each output as large as its sources\n");
    for (at = 0; at < plan.count; at++) {
        static const uint64_t sizes[] = {3, 100, 200};
        uint32_t outcome;
        if (!done(
                "finish",
                fiervalun_finish_job(
                    &trees, &jobs, job_id(at), fiervalun_plan_spec(&plan, at).destination, sizes[at], &outcome))) {
            return 1;
        }
    }
    show_trees(&trees);
    show_jobs(&jobs);

    printf("the newest finished job is kept\n");
    if (!done("retain", fiervalun_retain_jobs(&jobs))) {
        return 1;
    }
    show_jobs(&jobs);

    printf("a spec to a run that is not its lowest\n");
    broken = fiervalun_plan_spec(&plan, 0);
    broken.marks = (const uint8_t[]){1, 1};
    broken.runs = (const uint32_t[]){13, 11};
    broken.views = (const uint64_t[]){0, 0, 0, 0};
    broken.count = 2;
    broken.destination = 13;
    return done("validate", fiervalun_validate_spec(&trees, &broken)) ? 1 : 0;
}
