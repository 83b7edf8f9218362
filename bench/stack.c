/* How much stack each call takes on full tables: the call runs on a stack of its own that was painted before. */
#define _DEFAULT_SOURCE
#include <pthread.h>
#include <stdio.h>
#include <stdlib.h>
#include <string.h>

#include "fiervalun.h"

#define STACK (1u << 20)
#define PAINT 0xa5

static fiervalun_trees trees;
static fiervalun_jobs jobs, remote;
static fiervalun_plan_table plan;
static fiervalun_spec spec;
static uint32_t outcome, refusal;

/* 32 trees with 16 L0 rows and 16 runs each; 64 jobs with 16 source entries each, all compacted. */
static void fill(void)
{
    size_t k;
    memset(&trees, 0, sizeof trees);
    memset(&jobs, 0, sizeof jobs);
    trees.count = FIERVALUN_MAX_TREES;
    for (k = 0; k < FIERVALUN_MAX_TREES; k++) {
        trees.trees[3 * k] = (uint32_t)k;
        trees.trees[3 * k + 1] = trees.trees[3 * k + 2] = 16;
    }
    for (k = 0; k < FIERVALUN_MAX_RUNS; k++) {
        trees.l0_ids[4 * k + 1] = k + 1;
        trees.l0_sizes[k] = 1;
        trees.run_ids[k] = (uint32_t)(5000 - k);
        trees.run_sizes[k] = 10;
    }
    jobs.count = FIERVALUN_MAX_JOBS;
    for (k = 0; k < FIERVALUN_MAX_JOBS; k++) {
        jobs.job_ids[2 * k + 1] = k;
        jobs.job_marks[2 * k] = FIERVALUN_COMPACTED;
        jobs.job_specs[3 * k] = (uint32_t)(k / 2);
        jobs.job_specs[3 * k + 1] = (uint32_t)(4985 - 16 * (k / 2) + (k % 2) * 6000);
        jobs.job_specs[3 * k + 2] = 16;
    }
    memset(jobs.source_marks, 1, sizeof jobs.source_marks);
    remote = jobs;
    spec.prefix = 0;
    spec.destination = 9999;
    spec.count = 16;
    spec.marks = remote.source_marks;
    spec.runs = remote.source_runs;
    spec.views = remote.source_views;
}

static void *do_plan(void *unused)
{
    fiervalun_options options = {4, 8, 64, 4.0f};
    refusal = fiervalun_plan_cabinet(&trees, &jobs, options, &plan);
    return unused;
}

static void *do_validate(void *unused)
{
    fiervalun_spec s = spec;
    s.count = 1;
    s.runs = trees.run_ids;
    s.destination = trees.run_ids[0];
    refusal = fiervalun_validate_spec(&trees, &s);
    return unused;
}

static void *do_add(void *unused)
{
    fiervalun_ulid id = {0, 5};
    refusal = fiervalun_add_job(&jobs, id, FIERVALUN_SUBMITTED, &spec);
    return unused;
}

static void *do_merge(void *unused)
{
    refusal = fiervalun_merge_jobs(&jobs, &remote);
    return unused;
}

static void *do_retain(void *unused)
{
    refusal = fiervalun_retain_jobs(&jobs);
    return unused;
}

static void *do_finish(void *unused)
{
    fiervalun_ulid id = {0, 6};
    refusal = fiervalun_finish_job(&trees, &jobs, id, 12000, 1, &outcome);
    return unused;
}

static void *do_drain(void *unused)
{
    fiervalun_ulid id = {0, 7};
    jobs.job_marks[2 * 7 + 1] = 1;
    refusal = fiervalun_drain_job(&trees, &jobs, id, &outcome);
    return unused;
}

static void *do_nothing(void *unused)
{
    return unused;
}

/* The bytes of a painted stack that a thread wrote. */
static size_t stack_of(void *(*call)(void *))
{
    unsigned char *stack;
    pthread_attr_t attr;
    pthread_t thread;
    size_t free_bytes = 0;
    fill();
    if (posix_memalign((void **)&stack, 4096, STACK) != 0) {
        abort();
    }
    memset(stack, PAINT, STACK);
    pthread_attr_init(&attr);
    if (pthread_attr_setstack(&attr, stack, STACK) != 0 || pthread_create(&thread, &attr, call, NULL) != 0) {
        abort();
    }
    pthread_join(thread, NULL);
    pthread_attr_destroy(&attr);
    while (free_bytes < STACK && stack[free_bytes] == PAINT) {
        free_bytes++;
    }
    free(stack);
    return STACK - free_bytes;
}

int main(void)
{
    static const struct {
        const char *name;
        void *(*call)(void *);
    } calls[] = {
        {"plan", do_plan},   {"validate", do_validate}, {"add", do_add},
        {"merge", do_merge}, {"retain", do_retain},     {"finish", do_finish},
        {"drain", do_drain},
    };
    size_t k, empty = stack_of(do_nothing);
    printf("bytes of stack, beyond those of an empty thread\n");
    for (k = 0; k < FIERVALUN_LEN(calls); k++) {
        size_t used = stack_of(calls[k].call);
        if (refusal != FIERVALUN_DONE) {
            printf("%s is refused, %u\n", calls[k].name, (unsigned)refusal);
            return 1;
        }
        printf("  %-9s %7zu\n", calls[k].name, used - empty);
    }
    return 0;
}
