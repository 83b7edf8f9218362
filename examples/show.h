/* Tables and plans as text: what plan_cabinet and read_cabinet print. */
#ifndef SHOW_H
#define SHOW_H

#include <inttypes.h>
#include <stdio.h>

#include "fiervalun.h"

static const char *const status_names[] = {"submitted", "scheduled", "running", "compacted", "completed", "failed"};

/* A ULID as high:low, in hexadecimal digits without leading zeros. */
static void show_ulid(const uint64_t *words)
{
    printf("%" PRIx64 ":%" PRIx64, words[0], words[1]);
}

static void show_sources(const uint8_t *marks, const uint32_t *runs, const uint64_t *views, size_t count)
{
    size_t k;
    for (k = 0; k < count; k++) {
        printf(k == 0 ? "" : ", ");
        if (marks[k] == 1) {
            printf("run %" PRIu32, runs[k]);
        } else {
            printf("view ");
            show_ulid(views + 2 * k);
        }
    }
}

static void show_watermark(const fiervalun_trees *t, size_t tree)
{
    const uint8_t *marks = t->watermark_marks + 2 * tree;
    const uint64_t *words = t->watermarks + 4 * tree;
    if (marks[0] == 0 && marks[1] == 0) {
        return;
    }
    printf("    watermark ");
    if (marks[0] == 1) {
        show_ulid(words);
    } else {
        printf("no view");
    }
    if (marks[1] == 1) {
        printf(", SST ");
        show_ulid(words + 2);
    } else {
        printf(", no SST");
    }
    printf("\n");
}

static void show_trees(const fiervalun_trees *t)
{
    size_t tree, k, row = 0, run = 0;
    for (tree = 0; tree < t->count; tree++) {
        size_t rows = t->trees[3 * tree + 1], runs = t->trees[3 * tree + 2];
        printf("  tree %" PRIu32 "%s\n", t->trees[3 * tree], tree == 0 ? " (root)" : "");
        show_watermark(t, tree);
        for (k = 0; k < rows; k++, row++) {
            printf("    L0 row ");
            show_ulid(t->l0_ids + 4 * row);
            printf("  size %" PRIu64 "\n", t->l0_sizes[row]);
        }
        for (k = 0; k < runs; k++, run++) {
            printf("    run %-8" PRIu32 " size %" PRIu64 "\n", t->run_ids[run], t->run_sizes[run]);
        }
    }
}

static void show_jobs(const fiervalun_jobs *j)
{
    size_t job, first = 0;
    if (j->count == 0) {
        printf("  no jobs\n");
    }
    for (job = 0; job < j->count; job++) {
        const uint32_t *spec = j->job_specs + 3 * job;
        uint8_t status = j->job_marks[2 * job];
        printf("  job ");
        show_ulid(j->job_ids + 2 * job);
        printf("  %-9s  tree %" PRIu32 ": ", status <= 5 ? status_names[status] : "?", spec[0]);
        show_sources(j->source_marks + first, j->source_runs + first, j->source_views + 2 * first, spec[2]);
        if (j->job_marks[2 * job + 1] == 1) {
            printf(" drained\n");
        } else {
            printf(" -> run %" PRIu32 "\n", spec[1]);
        }
        first += spec[2];
    }
}

static void show_plan(const fiervalun_plan_table *plan)
{
    size_t at;
    printf("  %zu specs in %zu passes\n", plan->count, plan->passes);
    for (at = 0; at < plan->count; at++) {
        fiervalun_spec s = fiervalun_plan_spec(plan, at);
        printf("  tree %" PRIu32 ": ", s.prefix);
        show_sources(s.marks, s.runs, s.views, s.count);
        printf(" -> run %" PRIu32 "\n", s.destination);
    }
}

#endif
