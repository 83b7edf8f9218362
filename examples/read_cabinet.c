/*
 * Reads a cabinet's tables as text from a file or standard input, and prints them and their plan.
 *
 *     options min 2 max 3 concurrent 3 threshold 4
 *     tree 0
 *     watermark view 0:9 sst -
 *     l0 view 0:a sst 0:5a size 1
 *     run 12 size 100
 *     job 1:0 running tiered tree 0 to 13
 *     source view 0:a
 *     source run 12
 *
 * A line is one row; l0, run and watermark lines belong to the tree above them, source lines to the job above them. Ids of
 * views, SSTs and jobs are high:low in hexadecimal digits. `#` starts a comment.
 */
#include <errno.h>
#include <stdlib.h>
#include <string.h>

#include "show.h"

#define MAX_WORDS 10

static fiervalun_trees trees;
static fiervalun_jobs jobs;
static fiervalun_plan_table plan;
static fiervalun_options options;

/* How much of each table is in use so far. */
static size_t rows, runs, sources;

static const char *file_name = "standard input";
static size_t line_number;

static void fail(const char *expected)
{
    fprintf(stderr, "%s:%zu: expected %s\n", file_name, line_number, expected);
    exit(2);
}

static uint64_t number_of(const char *word, int base, uint64_t most, const char *expected)
{
    char *end;
    unsigned long long value;
    errno = 0;
    value = strtoull(word, &end, base);
    if (errno != 0 || end == word || *end != 0 || *word == '-' || *word == '+' || value > most) {
        fail(expected);
    }
    return value;
}

static uint32_t u32_of(const char *word, const char *expected)
{
    return (uint32_t)number_of(word, 10, UINT32_MAX, expected);
}

static void ulid_of(char *word, uint64_t *to, const char *expected)
{
    char *colon = strchr(word, ':');
    if (colon == NULL) {
        fail(expected);
    }
    *colon = 0;
    to[0] = number_of(word, 16, UINT64_MAX, expected);
    to[1] = number_of(colon + 1, 16, UINT64_MAX, expected);
}

/* The words at even places are the names that the row needs. */
static void names(char **words, size_t count, const char *const *wanted, size_t pairs, const char *expected)
{
    size_t k;
    if (count != 2 * pairs) {
        fail(expected);
    }
    for (k = 0; k < pairs; k++) {
        if (strcmp(words[2 * k], wanted[k]) != 0) {
            fail(expected);
        }
    }
}

static void read_options(char **words, size_t count)
{
    static const char *const wanted[] = {"min", "max", "concurrent", "threshold"};
    static const char expected[] = "options min N max N concurrent N threshold X";
    char *end;
    if (count == 0) {
        fail(expected);
    }
    names(words + 1, count - 1, wanted, 4, expected);
    options.min = u32_of(words[2], expected);
    options.max = u32_of(words[4], expected);
    options.concurrent = u32_of(words[6], expected);
    options.threshold = strtof(words[8], &end);
    if (end == words[8] || *end != 0) {
        fail(expected);
    }
}

static void read_tree(char **words, size_t count)
{
    if (count != 2) {
        fail("tree PREFIX");
    }
    if (trees.count == FIERVALUN_MAX_TREES) {
        fail("at most 32 trees");
    }
    trees.trees[3 * trees.count] = u32_of(words[1], "tree PREFIX, a number up to 4294967295");
    trees.count++;
}

static void under_a_tree(const char *expected)
{
    if (trees.count == 0) {
        fail(expected);
    }
}

static void read_watermark(char **words, size_t count)
{
    static const char *const wanted[] = {"view", "sst"};
    static const char expected[] = "watermark view HIGH:LOW sst HIGH:LOW, either id - where it is absent";
    size_t k, at;
    under_a_tree("a tree above its watermark");
    names(words + 1, count - 1, wanted, 2, expected);
    at = trees.count - 1;
    for (k = 0; k < 2; k++) {
        char *word = words[2 + 2 * k];
        if (strcmp(word, "-") != 0) {
            trees.watermark_marks[2 * at + k] = 1;
            ulid_of(word, trees.watermarks + 4 * at + 2 * k, expected);
        }
    }
}

static void read_l0(char **words, size_t count)
{
    static const char *const wanted[] = {"view", "sst", "size"};
    static const char expected[] = "l0 view HIGH:LOW sst HIGH:LOW size N";
    under_a_tree("a tree above its L0 rows");
    names(words + 1, count - 1, wanted, 3, expected);
    if (rows == FIERVALUN_MAX_L0) {
        fail("at most 512 L0 rows");
    }
    ulid_of(words[2], trees.l0_ids + 4 * rows, expected);
    ulid_of(words[4], trees.l0_ids + 4 * rows + 2, expected);
    trees.l0_sizes[rows] = number_of(words[6], 10, UINT64_MAX, expected);
    rows++;
    trees.trees[3 * (trees.count - 1) + 1]++;
}

static void read_run(char **words, size_t count)
{
    static const char expected[] = "run ID size N";
    under_a_tree("a tree above its runs");
    if (count != 4 || strcmp(words[2], "size") != 0) {
        fail(expected);
    }
    if (runs == FIERVALUN_MAX_RUNS) {
        fail("at most 512 runs");
    }
    trees.run_ids[runs] = u32_of(words[1], expected);
    trees.run_sizes[runs] = number_of(words[3], 10, UINT64_MAX, expected);
    runs++;
    trees.trees[3 * (trees.count - 1) + 2]++;
}

static uint8_t status_of(const char *word)
{
    uint8_t status;
    for (status = 0; status < FIERVALUN_LEN(status_names); status++) {
        if (strcmp(word, status_names[status]) == 0) {
            return status;
        }
    }
    fail("a status: submitted, scheduled, running, compacted, completed or failed");
    return 0;
}

static void read_job(char **words, size_t count)
{
    static const char expected[] = "job HIGH:LOW STATUS tiered tree PREFIX to RUN, or job HIGH:LOW STATUS drain tree PREFIX";
    size_t at = jobs.count;
    int tiered;
    if (count < 6 || strcmp(words[4], "tree") != 0) {
        fail(expected);
    }
    tiered = strcmp(words[3], "tiered") == 0;
    if (tiered ? count != 8 || strcmp(words[6], "to") != 0 : count != 6 || strcmp(words[3], "drain") != 0) {
        fail(expected);
    }
    if (at == FIERVALUN_MAX_JOBS) {
        fail("at most 64 jobs");
    }
    ulid_of(words[1], jobs.job_ids + 2 * at, expected);
    jobs.job_marks[2 * at] = status_of(words[2]);
    jobs.job_marks[2 * at + 1] = !tiered;
    jobs.job_specs[3 * at] = u32_of(words[5], expected);
    jobs.job_specs[3 * at + 1] = tiered ? u32_of(words[7], expected) : 0;
    jobs.count++;
}

static void read_source(char **words, size_t count)
{
    static const char expected[] = "source run ID, or source view HIGH:LOW";
    if (jobs.count == 0) {
        fail("a job above its sources");
    }
    if (count != 3) {
        fail(expected);
    }
    if (sources == FIERVALUN_MAX_SOURCES) {
        fail("at most 1024 source entries");
    }
    if (strcmp(words[1], "run") == 0) {
        jobs.source_marks[sources] = 1;
        jobs.source_runs[sources] = u32_of(words[2], expected);
    } else if (strcmp(words[1], "view") == 0) {
        ulid_of(words[2], jobs.source_views + 2 * sources, expected);
    } else {
        fail(expected);
    }
    sources++;
    jobs.job_specs[3 * (jobs.count - 1) + 2]++;
}

static void read_line(char **words, size_t count)
{
    static const struct {
        const char *name;
        void (*read)(char **, size_t);
    } kinds[] = {
        {"options", read_options}, {"tree", read_tree}, {"watermark", read_watermark}, {"l0", read_l0},
        {"run", read_run},         {"job", read_job},   {"source", read_source},
    };
    size_t k;
    for (k = 0; k < FIERVALUN_LEN(kinds); k++) {
        if (strcmp(words[0], kinds[k].name) == 0) {
            kinds[k].read(words, count);
            return;
        }
    }
    fail("options, tree, watermark, l0, run, job or source");
}

static void read_cabinet(FILE *in)
{
    char line[512];
    while (fgets(line, sizeof line, in) != NULL) {
        char *words[MAX_WORDS], *word;
        size_t count = 0;
        line_number++;
        if (strchr(line, '\n') == NULL && !feof(in)) {
            fail("a line of at most 510 characters");
        }
        line[strcspn(line, "#")] = 0;
        for (word = strtok(line, " \t\r\n"); word != NULL; word = strtok(NULL, " \t\r\n")) {
            if (count == MAX_WORDS) {
                fail("at most 10 words");
            }
            words[count++] = word;
        }
        if (count > 0) {
            read_line(words, count);
        }
    }
    if (ferror(in)) {
        fail("a file that can be read");
    }
}

int main(int argc, char **argv)
{
    FILE *in = stdin;
    uint32_t refusal;
    if (argc > 2) {
        fprintf(stderr, "usage: read_cabinet [FILE]\n");
        return 2;
    }
    if (argc == 2) {
        file_name = argv[1];
        in = fopen(file_name, "r");
        if (in == NULL) {
            fprintf(stderr, "%s: %s\n", file_name, strerror(errno));
            return 2;
        }
    }
    read_cabinet(in);
    printf("the cabinet\n");
    show_trees(&trees);
    show_jobs(&jobs);
    printf("the plan\n");
    refusal = fiervalun_plan_cabinet(&trees, &jobs, options, &plan);
    if (refusal != FIERVALUN_DONE) {
        printf("  refused, %" PRIu32 ": %s\n", refusal, fiervalun_refusal_text(refusal));
        return 1;
    }
    show_plan(&plan);
    return 0;
}
