// The entry of include/siting.h, called from C. Usage: entry EXAMPLES, the folder examples/.
#define _DEFAULT_SOURCE
#include "siting.h"

#include <pthread.h>
#include <stdio.h>
#include <stdlib.h>
#include <string.h>
#include <sys/mman.h>
#include <unistd.h>

#define AREA "area=2,2,8,8\n"
#define POSTS "posts=1\npost=0,0\n"
#define STOPS "stops=2\nstop=4,3,2\nstop=8,12,1\n"
#define CASE_A AREA POSTS STOPS "rounds=10\n"
#define REPORT_A "state=done\nat=4,3\nhigh=13\nlow=13\nbefore=34\nrounds=3\n"
// a deck whose best place depends on the axis costs
#define NARROW(axis) "area=1,1,3,9\n" axis "posts=1\npost=4,6\nstops=2\nstop=6,1,1\nstop=2,4,1\nrounds=10\n"
#define CLOSER "area=0,0,4,2\nposts=1\npost=1,1\nstops=2\nstop=2,1,1\nstop=9,5,1\n"

#define LONGEST_JOB 16384
// less than the 256 KiB of siting.h, of which the thread's own start takes some
#define STACK (224 * 1024)

static unsigned long checks, failures;

static void check(int good, const char *what, const char *part) {
    checks++;
    if (!good) {
        failures++;
        printf("FAILED: %s: %s\n", what, part);
    }
}

static void *must(void *memory) {
    if (memory == NULL || memory == MAP_FAILED) {
        perror("entry");
        exit(1);
    }
    return memory;
}

// ---- memory to lend

struct block {
    uint8_t *bytes;
    size_t length;
    void *pages; // null for a block of the heap
    size_t pages_length;
};

// From the heap, where valgrind knows both ends.
static struct block heap_block(size_t length) {
    struct block b = {must(malloc(length == 0 ? 1 : length)), length, NULL, 0};
    return b;
}

// Up to a page that may be neither read nor written.
static struct block guarded_block(size_t length) {
    size_t page = (size_t)sysconf(_SC_PAGESIZE);
    size_t front = (length + page - 1) / page * page;
    uint8_t *pages = must(mmap(NULL, front + page, PROT_READ | PROT_WRITE, MAP_PRIVATE | MAP_ANONYMOUS, -1, 0));
    if (mprotect(pages + front, page, PROT_NONE) != 0) {
        must(NULL);
    }
    struct block b = {pages + front - length, length, pages, front + page};
    return b;
}

static void release(struct block b) {
    if (b.pages == NULL) {
        free(b.bytes);
    } else {
        munmap(b.pages, b.pages_length);
    }
}

static uint8_t filler(size_t i) {
    return (uint8_t)(31 * i + 7);
}

// ---- one call

// Calls with the job and so many bytes of output. text is the report, or null where the job is refused with the number `refused`.
static void call(const char *what, const char *job, size_t length, size_t out_length, const char *text, int refused, int guarded) {
    struct block lent_job = guarded ? guarded_block(length) : heap_block(length);
    struct block out = guarded ? guarded_block(out_length) : heap_block(out_length);
    memcpy(lent_job.bytes, job, length);
    for (size_t i = 0; i < out_length; i++) {
        out.bytes[i] = filler(i);
    }
    int64_t result = siting_report(lent_job.bytes, length, out.bytes, out_length);
    size_t written = text == NULL ? 0 : strlen(text);
    check(result == (text == NULL ? -refused : (int64_t)written), what, "result");
    check(written <= out_length && (written == 0 || memcmp(out.bytes, text, written) == 0), what, "text");
    int kept = 1;
    for (size_t i = written; i < out_length; i++) {
        kept = kept && out.bytes[i] == filler(i);
    }
    check(kept, what, "bytes behind the text");
    check(memcmp(lent_job.bytes, job, length) == 0, what, "the job's bytes");
    release(lent_job);
    release(out);
    // the next call is answered as if it were the first
    uint8_t next[128];
    result = siting_report((const uint8_t *)CASE_A, strlen(CASE_A), next, sizeof next);
    check(result == (int64_t)strlen(REPORT_A) && memcmp(next, REPORT_A, strlen(REPORT_A)) == 0, what, "case A behind it");
}

static void call_both(const char *what, const char *job, size_t length, size_t out_length, const char *text, int refused) {
    call(what, job, length, out_length, text, refused, 0);
    call(what, job, length, out_length, text, refused, 1);
}

static void accepted(const char *what, const char *job, size_t length, const char *text) {
    static const size_t enough[] = {128, 129, 300}, few[] = {0, 1, 127};
    for (size_t i = 0; i < 3; i++) {
        call_both(what, job, length, enough[i], text, 0);
        call_both(what, job, length, few[i], NULL, 8);
    }
}

// The refusals 1 to 6 come before 8.
static void refused(const char *what, const char *job, size_t length, int number) {
    static const size_t lengths[] = {0, 127, 128, 300};
    for (size_t i = 0; i < 4; i++) {
        call_both(what, job, length, lengths[i], NULL, number);
    }
}

// ---- cases

static const struct {
    const char *job, *report;
} accepted_jobs[] = {
    {CASE_A, REPORT_A},
    {AREA POSTS STOPS "rounds=0\n", "state=stopped\nat=8,8\nhigh=18\nlow=4\nbefore=34\nrounds=0\n"},
    {AREA POSTS STOPS "rounds=1\n", "state=stopped\nat=4,2\nhigh=16\nlow=4\nbefore=34\nrounds=1\n"},
    {AREA POSTS STOPS "rounds=2\n", "state=stopped\nat=4,3\nhigh=13\nlow=8\nbefore=34\nrounds=2\n"},
    {AREA POSTS STOPS "rounds=3\n", REPORT_A},
    {AREA POSTS STOPS "rounds=1000\n", REPORT_A},
    {"area=0,0,10,0\nposts=1\npost=0,50\nstops=2\nstop=0,0,1\nstop=10,0,1\nrounds=10\n",
     "state=done\nat=0,0\nhigh=10\nlow=10\nbefore=110\nrounds=0\n"},
    {"area=5,5,5,5\n" POSTS STOPS "rounds=10\n", "state=done\nat=5,5\nhigh=16\nlow=16\nbefore=34\nrounds=0\n"},
    {"area=0,0,9,0\nposts=1\npost=5,1\nstops=1\nstop=5,0,1\nrounds=0\n", "state=stopped\nat=0,0\nhigh=1\nlow=0\nbefore=1\nrounds=0\n"},
    {"area=0,0,9,0\nposts=1\npost=5,1\nstops=1\nstop=5,0,1\nrounds=1\n", "state=done\nat=5,0\nhigh=0\nlow=0\nbefore=1\nrounds=1\n"},
    // two cuts, where a search by the corner bound needs three
    {CLOSER "rounds=1\n", "state=stopped\nat=4,2\nhigh=9\nlow=8\nbefore=13\nrounds=1\n"},
    {CLOSER "rounds=1000\n", "state=done\nat=4,2\nhigh=9\nlow=9\nbefore=13\nrounds=2\n"},
    // axis costs
    {AREA "axis=1,1\n" POSTS STOPS "rounds=10\n", REPORT_A},
    {AREA "axis=9,9\n" POSTS STOPS "rounds=10\n", "state=done\nat=4,3\nhigh=117\nlow=117\nbefore=306\nrounds=3\n"},
    {NARROW(""), "state=done\nat=2,1\nhigh=7\nlow=7\nbefore=11\nrounds=3\n"},
    {NARROW("axis=1,1\n"), "state=done\nat=2,1\nhigh=7\nlow=7\nbefore=11\nrounds=3\n"},
    {NARROW("axis=2,1\n"), "state=done\nat=2,4\nhigh=9\nlow=9\nbefore=15\nrounds=3\n"},
    {NARROW("axis=1,2\n"), "state=done\nat=3,1\nhigh=9\nlow=9\nbefore=18\nrounds=3\n"},
};

static const struct {
    int number;
    const char *job;
} refused_jobs[] = {
    // a line that is not as it has to be, too few lines or too many
    {2, ""},
    {2, "\n"},
    {2, "area=2,2,8,8"},
    {2, AREA},
    {2, AREA POSTS STOPS},
    {2, AREA POSTS STOPS "rounds=10"},
    {2, CASE_A "\n"},
    {2, CASE_A "a"},
    {2, CASE_A CASE_A},
    {2, "area=2,2,8,8\r\n" POSTS STOPS "rounds=10\n"},
    {2, " " CASE_A},
    {2, "Area=2,2,8,8\n" POSTS STOPS "rounds=10\n"},
    {2, "area=2,2,8\n" POSTS STOPS "rounds=10\n"},
    {2, "area=2,2,8,8,8\n" POSTS STOPS "rounds=10\n"},
    {2, "area=2,2,8,+8\n" POSTS STOPS "rounds=10\n"},
    {2, "area=2,2,8,08\n" POSTS STOPS "rounds=10\n"},
    {2, "area=-0,2,8,8\n" POSTS STOPS "rounds=10\n"},
    {2, "area=2,2,8,\n" POSTS STOPS "rounds=10\n"},
    {2, "area=2,2,8,1000000000\n" POSTS STOPS "rounds=10\n"},
    {2, AREA "posts=2\npost=0,0\n" STOPS "rounds=10\n"},
    {2, AREA "posts=0\npost=0,0\n" STOPS "rounds=10\n"},
    {2, AREA POSTS "stops=1\nstop=4,3,2\nstop=8,12,1\nrounds=10\n"},
    {2, AREA POSTS "stops=1\nstop=4,3\nrounds=10\n"},
    {2, POSTS AREA STOPS "rounds=10\n"},
    {2, NARROW("axis=\n")},
    {2, NARROW("axis=1\n")},
    {2, NARROW("axis=1,1,1\n")},
    {2, NARROW("axis=01,1\n")},
    {2, NARROW("axis=1,+1\n")},
    {2, NARROW("axis=-0,1\n")},
    {2, NARROW("axis=1,1000000000\n")},
    {2, NARROW("axis=1,1\r\n")},
    {2, NARROW("axis=2,1\naxis=2,1\n")},
    {2, "axis=2,1\n" CASE_A},
    {2, AREA POSTS "axis=2,1\n" STOPS "rounds=10\n"},
    {2, CASE_A "axis=2,1\n"},
    {2, AREA "axis=2,1"},
    {2, AREA "axis=2,1\n"},
    // a number outside its range
    {3, "area=2,2,8,20001\n" POSTS STOPS "rounds=10\n"},
    {3, "area=-20001,2,8,8\n" POSTS STOPS "rounds=10\n"},
    {3, "area=2,2,8,999999999\n" POSTS STOPS "rounds=10\n"},
    {3, AREA "posts=65\n"},
    {3, AREA "posts=-1\n"},
    {3, AREA "posts=1\npost=0,-20001\n" STOPS "rounds=10\n"},
    {3, AREA POSTS "stops=513\n"},
    {3, AREA POSTS "stops=1\nstop=20001,3,2\nrounds=10\n"},
    {3, AREA POSTS "stops=1\nstop=4,3,0\nrounds=10\n"},
    {3, AREA POSTS "stops=1\nstop=4,3,65536\nrounds=10\n"},
    {3, AREA POSTS STOPS "rounds=1001\n"},
    {3, AREA POSTS STOPS "rounds=-1\n"},
    {3, NARROW("axis=0,1\n")},
    {3, NARROW("axis=1,10\n")},
    {3, NARROW("axis=-1,1\n")},
    {3, NARROW("axis=999999999,1\n")},
    // an empty area, no posts, no stops
    {4, "area=8,2,2,8\n" POSTS STOPS "rounds=10\n"},
    {4, "area=2,8,8,2\n" POSTS STOPS "rounds=10\n"},
    {5, AREA "posts=0\n" STOPS "rounds=10\n"},
    {6, AREA POSTS "stops=0\nrounds=10\n"},
    // several at once: the first by the order of RULES "Refusals"
    {3, "area=2,2,8,20001\nposts=a\n"},
    {2, "area=2,2,8,20001,\n" POSTS STOPS "rounds=10\n"},
    {2, "area=2,2,8,20001"},
    {2, "area=2,2,8,8\nposts=a\nstops=513\n"},
    {3, "area=8,2,2,8\nposts=0\nstops=0\nrounds=1001\n"},
    {2, "area=8,2,2,8\nposts=0\nstops=0\nrounds=10\n\n"},
    {4, "area=8,2,2,8\nposts=0\nstops=0\nrounds=10\n"},
    {5, AREA "posts=0\nstops=0\nrounds=10\n"},
    {2, NARROW("axis=0,1000000000\n")},
    {3, AREA "axis=10,1\nposts=a\n"},
    {3, "area=8,2,2,8\naxis=10,1\nposts=0\nstops=0\nrounds=10\n"},
    {4, "area=8,2,2,8\naxis=9,1\nposts=0\nstops=0\nrounds=10\n"},
};

static void table(void) {
    for (size_t i = 0; i < sizeof accepted_jobs / sizeof accepted_jobs[0]; i++) {
        accepted(accepted_jobs[i].job, accepted_jobs[i].job, strlen(accepted_jobs[i].job), accepted_jobs[i].report);
    }
    for (size_t i = 0; i < sizeof refused_jobs / sizeof refused_jobs[0]; i++) {
        refused(refused_jobs[i].job, refused_jobs[i].job, strlen(refused_jobs[i].job), refused_jobs[i].number);
    }
    static const char zero[] = "area=2,2,8,8\0\n" POSTS STOPS "rounds=10\n";
    refused("a byte 0", zero, sizeof zero - 1, 2);
    // every start of a job but the whole
    static const char *const whole[] = {CASE_A, NARROW("axis=2,1\n")};
    for (size_t i = 0; i < 2; i++) {
        for (size_t length = 0; length < strlen(whole[i]); length++) {
            call_both("a start of a job", whole[i], length, 128, NULL, 2);
        }
    }
}

// ---- sizes

// 64 posts, 512 stops and 1,000 rounds, each line as long as it can be.
static size_t longest(char *job, const char *axis, const char *area, const char *post, const char *stop) {
    size_t n = (size_t)sprintf(job, "area=%s,%s\n%sposts=64\n", area, area, axis);
    for (int i = 0; i < 64; i++) {
        n += (size_t)sprintf(job + n, "post=%s\n", post);
    }
    n += (size_t)sprintf(job + n, "stops=512\n");
    for (int i = 0; i < 512; i++) {
        n += (size_t)sprintf(job + n, "stop=%s,65535\n", stop);
    }
    return n + (size_t)sprintf(job + n, "rounds=1000\n");
}

static void sizes(void) {
    static char job[LONGEST_JOB + 2];
    size_t n = longest(job, "axis=9,9\n", "-20000,-20000", "-20000,-20000", "-20000,-20000");
    check(n == 14089, "the longest accepted job", "length");
    accepted("the longest accepted job", job, n, "state=done\nat=-20000,-20000\nhigh=0\nlow=0\nbefore=0\nrounds=0\n");
    memset(job + n, '\n', sizeof job - n);
    refused("lines up to 16,384 bytes", job, LONGEST_JOB, 2);
    refused("lines up to 16,385 bytes", job, LONGEST_JOB + 1, 1);
    n = longest(job, "", "20000,20000", "20000,20000", "-20000,-20000");
    accepted("the largest figures under 1,1", job, n,
             "state=done\nat=20000,20000\nhigh=2684313600000\nlow=2684313600000\nbefore=2684313600000\nrounds=0\n");
    n = longest(job, "axis=9,9\n", "20000,20000", "20000,20000", "-20000,-20000");
    accepted("the largest figures", job, n,
             "state=done\nat=20000,20000\nhigh=24158822400000\nlow=24158822400000\nbefore=24158822400000\nrounds=0\n");
    memset(job, 'a', sizeof job);
    refused("16,384 letters", job, LONGEST_JOB, 2);
    refused("16,385 letters", job, LONGEST_JOB + 1, 1);
}

// ---- the files of examples/

static const char *const names[] = {"case-a",       "milk-lab",         "milk-lab-stopped",   "crowded",           "ties",
                                    "heavy-bridge", "refused-65-posts", "refused-empty-area", "refused-line-ends", "refused-cut-off"};

#define NAMES (sizeof names / sizeof names[0])

static struct {
    char job[LONGEST_JOB + 1], report[129];
    size_t length;
} examples[NAMES];

static size_t load(const char *folder, const char *name, const char *kind, char *to, size_t most) {
    char path[4096];
    snprintf(path, sizeof path, "%s/%s.%s", folder, name, kind);
    FILE *file = fopen(path, "rb");
    if (file == NULL) {
        perror(path);
        exit(1);
    }
    size_t n = fread(to, 1, most, file);
    fclose(file);
    return n;
}

static void files(const char *folder) {
    for (size_t i = 0; i < NAMES; i++) {
        examples[i].length = load(folder, names[i], "job", examples[i].job, LONGEST_JOB);
        load(folder, names[i], "report", examples[i].report, 128);
        int number;
        if (sscanf(examples[i].report, "refused=%d\n", &number) == 1) {
            refused(names[i], examples[i].job, examples[i].length, number);
        } else {
            accepted(names[i], examples[i].job, examples[i].length, examples[i].report);
        }
    }
}

// ---- repeated calls, threads, stack

// Calls with every example in turn, each time into the output of the call before. Returns how many answers were not the stored ones.
static size_t wrong_answers(int times) {
    uint8_t out[128] = {0};
    size_t wrong = 0;
    for (int t = 0; t < times; t++) {
        for (size_t i = 0; i < NAMES; i++) {
            int64_t n = siting_report((const uint8_t *)examples[i].job, examples[i].length, out, sizeof out);
            int number;
            if (sscanf(examples[i].report, "refused=%d\n", &number) == 1) {
                wrong += n != -number;
            } else {
                wrong += n != (int64_t)strlen(examples[i].report) || memcmp(out, examples[i].report, (size_t)n) != 0;
            }
        }
    }
    return wrong;
}

static void *many(void *wrong) {
    *(size_t *)wrong = wrong_answers(5);
    return NULL;
}

static void start(pthread_t *thread, const pthread_attr_t *attributes, size_t *wrong) {
    if (pthread_create(thread, attributes, many, wrong) != 0) {
        must(NULL);
    }
}

static void threads(void) {
    pthread_t thread[4];
    size_t wrong[4];
    for (int i = 0; i < 4; i++) {
        start(&thread[i], NULL, &wrong[i]);
    }
    for (int i = 0; i < 4; i++) {
        pthread_join(thread[i], NULL);
        check(wrong[i] == 0, "four threads at once", "reports");
    }
}

// A thread that needs more stack ends the program.
static void small_stack(void) {
    pthread_attr_t attributes;
    pthread_t thread;
    size_t wrong;
    pthread_attr_init(&attributes);
    check(pthread_attr_setstacksize(&attributes, STACK) == 0, "a thread with little stack", "its stack");
    start(&thread, &attributes, &wrong);
    pthread_join(thread, NULL);
    check(wrong == 0, "a thread with little stack", "reports");
    pthread_attr_destroy(&attributes);
}

int main(int argc, char **argv) {
    if (argc != 2) {
        fprintf(stderr, "usage: entry EXAMPLES\n");
        return 1;
    }
    table();
    sizes();
    files(argv[1]);
    check(wrong_answers(20) == 0, "repeated calls", "reports");
    threads();
    small_stack();
    printf("C entry: %lu checks, %lu failed\n", checks, failures);
    return failures == 0 ? 0 : 1;
}
