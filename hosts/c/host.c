/* Runs a sheet by the library and prints what the box prints, moves it to another edition, or tidies it.
 *
 *   host SHEET PATH BUDGET SKIP OUTPUT [WORDS]
 *   host --parts SHEET PATH BUDGET [OUTPUT]
 *   host --up SHEET
 *   host --down SHEET
 *   host --tidy SHEET
 *
 * SHEET is a file. WORDS defaults to what the path limit asks, 6,144 + 12 * PATH.
 *
 * With --parts a listing that is longer than the output, which is the box's 4,096 bytes unless OUTPUT says otherwise, is printed part by part: the
 * sheet is run again, past the blocks that are printed, until a run ends otherwise than `output`, or has no room for one block. The lines after
 * the listing are those of the last run. On standard error there is a line for each part that another follows.
 *
 * With --up a sheet of edition 2 is printed as one of edition 3, with --down one of edition 3 as one of edition 2, with --tidy one of edition 3
 * without its empty ranges. Of a sheet that is refused nothing is printed; its number and place go to standard error, and the exit status is 1.
 *
 * The exit status is 1 where a byte was lost in printing, and nothing is printed after it; 2 where nothing was run or moved. */
#include <stdio.h>
#include <stdlib.h>
#include <string.h>
#include "vodlasim.h"

enum { BOX_OUTPUT = 4096 };     /* the box's output, in bytes */

static const char *const ends[] = {
    [VODLASIM_DONE] = "done", [VODLASIM_SPENT] = "spent", [VODLASIM_PATH] = "path", [VODLASIM_OUTPUT] = "output"
};

static void *room(size_t bytes)
{
    void *p = malloc(bytes ? bytes : 1);
    if (!p) {
        perror("host");
        exit(2);
    }
    memset(p, 0xA5, bytes);     /* the library may count on no value there */
    return p;
}

/* the file's bytes; one more than a sheet may have is enough to see it refused */
static uint8_t *read_sheet(const char *name, size_t *len)
{
    FILE *file = fopen(name, "rb");
    if (!file) {
        perror(name);
        exit(2);
    }
    uint8_t *sheet = room(4097);
    *len = fread(sheet, 1, 4097, file);
    fclose(file);
    return sheet;
}

/* whether all that was printed so far went out */
static int went_out(void)
{
    return fflush(stdout) == 0 && !ferror(stdout);
}

/* what was written to the output: a listing, or a moved sheet */
static int print_written(const uint64_t report[8], const uint8_t *output)
{
    fwrite(output, 1, report[VODLASIM_WRITTEN], stdout);
    return went_out();
}

static int print_report(const uint64_t report[8], const uint8_t *output)
{
    if (report[VODLASIM_REFUSED]) {
        printf("refused=%llu\nat=%llu\n", (unsigned long long)report[VODLASIM_REFUSED], (unsigned long long)report[VODLASIM_PLACE]);
        return went_out();
    }
    if (!print_written(report, output))
        return 0;
    printf("end=%s\nnodes=%llu\nanswers=%llu\nerrors=%llu\nfails=%llu\n", ends[report[VODLASIM_END]],
           (unsigned long long)report[VODLASIM_NODES], (unsigned long long)report[VODLASIM_ANSWERS],
           (unsigned long long)report[VODLASIM_ERRORS], (unsigned long long)report[VODLASIM_FAILS]);
    return went_out();
}

/* a sheet, and all that its runs have in common */
struct job {
    const uint8_t *sheet;
    size_t sheet_len;
    uint32_t path, budget;
    uint32_t *work;
    size_t words;
    uint8_t *output;
    size_t output_len;
};

static void run(const struct job *job, uint32_t skip, uint64_t report[8])
{
    vodlasim_run(job->sheet, job->sheet_len, job->path, job->budget, skip, job->work, job->words, job->output, job->output_len, report);
}

/* whether a part follows the run: the output was full, after one block at least */
static int goes_on(const uint64_t report[8])
{
    return !report[VODLASIM_REFUSED] && report[VODLASIM_END] == VODLASIM_OUTPUT && report[VODLASIM_WRITTEN] > 0;
}

/* prints each part that another follows, and runs the last */
static int print_parts(const struct job *job, uint64_t report[8])
{
    uint32_t skip = 0;
    for (run(job, skip, report); goes_on(report); run(job, skip, report)) {
        if (!print_written(report, job->output))
            return 0;
        uint32_t plotted = report[VODLASIM_ANSWERS] + report[VODLASIM_ERRORS];      /* the skipped blocks are counted, too */
        fprintf(stderr, "part: blocks %u to %u, %llu bytes\n", skip + 1, plotted, (unsigned long long)report[VODLASIM_WRITTEN]);
        skip = plotted;
    }
    return 1;
}

/* the calls that move a sheet */
typedef void move_call(const uint8_t *, size_t, uint32_t *, size_t, uint8_t *, size_t, uint64_t[8]);

/* the one that an option names, if it names one */
static move_call *call_of(const char *option)
{
    if (strcmp(option, "--up") == 0)
        return vodlasim_move_up;
    if (strcmp(option, "--down") == 0)
        return vodlasim_move_down;
    return strcmp(option, "--tidy") == 0 ? vodlasim_tidy : NULL;
}

/* moves a sheet and prints it; the exit status */
static int move(const char *name, move_call *call)
{
    size_t len;
    uint64_t report[8];
    uint8_t *sheet = read_sheet(name, &len);
    uint32_t *work = room(4 * VODLASIM_MOVE_WORDS);
    uint8_t *output = room(VODLASIM_MOVE_OUTPUT);
    call(sheet, len, work, VODLASIM_MOVE_WORDS, output, VODLASIM_MOVE_OUTPUT, report);
    int status = 0;
    if (report[VODLASIM_REFUSED]) {
        fprintf(stderr, "%s: refused with %llu at byte %llu\n", name, (unsigned long long)report[VODLASIM_REFUSED],
                (unsigned long long)report[VODLASIM_PLACE]);
        status = 1;
    } else if (!print_written(report, output)) {
        perror("host");
        status = 1;
    }
    free(output);
    free(work);
    free(sheet);
    return status;
}

int main(int argc, char **argv)
{
    const char *mode = argc > 1 ? argv[1] : "";
    if (argc == 3 && call_of(mode))
        return move(argv[2], call_of(mode));
    int in_parts = strcmp(mode, "--parts") == 0;
    if (in_parts ? argc != 5 && argc != 6 : argc != 6 && argc != 7) {
        fprintf(stderr, "usage: %s SHEET PATH BUDGET SKIP OUTPUT [WORDS]\n       %s --parts SHEET PATH BUDGET [OUTPUT]\n       %s --up SHEET\n"
                "       %s --down SHEET\n       %s --tidy SHEET\n", argv[0], argv[0], argv[0], argv[0], argv[0]);
        return 2;
    }
    char **args = argv + 1 + in_parts;
    struct job job;
    uint8_t *sheet = read_sheet(args[0], &job.sheet_len);
    job.sheet = sheet;
    job.path = strtoul(args[1], NULL, 10);
    job.budget = strtoul(args[2], NULL, 10);
    job.output_len = !in_parts ? strtoul(args[4], NULL, 10) : argc == 6 ? strtoul(args[3], NULL, 10) : BOX_OUTPUT;
    job.words = argc == 7 ? strtoul(args[5], NULL, 10) : 6144 + 12 * (size_t)(job.path < 32768 ? job.path : 32768);
    job.work = room(4 * job.words);
    job.output = room(job.output_len);
    uint64_t report[8];
    int went = 1;
    if (in_parts)
        went = print_parts(&job, report);
    else
        run(&job, strtoul(args[3], NULL, 10), report);
    int status = went && print_report(report, job.output) ? 0 : 1;
    if (status)
        perror("host");
    free(job.output);
    free(job.work);
    free(sheet);
    return status;
}
