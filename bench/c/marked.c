/*
 * Runs the example logs, the marked ones among them, through the proved judge
 * and compares the numbers.
 *
 * `marked DIRECTORY`: the directory has the logs; expected.txt, whose lines
 * read `FILE: steps S stop P verdict V`; and reads.txt, whose lines read
 * `FILE NUMBER`, with the last reads of the same logs in the same order. One
 * line is printed for each log. The status is 0 only if all were there and
 * every number was right.
 */
#include "claysaucer.h"

#include <stdarg.h>
#include <stdio.h>
#include <stdlib.h>
#include <string.h>

/* The thirteen logs of the marked table, and six more. */
#define EXAMPLES 19
/* One byte more than a log may have. */
#define ROOM (CLAYSAUCER_LOG_LIMIT + 1)

struct numbers {
    unsigned steps;
    unsigned stop;
    unsigned verdict;
    unsigned read;
};

static uint8_t log_bytes[ROOM];

static _Noreturn void die(const char *format, ...)
{
    va_list arguments;
    va_start(arguments, format);
    fflush(stdout);
    fputs("marked: ", stderr);
    vfprintf(stderr, format, arguments);
    fputc('\n', stderr);
    va_end(arguments);
    exit(1);
}

static FILE *open_in(const char *directory, const char *name)
{
    char path[4096];
    int length = snprintf(path, sizeof path, "%s/%s", directory, name);
    if (length < 0 || (size_t)length >= sizeof path)
        die("the path of %s is too long", name);
    FILE *file = fopen(path, "rb");
    if (file == NULL)
        die("cannot open %s", path);
    return file;
}

/* Reads a log into log_bytes, with zeros after it, and gives its length. */
static size_t read_log(const char *directory, const char *name)
{
    FILE *file = open_in(directory, name);
    memset(log_bytes, 0, ROOM);
    size_t length = fread(log_bytes, 1, ROOM, file);
    if (ferror(file) || length == 0)
        die("cannot read %s", name);
    fclose(file);
    return length;
}

static void print(struct numbers told)
{
    printf("steps %u stop %u verdict %u read %u", told.steps, told.stop, told.verdict, told.read);
}

/* Judges the first bytes of log_bytes. Gives 1 where a number is wrong. */
static int compare(const char *name, size_t length, struct numbers expected)
{
    uint64_t answer = claysaucer_judge(log_bytes, length);
    struct numbers given = { CLAYSAUCER_STEPS(answer), CLAYSAUCER_STOP(answer), CLAYSAUCER_VERDICT(answer),
        CLAYSAUCER_READ(answer) };
    int wrong = given.steps != expected.steps || given.stop != expected.stop || given.verdict != expected.verdict
        || given.read != expected.read || (answer >> 24 & 0xFF) != 0;
    printf("%s: ", name);
    print(given);
    if (wrong) {
        printf(" (packed 0x%016llX), not ", (unsigned long long)answer);
        print(expected);
    }
    putchar('\n');
    return wrong;
}

/* The number in the next line of reads.txt, which must be that of this log. */
static unsigned next_read(FILE *reads, const char *log)
{
    char name[64];
    unsigned read;
    if (fscanf(reads, "%63s %u", name, &read) != 2 || strcmp(name, log) != 0)
        die("reads.txt has not %s where expected.txt has it", log);
    return read;
}

/* Every log that expected.txt names. Gives how many are wrong. */
static int compare_examples(const char *directory)
{
    FILE *file = open_in(directory, "expected.txt");
    FILE *reads = open_in(directory, "reads.txt");
    char line[256];
    int logs = 0;
    int wrong = 0;
    while (fgets(line, sizeof line, file) != NULL) {
        char name[64];
        struct numbers expected;
        if (sscanf(line, "%63[^:]: steps %u stop %u verdict %u", name, &expected.steps, &expected.stop,
                &expected.verdict) != 4)
            die("expected.txt has the line %s", line);
        expected.read = next_read(reads, name);
        wrong += compare(name, read_log(directory, name), expected);
        logs += 1;
    }
    fclose(file);
    fclose(reads);
    if (logs != EXAMPLES)
        die("expected.txt has %d logs and not %d", logs, EXAMPLES);
    return wrong;
}

/*
 * "A log is at most 65,536 bytes, else stop 12." After the record of case 1 come
 * zeros: a record with a wrong check, which is not reached in a log that is too
 * long. An empty log has no header. The record allocates, which reads nothing.
 */
static int compare_lengths(const char *directory)
{
    const struct numbers no_header = { 0, CLAYSAUCER_STOP_NOT_ADMITTED, CLAYSAUCER_VERDICT_MALFORMED,
        CLAYSAUCER_READ_NOTHING };
    const struct numbers wrong_check = { 1, CLAYSAUCER_STOP_WRONG_CHECK, CLAYSAUCER_VERDICT_SOUND,
        CLAYSAUCER_READ_NOTHING };
    read_log(directory, "case-01.log");
    int wrong = compare("no byte", 0, no_header);
    wrong += compare("65,536 bytes", CLAYSAUCER_LOG_LIMIT, wrong_check);
    wrong += compare("65,537 bytes", CLAYSAUCER_LOG_LIMIT + 1, no_header);
    return wrong;
}

int main(int count, char **arguments)
{
    if (count != 2)
        die("usage: marked DIRECTORY");
    int wrong = compare_examples(arguments[1]);
    wrong += compare_lengths(arguments[1]);
    if (wrong != 0)
        die("%d of the logs gave other numbers", wrong);
    return 0;
}
