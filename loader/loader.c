/* An example of a loader that installs a kernel by the verified checker's report alone.
 *
 *     loader FILE             checks a launch file
 *     loader --report FILE    reads a report that `check` printed
 *
 * Prints `install`, or `refuse:` with the reason. The exit status is 0 for install only. */
#include <stdbool.h>
#include <stdint.h>
#include <stdio.h>
#include <string.h>

#include "sekufoyi.h"

/* A byte more than either may have, so that one that is too long is seen to be. */
enum { LAUNCH_ROOM = 32768 + 1, REPORT_ROOM = SEKUFOYI_OUTPUT + 1 };

enum { INSTALL = 0, REFUSE = 1, USAGE = 2 };

struct line {
    const uint8_t *bytes;
    size_t length; /* without its newline */
};

/* Takes a line off the front of the bytes. False where no newline is left: a line that is cut off is none. */
static bool take_line(const uint8_t **bytes, size_t *length, struct line *line)
{
    const uint8_t *end = *length == 0 ? NULL : memchr(*bytes, '\n', *length);
    if (end == NULL)
        return false;
    *line = (struct line){*bytes, (size_t)(end - *bytes)};
    *length -= line->length + 1;
    *bytes = end + 1;
    return true;
}

static bool is(struct line line, const char *text)
{
    return line.length == strlen(text) && memcmp(line.bytes, text, line.length) == 0;
}

/* The whole decision, by the reading that the promises go by (crates/spec/specs/Reading.antt, `installs`): a line is what a newline ends, the
 * first line is `verdict=passed`, and lines are read until `end=report`. Of every report of a launch file it is proved that this installs
 * what has passed, and nothing by a part of one. Beyond it, what is no report of one run is refused: bytes behind the end, and a verdict in a
 * line but the first, so that the pieces of two reports are not taken for one. */
static bool installs(const uint8_t *report, size_t length)
{
    static const char verdict[] = "verdict=";
    const size_t verdict_length = sizeof verdict - 1;
    struct line line;

    if (!take_line(&report, &length, &line) || !is(line, "verdict=passed"))
        return false;
    while (take_line(&report, &length, &line)) {
        if (is(line, "end=report"))
            return length == 0;
        if (line.length >= verdict_length && memcmp(line.bytes, verdict, verdict_length) == 0)
            return false;
    }
    return false;
}

/* Prints what stands in the first line, as far as it can be printed: the report may be anything. */
static void print_reason(const uint8_t *report, size_t length)
{
    enum { SHOWN = 40 };
    printf("refuse: ");
    if (length == 0)
        printf("no report");
    for (size_t i = 0; i < length && i < SHOWN && report[i] != '\n'; i++)
        putchar(report[i] >= ' ' && report[i] <= '~' ? report[i] : '?');
    if (length >= 15 && memcmp(report, "verdict=passed\n", 15) == 0)
        printf(", but the report is not whole");
    putchar('\n');
}

static int decide(const uint8_t *report, size_t length)
{
    if (installs(report, length)) {
        printf("install\n");
        return INSTALL;
    }
    print_reason(report, length);
    return REFUSE;
}

/* The checker's report of a launch file, one of a refusal where the file is refused. The buffers are as long as is asked for, so
 * that no other refusal comes up; if one did, the report would be empty, which is refused. */
static size_t check(const uint8_t *file, size_t length, uint8_t report[SEKUFOYI_OUTPUT])
{
    static uint32_t cells[SEKUFOYI_CELLS], global[SEKUFOYI_GLOBAL], log[SEKUFOYI_LOG], records[SEKUFOYI_RECORDS];
    uint32_t refusal[2], ignored[2];

    size_t written = sekufoyi_check_file(file, length, cells, SEKUFOYI_CELLS, global, SEKUFOYI_GLOBAL, log, SEKUFOYI_LOG, records,
                                         SEKUFOYI_RECORDS, report, SEKUFOYI_OUTPUT, refusal);
    if (written == 0)
        written = sekufoyi_write_refusal(refusal[0], refusal[1], report, SEKUFOYI_OUTPUT, ignored);
    return written;
}

/* Reads at most `room` bytes. False where reading fails, which is not the same as the file's end. */
static bool read_file(const char *path, uint8_t *bytes, size_t room, size_t *length)
{
    FILE *file = fopen(path, "rb");
    if (file == NULL)
        return false;
    *length = fread(bytes, 1, room, file);
    bool fine = !ferror(file);
    fclose(file);
    return fine;
}

static int decide_report(const char *path)
{
    static uint8_t report[REPORT_ROOM];
    size_t length;

    if (!read_file(path, report, sizeof report, &length)) {
        printf("refuse: the report can't be read\n");
        return REFUSE;
    }
    if (length > SEKUFOYI_OUTPUT) {
        printf("refuse: longer than any report\n");
        return REFUSE;
    }
    return decide(report, length);
}

static int decide_launch(const char *path)
{
    static uint8_t file[LAUNCH_ROOM], report[SEKUFOYI_OUTPUT];
    size_t length;

    if (!read_file(path, file, sizeof file, &length)) {
        printf("refuse: the launch file can't be read\n");
        return REFUSE;
    }
    return decide(report, check(file, length, report));
}

int main(int count, char **arguments)
{
    int status = USAGE;
    if (count == 3 && strcmp(arguments[1], "--report") == 0)
        status = decide_report(arguments[2]);
    else if (count == 2)
        status = decide_launch(arguments[1]);
    else
        fprintf(stderr, "usage: loader FILE | loader --report FILE\n");
    /* What could not be printed was not said. */
    return fflush(stdout) == 0 ? status : REFUSE;
}
