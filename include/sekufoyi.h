/* The verified checker for barrier kernels, for C. Link libsekufoyi.a, which `scripts/build sekufoyi` makes.
 *
 * Every function takes any numbers and any lengths, ends, and answers as the specification says. What C has to see to: a pointer is
 * not NULL (where a length is 0 it may point anywhere), the bytes or words behind it are as many as its length says, and the
 * buffers that a function writes overlap neither each other nor those that it reads. */
#ifndef SEKUFOYI_H
#define SEKUFOYI_H

#include <stdbool.h>
#include <stddef.h>
#include <stdint.h>

#ifdef __cplusplus
extern "C" {
#endif

/* What sekufoyi_check_file is lent: words of own cells for all groups together, of global cells, of log and of records, and bytes of
 * output. Of the last two there may be more. */
enum { SEKUFOYI_CELLS = 1024, SEKUFOYI_GLOBAL = 1024, SEKUFOYI_LOG = 8192, SEKUFOYI_RECORDS = 3075, SEKUFOYI_OUTPUT = 24576 };

/* What sekufoyi_pair_files is lent: bytes of output, for two reports. There may be more. */
enum { SEKUFOYI_PAIR_OUTPUT = 49152 };

/* The most threads that a group has, the most groups that a launch has, and the words of steps that sekufoyi_bare_launch is lent, however
 * many threads there are. */
enum { SEKUFOYI_THREADS = 32, SEKUFOYI_GROUPS = 8, SEKUFOYI_STEPS = 256 };

/* The first word of an outcome. 0 is none of them. A report says race of both kinds of races. */
enum {
    SEKUFOYI_PASSED = 1,
    SEKUFOYI_RACE = 2, /* between two threads of one group */
    SEKUFOYI_OUTSIDE = 3,
    SEKUFOYI_DIVERGED = 4,
    SEKUFOYI_SPENT = 5,
    SEKUFOYI_GROUP_RACE = 6, /* between two groups, at a global cell */
    SEKUFOYI_COMMON = 7      /* a store or an add to a common cell; a launch alone has none, and never comes to it */
};

/* The words of an outcome. A word without meaning, such as the kind of a launch that passed, is 0. */
enum {
    SEKUFOYI_VERDICT,
    SEKUFOYI_ROW,
    SEKUFOYI_GROUP,
    SEKUFOYI_OTHERGROUP, /* of a race: its own group, or the lowest other one that it conflicts with */
    SEKUFOYI_THREAD,     /* a number in its group */
    SEKUFOYI_OTHER,      /* likewise; a race between two groups has none */
    SEKUFOYI_KIND, /* 1 rw, 2 wr, 3 ww, 4 ra, 5 ar, 6 wa, 7 aw: what the other did that conflicts, then what the thread does */
    SEKUFOYI_AT,
    SEKUFOYI_ROWS,
    SEKUFOYI_BARRIERS,
    SEKUFOYI_CONFLICTS, /* what bank conflicts cost in all rows together: the sum of the records' costs */
    SEKUFOYI_OUTCOME    /* as many words an outcome has */
};

/* The words of a record. */
enum {
    SEKUFOYI_RECORD_START, /* the row due at the interval's start; at the table's end the number of rows */
    SEKUFOYI_RECORD_ROWS,  /* the rows run in it; a barrier that all threads came to is the last row of the interval that it ends */
    SEKUFOYI_RECORD_COST   /* what bank conflicts cost in it */
};

/* Own cells are lent as groups * cells words, group 0's first, and global cells as a second buffer. A launch has at least one own cell in
 * each group, and may have no global ones.
 *
 * A log has eight words for each of these cells, neither more nor less: eight kinds one behind the other, and in each kind a word for
 * each own cell in their order, then one for each global cell. The kinds are: readers, writers and adders, bit t for thread t of its
 * group; a first value, what the first store to the cell wrote; a mark, which is 1 where unequal stores were made to it and 0 otherwise;
 * then the groups that read it, that wrote it and that added to it, bit g for group g.
 *
 * The first five kinds are of the accesses since the last barrier that all threads of the group came to; those of global cells are of the
 * group that ran last, since its start if it came to no barrier. A first value counts where the cell has a writer: the value 0 doesn't
 * tell, since it may have been stored; without a writer, first value and mark are 0. The masks of groups are of the whole launch, and 0
 * for own cells. */

/* Steps are counted for each thread by itself, by launch number: word group * threads + t has the rows that thread t of that group ran. A
 * BARRIER is a row, but nobody's step; where an access stops the run, the threads that acted in its row before it have stepped, and the
 * one that was stopped has not. Threads of a group that was not begun have 0. */

/* Records are of barrier intervals, three words each, one behind the other from the first word on. An interval starts with each group and
 * at each barrier that all threads of a group came to, so the records used are barriers + groups begun; but no more than 1,025: from then
 * on the last one goes on. The words behind the last record used are left as they were. The list needs 3,075 words (SEKUFOYI_RECORDS),
 * whatever the launch; fewer are refused. */

/* Checks a launch file and writes its report to the start of the output. Answers the report's length, and 0 where the file is
 * refused: then refusal has the number and the place, and the other buffers are as they were. Otherwise refusal is 0, 0.
 * A report that begins with the line verdict=passed speaks for every run of the launch's threads, by its own lines; its last line, and
 * no other, is end=report. It has a line steps= for each thread, by launch number. */
size_t sekufoyi_check_file(const uint8_t *file, size_t file_length, uint32_t *cells, size_t cells_length, uint32_t *global,
                           size_t global_length, uint32_t *log, size_t log_length, uint32_t *records, size_t records_length,
                           uint8_t *output, size_t output_length, uint32_t refusal[2]);

/* Checks two kernels that are resident together, by their launch files, over the cells of a common file. Writes two reports to the start of
 * the output, the filter's and right behind it the trigger's, and answers the length of both together. Each ends with its own line
 * end=report, and says of its kernel what it would say beside any other. Where the output has fewer than 49,152 bytes, the answer is 0,
 * refusal is 24, 0, and the output is as it was, whatever the files are. Otherwise refusal is 0, 0, and every byte behind the reports is as
 * it was. The runs have cells, log and records of their own, on the stack: some 140 KB (a caller with small threads' stacks needs to know).
 *
 * A kernel whose file is refused has the report of that refusal, as sekufoyi_write_refusal writes it, and the other keeps its own. A bad
 * common file refuses both with 37, at its line there, but for a kernel whose own file is refused, which shows that. Its first 4,119 bytes
 * decide everything: whoever has read so many of a common file need not read on.
 *
 * Two reports that both begin with the line verdict=passed speak for every run of both kernels at once, in whatever order their threads
 * move. */
size_t sekufoyi_pair_files(const uint8_t *filter, size_t filter_length, const uint8_t *trigger, size_t trigger_length,
                           const uint8_t *common, size_t common_length, uint8_t *output, size_t output_length, uint32_t refusal[2]);

/* Runs a kernel table over the lent cells: cell_count own cells in each group, and global_count global ones. Answers true with the
 * outcome, or false with the refusal; the one that does not apply is all zeros. Where it ran, the first words of steps are the threads'
 * own, and every word behind the last thread of the last group is 0, so that all 256 have been written; a refusal leaves steps, as both
 * kinds of cells, the log and the records, as they were. */
bool sekufoyi_bare_launch(const uint8_t *table, size_t table_length, uint32_t threads, uint32_t cell_count, uint32_t groups,
                          uint32_t global_count, uint32_t limit, uint32_t *cells, size_t cells_length, uint32_t *global,
                          size_t global_length, uint32_t *log, size_t log_length, uint32_t *records, size_t records_length,
                          uint32_t steps[256], uint32_t outcome[11], uint32_t refusal[2]);

/* Writes the report of an outcome, or of a refusal, and answers its length, or 0 with a refusal as above. An outcome's report has a line
 * for each of the steps, 1 to 256, and for each of the cells, own and global ones, 1 to 1,024 together. So steps_length is groups *
 * threads of the launch, not the 256 words that sekufoyi_bare_launch was lent. It writes what it is handed: whether a launch came to that
 * outcome it can't tell. */
size_t sekufoyi_write_report(const uint32_t outcome[11], const uint32_t *steps, size_t steps_length, const uint32_t *cells,
                             size_t cells_length, const uint32_t *global, size_t global_length, uint8_t *output, size_t output_length,
                             uint32_t refusal[2]);

size_t sekufoyi_write_refusal(uint32_t number, uint32_t place, uint8_t *output, size_t output_length, uint32_t refusal[2]);

#ifdef __cplusplus
}
#endif

#endif
