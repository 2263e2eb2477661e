/* For hosts in C and C++: plan files, judging, timetables, slots, job lists and readings of the line meter, on memory that the host lends.
 *
 * Every call answers a number: 0 when it is done, a refusal's number from 1 to 31 (enum gateway_refusal), or a number from 256 on for the
 * results that are named below. Every buffer is a pointer and then its length, counted in elements. What a call is not said to change stays.
 *
 * No call relies on checks by the host: every content of the lent memory means exactly one plan, run or job list, or is refused by 21. What
 * no call can check is the host's part: each pointer is valid for its length and aligned, buffers that are written overlap no other, and a
 * single number's pointer is valid. A call keeps no pointer and has no state of its own, so calls on different memory may run at the same
 * time.
 *
 * A buffer of length 0 may be NULL: nothing is read or written through it. An empty file or log is refused by 1, an empty text of a job list by
 * 24; a shift without speeds needs neither rows nor numbers, and a log without readings no speeds; and any other empty buffer is too short (22,
 * unless the call finds another number first; gateway_name answers 0). A single number's pointer (offset, written, slack, speed, count) is never
 * NULL.
 *
 * A name that begins GATEWAY_INDEX_ is an index into a buffer and never the value there: run[GATEWAY_INDEX_CLOCK] is the clock. */
#ifndef GATEWAY_H
#define GATEWAY_H

#include <stddef.h>
#include <stdint.h>

#ifdef __cplusplus
extern "C" {
#endif

/* The plan edition's bounds. */
#define GATEWAY_MOST_JOBS 32
#define GATEWAY_MOST_INTERVALS 63
/* The largest plan file, in bytes. */
#define GATEWAY_LARGEST_FILE 30956
/* A bound, in bytes: no text that gateway_export writes is longer. */
#define GATEWAY_LONGEST_LIST 1794
/* The bytes of a job's name. */
#define GATEWAY_NAME_BYTES 8
/* The most speeds of one shift, and the most readings of one meter log. */
#define GATEWAY_MOST_SPEEDS 256
/* The largest meter log, in bytes. */
#define GATEWAY_LARGEST_LOG 4357

/* A plan lives in 163 words of 64 bits beside its table. The words are n, d and the job count, then for each of 32 jobs name, grade
 * (0 LO, 1 HI), release, size and deadline. A name is its eight bytes as one number, the first byte highest. A word that is too large for
 * what it says means the largest number that could stand there, and no rule allows that number. Jobs from the count on are not looked at. */
#define GATEWAY_HEAD_WORDS 3
#define GATEWAY_JOB_WORDS 5
#define GATEWAY_PLAN_WORDS (GATEWAY_HEAD_WORDS + GATEWAY_JOB_WORDS * GATEWAY_MOST_JOBS)
#define GATEWAY_INDEX_NORMAL_RATE 0
#define GATEWAY_INDEX_FLOOR 1
#define GATEWAY_INDEX_JOB_COUNT 2
/* Where the words of job i begin: the name, and after it grade, release, size and deadline. */
#define GATEWAY_INDEX_JOB_NAME(i) (GATEWAY_HEAD_WORDS + GATEWAY_JOB_WORDS * (size_t)(i))
#define GATEWAY_INDEX_JOB_GRADE(i) (GATEWAY_INDEX_JOB_NAME(i) + 1)
#define GATEWAY_INDEX_JOB_RELEASE(i) (GATEWAY_INDEX_JOB_NAME(i) + 2)
#define GATEWAY_INDEX_JOB_SIZE(i) (GATEWAY_INDEX_JOB_NAME(i) + 3)
#define GATEWAY_INDEX_JOB_DEADLINE(i) (GATEWAY_INDEX_JOB_NAME(i) + 4)

/* A job list lives in 161 words of 64 bits: the job count, then for each of 32 jobs its five words as in a plan. So the words of a plan from
 * GATEWAY_INDEX_JOB_COUNT on are the list of its jobs, and a host may lend that part of a plan: plan + GATEWAY_INDEX_JOB_COUNT. What is said of
 * a plan's words that are too large, and of jobs from the count on, holds for a list's. */
#define GATEWAY_LIST_WORDS (1 + GATEWAY_JOB_WORDS * GATEWAY_MOST_JOBS)

/* The table is made of words of 32 bits, one for each job and interval: job i's units in interval j are at this index. */
#define GATEWAY_TABLE_PLACES (GATEWAY_MOST_JOBS * GATEWAY_MOST_INTERVALS)
#define GATEWAY_INDEX_ALLOTMENT(i, j) (GATEWAY_MOST_INTERVALS * (size_t)(i) + (size_t)(j))

/* A run lives in 67 words of 32 bits: the clock, the slow mark, the below-floor mark, the units carried for each of 32 jobs, then an ended
 * mark for each of 32 jobs. A mark is 0 or 1; any other mark is refused by 21, also that of a job from the count on. Nothing else is asked of
 * the words of jobs from the count on. */
#define GATEWAY_MARK_WORDS 3
#define GATEWAY_RUN_WORDS (GATEWAY_MARK_WORDS + 2 * GATEWAY_MOST_JOBS)
#define GATEWAY_INDEX_CLOCK 0
#define GATEWAY_INDEX_SLOW 1
#define GATEWAY_INDEX_BELOW_FLOOR 2
#define GATEWAY_INDEX_CARRIED(i) (GATEWAY_MARK_WORDS + (size_t)(i))
#define GATEWAY_INDEX_ENDED(i) (GATEWAY_MARK_WORDS + GATEWAY_MOST_JOBS + (size_t)(i))

/* The rows of a shift are made of words of 32 bits, a row for each speed and in it a word for each job. In a plan of so many jobs, what job i is
 * granted at speed k is at this index. No shift needs more places than GATEWAY_ROWS_PLACES. */
#define GATEWAY_ROWS_PLACES (GATEWAY_MOST_SPEEDS * GATEWAY_MOST_JOBS)
#define GATEWAY_INDEX_GRANT(jobs, k, i) ((size_t)(jobs) * (size_t)(k) + (size_t)(i))

/* A location has two words of 64 bits: with 15 job and interval, with 16 job and 0, with 17 interval and 0, with 18 interval and deadline,
 * with any other answer of judge and start 0 and 0. */
#define GATEWAY_LOCATION_WORDS 2

/* A pair says why jobs with one release have no timetable, in four words of 64 bits: a time for the HI jobs; a time for the LO jobs; the units that
 * are asked by them, which are the sizes of the HI jobs due by the one time and of the LO jobs due by the other; and the units that the link
 * carries: the normal rate in each slot from the release to the LO jobs' time, and the floor in each from there to the HI jobs' time, if that is
 * later. */
#define GATEWAY_PAIR_WORDS 4
#define GATEWAY_INDEX_PAIR_HI_TIME 0
#define GATEWAY_INDEX_PAIR_LO_TIME 1
#define GATEWAY_INDEX_PAIR_ASKED 2
#define GATEWAY_INDEX_PAIR_CARRIES 3

enum gateway_refusal {
    GATEWAY_DONE = 0,
    GATEWAY_WRONG_VERSION = 1,
    GATEWAY_WRONG_EXTENT = 2,
    GATEWAY_WRONG_RECORD_LENGTH = 3,
    GATEWAY_WRONG_RATES = 4,
    GATEWAY_WRONG_JOB_COUNT = 5,
    GATEWAY_WRONG_NAME_BYTE = 6,
    GATEWAY_NAME_TAKEN = 7,
    GATEWAY_WRONG_GRADE = 8,
    GATEWAY_WRONG_JOB_BOUNDS = 9,
    GATEWAY_TOO_MANY_ROWS = 10,
    GATEWAY_ROW_WITHOUT_JOB = 11,
    GATEWAY_ROW_WITHOUT_INTERVAL = 12,
    GATEWAY_ROW_WITHOUT_UNITS = 13,
    GATEWAY_ROW_OUT_OF_ORDER = 14,
    GATEWAY_OUTSIDE_WINDOW = 15,
    GATEWAY_WRONG_TOTAL = 16,
    GATEWAY_OVER_CAPACITY = 17,
    GATEWAY_BELOW_FLOOR_RULE = 18,
    GATEWAY_CLOCK_AT_END = 19,
    GATEWAY_SPEED_ABOVE_NORMAL = 20,
    GATEWAY_UNSOUND = 21,
    GATEWAY_BUFFER_TOO_SHORT = 22,
    GATEWAY_WRONG_LINE = 23,
    GATEWAY_WRONG_HEADER = 24,
    GATEWAY_NO_SUCH_JOB = 25,
    GATEWAY_CANNOT_END = 26,
    GATEWAY_TOO_MANY_SPEEDS = 27,
    GATEWAY_RELEASES_DIFFER = 28,
    GATEWAY_NO_TIMETABLE = 29,
    GATEWAY_NOT_FINITE = 30,
    GATEWAY_WRONG_LOWEST = 31
};

/* Results that are no refusals. */
enum gateway_result {
    GATEWAY_NONE_ESSENTIAL = 256,
    GATEWAY_MET = 257,
    GATEWAY_DISCARDED = 258,
    GATEWAY_MISSED = 259,
    GATEWAY_OPEN = 260,
    GATEWAY_ENDED = 261
};

/* Reads a plan file.
 * In: the file's bytes. Out: plan and table, and *offset, which says where a refused file is wrong. Answers 0 or 1 to 14 or 22.
 * 0: *offset is 0.
 * 1 to 14: the plan's words and the table's places are all 0. *offset is where the field in hand begins, counted from the file's first byte:
 *   1 the version, so 0; 2 the field that is cut (the file's length if none of it is there), or 1 for a length field that is wrong, or the
 *   first byte after the last row; 3 the length byte of the job or row; 4 the normal rate, so 5; 5 the job count, so 9; 6 and 7 the job's
 *   name; 8 its grade; 9 its release, be it release, size or deadline that is wrong; 10 the row count; 11 the row's name; 12 its interval;
 *   13 its units; 14 the row's length byte. It is never more than file_length.
 * 22 (plan under GATEWAY_PLAN_WORDS): nothing is touched, *offset neither.
 * 22 (table under GATEWAY_TABLE_PLACES): the plan's words are all 0, *offset is 0, the table stays.
 * Words and places beyond are not touched, ever. */
uint32_t gateway_read(const uint8_t *file, size_t file_length, uint64_t *plan, size_t plan_length, uint32_t *table, size_t table_length, size_t *offset);

/* Writes the plan file of a sound plan, accepted or not.
 * In: plan and table. Out: the file's bytes in out, and their number in *written. Answers 0, 21 or 22.
 * 22 (plan under GATEWAY_PLAN_WORDS): nothing is touched. 22 (table or out too short) and 21 (an unsound plan): *written is 0 and out
 * stays. Bytes past the file stay. */
uint32_t gateway_write(const uint64_t *plan, size_t plan_length, const uint32_t *table, size_t table_length, uint8_t *out, size_t out_length, size_t *written);

/* Where the eight bytes of a job's name begin inside a plan file. It is counted from the file's first byte.
 * 0 for a file that gateway_read refuses, and for a position not below its job count. No buffer is changed. */
size_t gateway_name(const uint8_t *file, size_t file_length, size_t position);

/* Judges a plan.
 * In: plan and table. Out: the location of the fault. Answers 0 (accepted), 22, 21, 15, 16, 17 or 18.
 * 22 for plan or location: location stays. Any other answer: both words of location are written. */
uint32_t gateway_judge(const uint64_t *plan, size_t plan_length, const uint32_t *table, size_t table_length, uint64_t *location, size_t location_length);

/* The slack figure of a plan.
 * In: plan and table. Out: with 0, the least slack in *slack (below zero when the plan falls short), and its interval and deadline in location.
 * Answers 0, GATEWAY_NONE_ESSENTIAL, or what gateway_judge answers but for 18.
 * 22 for plan or location: *slack and location stay. Any other refusal: *slack is 0, location as with gateway_judge. None essential: all are 0. */
uint32_t gateway_slack(const uint64_t *plan, size_t plan_length, const uint32_t *table, size_t table_length, int64_t *slack, uint64_t *location, size_t location_length);

/* Draws up a timetable for a plan's rates and jobs, which must have one release; gateway_judge accepts it.
 * In: plan. Out: the table, and what stood there before is not looked at. Answers, in this order, 22 (plan or table too short), 21 (a rule from 4 to
 * 9 is broken), 28 (not all jobs have one release), 29 (gateway_judge accepts no table whatever for these rates and jobs) or 0.
 * 22 and 21: the table stays. 28 and 29: GATEWAY_TABLE_PLACES places of it are 0. Places beyond are not touched, ever. */
uint32_t gateway_draw(const uint64_t *plan, size_t plan_length, uint32_t *table, size_t table_length);

/* Why gateway_draw draws up no timetable.
 * In: plan. Out: the pair. Answers, in this order, 22 (plan or pair too short), 21, 28 or 29 as gateway_draw does, or 0 if there is a timetable.
 * 29: the first pair by which more is asked than the link carries. Its times are the release or a deadline, the one of a HI job and the other of a
 *   LO job. The first pair is that with the least time for the HI jobs, and among several that with the least time for the LO jobs.
 * 22: the pair stays. Any other answer: its four words are 0. Words beyond are not touched, ever. */
uint32_t gateway_shortage(const uint64_t *plan, size_t plan_length, uint64_t *pair, size_t pair_length);

/* Judges a plan, and starts its run if it is accepted.
 * In: plan and table. Out: the run (its clock is the first release, all else in it is 0), and location as with gateway_judge.
 * 22 for plan, run or location: nothing is touched. Any other refusal: run stays. */
uint32_t gateway_start(const uint64_t *plan, size_t plan_length, const uint32_t *table, size_t table_length, uint32_t *run, size_t run_length, uint64_t *location, size_t location_length);

/* Carries one slot at a speed in units. A speed has 16 bits everywhere; gateway_speed below makes one of any whole number, gateway_meter one of
 * a reading.
 * In: plan, table, run and speed. Out: the run, advanced in place, and for each job its grant. Answers 0, 22, 21, 19 or 20.
 * A job whose ended mark is set gets 0, and what it leaves goes to the others.
 * After any refusal run and grants stay. grants has at least as many places as the plan has jobs; places beyond stay. */
uint32_t gateway_step(const uint64_t *plan, size_t plan_length, const uint32_t *table, size_t table_length, uint32_t *run, size_t run_length, uint16_t speed, uint32_t *grants, size_t grants_length);

/* Carries a shift: a slot at each of several speeds in turn, as gateway_step carries it, each on the run that the slot before it left.
 * In: plan, table, run and speeds. Out: the run, advanced in place by each slot that is done; for each speed a row of grants, row k from
 * GATEWAY_INDEX_GRANT(job count, k, 0) on; and for each speed a number: 0 if its slot is done, 19 or 20 if it is refused. A refused speed leaves
 * its row and the run, and the next one is tried. Answers, in this order, 22 (plan or run too short), 21 (as gateway_step's 21), 27 (more than
 * GATEWAY_MOST_SPEEDS speeds), 22 (the table too short, fewer rows' places than speeds times jobs, or fewer numbers than speeds) or 0, be speeds
 * refused or not. A shift without speeds is checked in the same way, and changes nothing. After any refusal run, rows and numbers stay. Places
 * beyond the last row and the last number stay. */
uint32_t gateway_shift(const uint64_t *plan, size_t plan_length, const uint32_t *table, size_t table_length, uint32_t *run, size_t run_length, const uint16_t *speeds, size_t speeds_length, uint32_t *rows, size_t rows_length, uint8_t *numbers, size_t numbers_length);

/* The host's word that a job's transfer has ended before its size was carried. It is said between two slots or shifts, and no call clears the mark.
 * In: plan, run and the job's position. Out: the run, in which the job's ended mark is set and nothing else changes. Answers, in this order,
 * 22 (plan or run too short), 21 (as gateway_step's 21), 25 (no job has the position), 26 (the clock is before the job's release, or its outcome
 * is already met, ended, discarded or missed) or 0. After any refusal the run stays. */
uint32_t gateway_end(const uint64_t *plan, size_t plan_length, uint32_t *run, size_t run_length, size_t position);

/* How a job's transfer ended.
 * In: plan, run and the job's position. Answers the first of GATEWAY_MET, GATEWAY_ENDED, GATEWAY_DISCARDED, GATEWAY_MISSED and GATEWAY_OPEN that
 * holds, or 22 or 21; 21 also if no job has the position. No buffer is changed. */
uint32_t gateway_outcome(const uint64_t *plan, size_t plan_length, const uint32_t *run, size_t run_length, size_t position);

/* Reads a job list as text: comma-separated lines by RFC 4180, after the header name,grade,release,size,deadline.
 * In: the text's bytes. Out: the list, and *offset, which says where a refused text is wrong. Answers 0 or 5 to 9 or 22 to 24.
 * 0: every word of the list is written, those of jobs from the count on are 0, and *offset is 0.
 * 5 to 9, 23, 24: the list's words are all 0. *offset is counted from the text's first byte: 24 the text itself, so 0; 5 the line that is one
 *   too many, or the text's length if there is no line; 23 the line that is wrong; 6 and 7 the name's field; 8 the grade's; 9 the release's, be
 *   it release, size or deadline that is wrong. A field in quotes begins with its quote. It is never more than text_length.
 * 22 (list under GATEWAY_LIST_WORDS): nothing is touched, *offset neither.
 * Words beyond are not touched, ever. */
uint32_t gateway_import(const uint8_t *text, size_t text_length, uint64_t *list, size_t list_length, size_t *offset);

/* Writes the text of a job list. gateway_import takes it, and gives the same jobs in the same order.
 * In: the list. Out: the text's bytes in out, and their number in *written. Answers 0, 21 or 22.
 * 22 (list under GATEWAY_LIST_WORDS): nothing is touched. 21 (the list breaks a rule from 5 to 9), and then 22 (out shorter than the text):
 * *written is 0 and out stays. GATEWAY_LONGEST_LIST bytes are always enough. Bytes past the text stay. */
uint32_t gateway_export(const uint64_t *list, size_t list_length, uint8_t *out, size_t out_length, size_t *written);

/* The speed of a reading of the line meter: the greatest whole number that is at most the lowest rate and at most n.
 * In: the mean and the lowest rate of a slot, each any double, and the normal rate n. Out: *speed. Answers, in this order, 4 (n is not from 2 to
 * 1,000), 30 (the mean or the lowest rate is not finite), 31 (the lowest rate is below zero or above the mean; -0.0 is not below zero) or 0.
 * After any refusal *speed is 0. */
uint32_t gateway_meter(double mean, double lowest, uint16_t n, uint16_t *speed);

/* Reads a meter log: the version, which is 1, the length of all that follows in four bytes, and for each reading a length byte, which is 16, the
 * mean and the lowest rate, each a double in eight bytes. The first byte of every number is the highest.
 * In: the log's bytes and the normal rate n. Out: the speed of each reading, as gateway_meter tells it, from the front of speeds on; *count, how
 * many they are; and *offset, which says where a refused log is wrong. Answers 0, 1 to 4, 22, 27, 30 or 31.
 * 0: *offset is 0. A log without readings is done.
 * 4 (n is not from 2 to 1,000), before all others: *offset is 0.
 * 1, 2, 3, 27, 30, 31: *offset is where the field in hand begins, counted from the log's first byte: 1 the version, so 0; 2 the field that is cut
 *   (the log's length if none of it is there), or 1 for a length field that is wrong; 3 the reading's length byte; 27 what follows
 *   GATEWAY_MOST_SPEEDS readings; 30 and 31 the reading's mean. It is never more than log_length.
 * 22 (fewer speeds than readings), after all others: *offset is 0.
 * After any refusal *count is 0 and the speeds stay. Speeds beyond the last reading stay. */
uint32_t gateway_speeds(const uint8_t *log, size_t log_length, uint16_t n, uint16_t *speeds, size_t speeds_length, size_t *count, size_t *offset);

/* The calls end here. What follows is the header's own, and the archive does not have it. */

/* The speed to step with if the link will carry `measured` whole units in the slot: that number, but no more than the plan's normal rate. A
 * link that carries more than the normal rate carries the normal rate too; a speed above it is refused by 20, and a number above 65,535 that
 * is cut to 16 bits is another number. gateway_meter turns what a line meter reads into a speed. */
static inline uint16_t gateway_speed(uint64_t measured, const uint64_t *plan)
{
    uint64_t most = plan[GATEWAY_INDEX_NORMAL_RATE] < UINT16_MAX ? plan[GATEWAY_INDEX_NORMAL_RATE] : UINT16_MAX;
    return (uint16_t)(measured < most ? measured : most);
}

/* What an answer says, in words. */
static inline const char *gateway_words(uint32_t answer)
{
    static const char *const refusals[] = {
        "done",
        "the file is empty or of another version",
        "the file is shorter or longer than it says",
        "a job, a row or a reading does not have its own length",
        "the rates do not keep to their bounds",
        "there is no job, or there are too many",
        "a name holds a byte that no name may hold",
        "two jobs share a name",
        "a grade is neither LO nor HI",
        "a release, a size or a deadline does not keep to its bounds",
        "there are too many rows",
        "a row is for no job of the plan",
        "a row is for no interval of the plan",
        "a row allots nothing",
        "the rows do not rise by job and interval",
        "a job is allotted units when it may not run",
        "a job is not allotted exactly its size",
        "an interval is allotted more than the normal rate carries",
        "the floor cannot carry what is essential in time",
        "the run is over",
        "the speed is more than the normal rate",
        "the plan, the run or the job list is not sound",
        "a lent buffer has too few elements",
        "a line of the job list is not well formed",
        "the job list does not begin with its header",
        "there is no such job",
        "the job is not running: it is not yet released, or it is over already",
        "a shift or a meter log has too many speeds",
        "the jobs have not all the same release",
        "no timetable exists for these rates and jobs",
        "the mean or the lowest rate of a reading is not finite",
        "the lowest rate of a reading is below zero or above the mean"
    };
    static const char *const results[] = { "no job is essential", "met", "discarded", "missed", "open", "ended" };
    if (answer <= GATEWAY_WRONG_LOWEST)
        return refusals[answer];
    if (answer >= GATEWAY_NONE_ESSENTIAL && answer <= GATEWAY_ENDED)
        return results[answer - GATEWAY_NONE_ESSENTIAL];
    return "the library gives no such number";
}

#ifdef __cplusplus
}
#endif

#endif
