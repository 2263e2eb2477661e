/* What gateway.h says at the edges: buffers of length 0 that are NULL, offsets of files, texts and logs that end early, a job list inside a plan,
 * timetables, jobs that have ended, shifts, readings of the meter, speeds above 16 bits, answers in words. It prints each sentence that does not
 * hold; the exit status is then 1. */
#include <float.h>
#include <math.h>
#include <stdio.h>
#include <string.h>

#include "gateway.h"

/* The jobs and the slots of the plan for shifts, and what stands before a shift or a desk's call in each byte that it may write, and so in each
 * word. */
#define SHIFT_JOBS 2
#define SLOTS 3
#define MARK 0xEE
#define MARKED UINT32_C(0xEEEEEEEE)

static uint8_t out[GATEWAY_LARGEST_FILE];
static uint64_t plan[GATEWAY_PLAN_WORDS];
static uint32_t table[GATEWAY_TABLE_PLACES];
static uint32_t run[GATEWAY_RUN_WORDS];
static uint32_t grants[GATEWAY_MOST_JOBS];
static uint64_t location[GATEWAY_LOCATION_WORDS];
static uint64_t list[GATEWAY_LIST_WORDS];
/* A place and a word more than the desk writes. */
static uint32_t drawn[GATEWAY_TABLE_PLACES + 1];
static uint64_t pair[GATEWAY_PAIR_WORDS + 1];
/* One speed more than a shift may have, with a row and a number for each. */
static uint16_t speeds[GATEWAY_MOST_SPEEDS + 1];
static uint32_t rows[GATEWAY_ROWS_PLACES + GATEWAY_MOST_JOBS];
static uint8_t numbers[GATEWAY_MOST_SPEEDS + 1];
/* One reading more than a log may have. */
static uint8_t meter_log[GATEWAY_LARGEST_LOG + 17];
static const char header[] = "name,grade,release,size,deadline\r\n";
static const char line[] = "mirror-A,H,0,1,1\r\n";
static uint8_t text[sizeof header + sizeof line - 2];
static int failed;

static void expect(int holds, const char *sentence)
{
    if (holds)
        return;
    puts(sentence);
    failed = 1;
}

static void too_short(uint32_t answer, const char *call)
{
    expect(answer == GATEWAY_BUFFER_TOO_SHORT, call);
}

/* One essential job of one unit, allotted: 21 is no ground to refuse it. The text is that of its job. */
static void make_plan(void)
{
    plan[GATEWAY_INDEX_NORMAL_RATE] = 2;
    plan[GATEWAY_INDEX_FLOOR] = 1;
    plan[GATEWAY_INDEX_JOB_COUNT] = 1;
    plan[GATEWAY_INDEX_JOB_NAME(0)] = UINT64_C(0x6D6972726F722D41);
    plan[GATEWAY_INDEX_JOB_GRADE(0)] = 1;
    plan[GATEWAY_INDEX_JOB_RELEASE(0)] = 0;
    plan[GATEWAY_INDEX_JOB_SIZE(0)] = 1;
    plan[GATEWAY_INDEX_JOB_DEADLINE(0)] = 1;
    table[GATEWAY_INDEX_ALLOTMENT(0, 0)] = 1;
    memcpy(text, header, sizeof header - 1);
    memcpy(text + sizeof header - 1, line, sizeof line - 1);
}

static void reading_of_nothing(void)
{
    size_t offset = 1;
    too_short(gateway_read(NULL, 0, NULL, 0, table, GATEWAY_TABLE_PLACES, &offset), "read: no plan");
    expect(offset == 1, "read: too few words for a plan leave the offset");
    too_short(gateway_read(NULL, 0, plan, GATEWAY_PLAN_WORDS, NULL, 0, &offset), "read: no table");
    expect(offset == 0, "read: a table that is too short has no offset");
    offset = 1;
    expect(gateway_read(NULL, 0, plan, GATEWAY_PLAN_WORDS, table, GATEWAY_TABLE_PLACES, &offset) == GATEWAY_WRONG_VERSION, "read: an empty file is refused by 1");
    expect(offset == 0, "read: an empty file is wrong at its beginning");
    expect(gateway_name(NULL, 0, 0) == 0, "name: an empty file shows none");
}

/* A version byte alone, and a file whose version and length are right and all else is missing: the field that is not there begins at the end. */
static void reading_of_cut_files(void)
{
    static const uint8_t cut[] = { 1, 0, 0, 0, 0 };
    size_t offset = 0;
    expect(gateway_read(cut, 1, plan, GATEWAY_PLAN_WORDS, table, GATEWAY_TABLE_PLACES, &offset) == GATEWAY_WRONG_EXTENT, "read: a version alone is refused by 2");
    expect(offset == 1, "read: a version alone is wrong at its length");
    expect(gateway_read(cut, sizeof cut, plan, GATEWAY_PLAN_WORDS, table, GATEWAY_TABLE_PLACES, &offset) == GATEWAY_WRONG_EXTENT, "read: no rates are refused by 2");
    expect(offset == sizeof cut, "read: rates that are missing would begin at the end");
}

/* The file of the plan is read: nothing is wrong in it. */
static void reading_of_a_file(void)
{
    size_t offset = 1, written = 0;
    expect(gateway_write(plan, GATEWAY_PLAN_WORDS, table, GATEWAY_TABLE_PLACES, out, GATEWAY_LARGEST_FILE, &written) == GATEWAY_DONE, "write: the plan has a file");
    expect(gateway_read(out, written, plan, GATEWAY_PLAN_WORDS, table, GATEWAY_TABLE_PLACES, &offset) == GATEWAY_DONE, "read: the file is read");
    expect(offset == 0, "read: a file that is read has no offset");
}

static void writing_of_nothing(void)
{
    size_t written = 1;
    too_short(gateway_write(NULL, 0, table, GATEWAY_TABLE_PLACES, out, GATEWAY_LARGEST_FILE, &written), "write: no plan");
    expect(written == 1, "write: too few words for a plan leave the length");
    too_short(gateway_write(plan, GATEWAY_PLAN_WORDS, NULL, 0, out, GATEWAY_LARGEST_FILE, &written), "write: no table");
    expect(written == 0, "write: a refused file has no bytes");
    too_short(gateway_write(plan, GATEWAY_PLAN_WORDS, table, GATEWAY_TABLE_PLACES, NULL, 0, &written), "write: no room");
}

static void judging_of_nothing(void)
{
    int64_t slack = 0;
    too_short(gateway_judge(NULL, 0, table, GATEWAY_TABLE_PLACES, location, GATEWAY_LOCATION_WORDS), "judge: no plan");
    too_short(gateway_judge(plan, GATEWAY_PLAN_WORDS, NULL, 0, location, GATEWAY_LOCATION_WORDS), "judge: no table");
    too_short(gateway_judge(plan, GATEWAY_PLAN_WORDS, table, GATEWAY_TABLE_PLACES, NULL, 0), "judge: no location");
    too_short(gateway_slack(NULL, 0, table, GATEWAY_TABLE_PLACES, &slack, location, GATEWAY_LOCATION_WORDS), "slack: no plan");
    too_short(gateway_slack(plan, GATEWAY_PLAN_WORDS, NULL, 0, &slack, location, GATEWAY_LOCATION_WORDS), "slack: no table");
    too_short(gateway_slack(plan, GATEWAY_PLAN_WORDS, table, GATEWAY_TABLE_PLACES, &slack, NULL, 0), "slack: no location");
}

static void slots_of_nothing(void)
{
    too_short(gateway_start(NULL, 0, table, GATEWAY_TABLE_PLACES, run, GATEWAY_RUN_WORDS, location, GATEWAY_LOCATION_WORDS), "start: no plan");
    too_short(gateway_start(plan, GATEWAY_PLAN_WORDS, NULL, 0, run, GATEWAY_RUN_WORDS, location, GATEWAY_LOCATION_WORDS), "start: no table");
    too_short(gateway_start(plan, GATEWAY_PLAN_WORDS, table, GATEWAY_TABLE_PLACES, NULL, 0, location, GATEWAY_LOCATION_WORDS), "start: no run");
    too_short(gateway_start(plan, GATEWAY_PLAN_WORDS, table, GATEWAY_TABLE_PLACES, run, GATEWAY_RUN_WORDS, NULL, 0), "start: no location");
    too_short(gateway_step(NULL, 0, table, GATEWAY_TABLE_PLACES, run, GATEWAY_RUN_WORDS, 1, grants, GATEWAY_MOST_JOBS), "step: no plan");
    too_short(gateway_step(plan, GATEWAY_PLAN_WORDS, table, GATEWAY_TABLE_PLACES, NULL, 0, 1, grants, GATEWAY_MOST_JOBS), "step: no run");
    too_short(gateway_step(plan, GATEWAY_PLAN_WORDS, NULL, 0, run, GATEWAY_RUN_WORDS, 1, grants, GATEWAY_MOST_JOBS), "step: no table");
    too_short(gateway_step(plan, GATEWAY_PLAN_WORDS, table, GATEWAY_TABLE_PLACES, run, GATEWAY_RUN_WORDS, 1, NULL, 0), "step: no grants");
    too_short(gateway_end(NULL, 0, run, GATEWAY_RUN_WORDS, 0), "end: no plan");
    too_short(gateway_end(plan, GATEWAY_PLAN_WORDS, NULL, 0, 0), "end: no run");
    too_short(gateway_outcome(NULL, 0, run, GATEWAY_RUN_WORDS, 0), "outcome: no plan");
    too_short(gateway_outcome(plan, GATEWAY_PLAN_WORDS, NULL, 0, 0), "outcome: no run");
}

static uint32_t tell_of(size_t position)
{
    return gateway_end(plan, GATEWAY_PLAN_WORDS, run, GATEWAY_RUN_WORDS, position);
}

/* The run has just been started. */
static void word_that_a_job_has_ended(void)
{
    uint32_t after[GATEWAY_RUN_WORDS];
    expect(GATEWAY_INDEX_ENDED(GATEWAY_MOST_JOBS) == GATEWAY_RUN_WORDS, "end: the marks go up to the run's end");
    memcpy(after, run, sizeof run);
    expect(tell_of(1) == GATEWAY_NO_SUCH_JOB && tell_of(SIZE_MAX) == GATEWAY_NO_SUCH_JOB, "end: a position that no job has is refused by 25");
    expect(memcmp(run, after, sizeof run) == 0, "end: a refused word leaves the run");
    after[GATEWAY_INDEX_ENDED(0)] = 1;
    expect(tell_of(0) == GATEWAY_DONE, "end: the job is running");
    expect(memcmp(run, after, sizeof run) == 0, "end: the job's mark is set, and nothing else changes");
    expect(tell_of(0) == GATEWAY_CANNOT_END, "end: a job that has ended is refused by 26");
    expect(gateway_outcome(plan, GATEWAY_PLAN_WORDS, run, GATEWAY_RUN_WORDS, 0) == GATEWAY_ENDED, "outcome: the job has ended");
    run[GATEWAY_INDEX_ENDED(GATEWAY_MOST_JOBS - 1)] = 2;
    expect(tell_of(1) == GATEWAY_UNSOUND, "end: a mark of 2 is refused by 21, past the count too");
}

static void importing_of_nothing(void)
{
    size_t offset = 1;
    too_short(gateway_import(text, sizeof text, NULL, 0, &offset), "import: no list");
    expect(offset == 1, "import: too few words for a list leave the offset");
    expect(gateway_import(NULL, 0, list, GATEWAY_LIST_WORDS, &offset) == GATEWAY_WRONG_HEADER, "import: an empty text is refused by 24");
    expect(offset == 0, "import: an empty text is wrong at its beginning");
    expect(gateway_import(text, sizeof header - 1, list, GATEWAY_LIST_WORDS, &offset) == GATEWAY_WRONG_JOB_COUNT, "import: no line is refused by 5");
    expect(offset == sizeof header - 1, "import: a line that is missing would begin at the end");
    expect(gateway_import(text, sizeof text - 1, list, GATEWAY_LIST_WORDS, &offset) == GATEWAY_WRONG_LINE, "import: a line that is cut is refused by 23");
    expect(offset == sizeof header - 1, "import: a line that is cut is wrong at its beginning");
}

static void exporting_of_nothing(void)
{
    size_t written = 1;
    too_short(gateway_export(NULL, 0, out, GATEWAY_LONGEST_LIST, &written), "export: no list");
    expect(written == 1, "export: too few words for a list leave the length");
    too_short(gateway_export(plan + GATEWAY_INDEX_JOB_COUNT, GATEWAY_LIST_WORDS, NULL, 0, &written), "export: no room");
    expect(written == 0, "export: a refused list has no text");
    expect(gateway_export(list, GATEWAY_LIST_WORDS, NULL, 0, &written) == GATEWAY_UNSOUND, "export: a list without jobs is refused by 21, room or not");
}

/* The list is the part of the plan from its count on: imported to there, the jobs are the plan's, and its rates stay. */
static void list_inside_a_plan(void)
{
    size_t offset = 1, written = 0;
    uint64_t before[GATEWAY_PLAN_WORDS];
    expect(GATEWAY_INDEX_JOB_COUNT + GATEWAY_LIST_WORDS == GATEWAY_PLAN_WORDS, "list: it goes up to the plan's end");
    expect(gateway_export(plan + GATEWAY_INDEX_JOB_COUNT, GATEWAY_LIST_WORDS, out, sizeof text, &written) == GATEWAY_DONE, "export: just enough room");
    expect(written == sizeof text && memcmp(out, text, sizeof text) == 0, "export: the text of the plan's job");
    memcpy(before, plan, sizeof plan);
    memset(plan + GATEWAY_INDEX_JOB_COUNT, 0xFF, sizeof list);
    expect(gateway_import(text, sizeof text, plan + GATEWAY_INDEX_JOB_COUNT, GATEWAY_LIST_WORDS, &offset) == GATEWAY_DONE, "import: the text is taken");
    expect(offset == 0, "import: a text that is taken has no offset");
    expect(memcmp(plan, before, sizeof plan) == 0, "import: the plan is what it was");
}

/* The desk's calls with so many places or words, all of them marks before. */
static uint32_t draw(size_t places)
{
    memset(drawn, MARK, sizeof drawn);
    return gateway_draw(plan, GATEWAY_PLAN_WORDS, drawn, places);
}

static uint32_t explain(size_t words)
{
    memset(pair, MARK, sizeof pair);
    return gateway_shortage(plan, GATEWAY_PLAN_WORDS, pair, words);
}

static int is_marked(const void *from, size_t size)
{
    const uint8_t *bytes = from;
    for (size_t at = 0; at < size; at++)
        if (bytes[at] != MARK)
            return 0;
    return 1;
}

/* The first job has these units in the first interval and no job any others. The place beyond stays. */
static int is_drawn(uint32_t units)
{
    for (size_t at = 1; at < GATEWAY_TABLE_PLACES; at++)
        if (drawn[at] != 0)
            return 0;
    return drawn[GATEWAY_INDEX_ALLOTMENT(0, 0)] == units && drawn[GATEWAY_TABLE_PLACES] == MARKED;
}

/* The pair is this one. The word beyond stays. */
static int is_explained(uint64_t hi_time, uint64_t lo_time, uint64_t asked, uint64_t carries)
{
    return pair[GATEWAY_INDEX_PAIR_HI_TIME] == hi_time && pair[GATEWAY_INDEX_PAIR_LO_TIME] == lo_time && pair[GATEWAY_INDEX_PAIR_ASKED] == asked
        && pair[GATEWAY_INDEX_PAIR_CARRIES] == carries && is_marked(pair + GATEWAY_PAIR_WORDS, sizeof pair[0]);
}

static void desk_of_nothing(void)
{
    too_short(draw(GATEWAY_TABLE_PLACES - 1), "draw: a place too few");
    too_short(gateway_draw(NULL, 0, drawn, GATEWAY_TABLE_PLACES), "draw: no plan");
    too_short(gateway_draw(plan, GATEWAY_PLAN_WORDS - 1, drawn, GATEWAY_TABLE_PLACES), "draw: a word too few for a plan");
    too_short(gateway_draw(plan, GATEWAY_PLAN_WORDS, NULL, 0), "draw: no table");
    expect(is_marked(drawn, sizeof drawn), "draw: buffers that are too short leave the table");
    too_short(explain(GATEWAY_PAIR_WORDS - 1), "shortage: a word too few");
    too_short(gateway_shortage(NULL, 0, pair, GATEWAY_PAIR_WORDS), "shortage: no plan");
    too_short(gateway_shortage(plan, GATEWAY_PLAN_WORDS - 1, pair, GATEWAY_PAIR_WORDS), "shortage: a word too few for a plan");
    too_short(gateway_shortage(plan, GATEWAY_PLAN_WORDS, NULL, 0), "shortage: no pair");
    expect(is_marked(pair, sizeof pair), "shortage: buffers that are too short leave the pair");
}

/* The job has one slot, in which the floor carries one unit. */
static void desk_of_one_job(void)
{
    size_t places = GATEWAY_TABLE_PLACES + 1, words = GATEWAY_PAIR_WORDS + 1;
    expect(draw(places) == GATEWAY_DONE && is_drawn(1), "draw: the job has its unit, all other places are 0");
    expect(memcmp(drawn, table, sizeof table) == 0, "draw: the table is the plan's");
    expect(explain(words) == GATEWAY_DONE && is_explained(0, 0, 0, 0), "shortage: there is none, and the pair is four zeros");
    plan[GATEWAY_INDEX_JOB_SIZE(0)] = 2;
    expect(draw(places) == GATEWAY_NO_TIMETABLE && is_drawn(0), "draw: 29 leaves zeros");
    expect(explain(words) == GATEWAY_NO_TIMETABLE && is_explained(1, 0, 2, 1), "shortage: two units by 1, and one is carried");
    plan[GATEWAY_INDEX_JOB_SIZE(0)] = 0;
    expect(draw(places) == GATEWAY_UNSOUND && is_marked(drawn, sizeof drawn), "draw: 21 leaves the table");
    expect(explain(words) == GATEWAY_UNSOUND && is_explained(0, 0, 0, 0), "shortage: 21 comes with four zeros");
    too_short(draw(GATEWAY_TABLE_PLACES - 1), "draw: 22 comes before 21");
    plan[GATEWAY_INDEX_JOB_SIZE(0)] = 1;
}

/* The second job is released a slot later, and asks for too much. */
static void desk_of_two_releases(void)
{
    size_t places = GATEWAY_TABLE_PLACES + 1, words = GATEWAY_PAIR_WORDS + 1;
    plan[GATEWAY_INDEX_JOB_COUNT] = 2;
    plan[GATEWAY_INDEX_JOB_NAME(1)] = UINT64_C(0x6D6972726F722D42);
    plan[GATEWAY_INDEX_JOB_RELEASE(1)] = 1;
    plan[GATEWAY_INDEX_JOB_SIZE(1)] = 9;
    plan[GATEWAY_INDEX_JOB_DEADLINE(1)] = 2;
    expect(draw(places) == GATEWAY_RELEASES_DIFFER && is_drawn(0), "draw: 28 comes before 29 and leaves zeros");
    expect(explain(words) == GATEWAY_RELEASES_DIFFER && is_explained(0, 0, 0, 0), "shortage: 28 comes with four zeros");
    plan[GATEWAY_INDEX_JOB_NAME(1)] = plan[GATEWAY_INDEX_JOB_NAME(0)];
    expect(draw(places) == GATEWAY_UNSOUND && explain(words) == GATEWAY_UNSOUND, "draw: 21 comes before 28");
    plan[GATEWAY_INDEX_JOB_COUNT] = 1;
}

/* A second job beside the first, to be carried in three slots; a run at its beginning, marks in all places that a shift may write, and speeds at the
 * normal rate, which is 2. */
static void lay_out_a_shift(void)
{
    plan[GATEWAY_INDEX_JOB_COUNT] = SHIFT_JOBS;
    plan[GATEWAY_INDEX_JOB_NAME(1)] = UINT64_C(0x6D6972726F722D42);
    plan[GATEWAY_INDEX_JOB_GRADE(1)] = 0;
    plan[GATEWAY_INDEX_JOB_RELEASE(1)] = 0;
    plan[GATEWAY_INDEX_JOB_SIZE(1)] = 3;
    plan[GATEWAY_INDEX_JOB_DEADLINE(1)] = SLOTS;
    table[GATEWAY_INDEX_ALLOTMENT(1, 0)] = 1;
    table[GATEWAY_INDEX_ALLOTMENT(1, 1)] = 2;
    memset(run, 0, sizeof run);
    memset(rows, MARK, sizeof rows);
    memset(numbers, MARK, sizeof numbers);
    for (size_t k = 0; k < GATEWAY_MOST_SPEEDS + 1; k++)
        speeds[k] = gateway_speed(plan[GATEWAY_INDEX_NORMAL_RATE], plan);
}

/* A shift with these places for rows and numbers. */
static uint32_t shift(size_t count, size_t places, size_t numbered)
{
    return gateway_shift(plan, GATEWAY_PLAN_WORDS, table, GATEWAY_TABLE_PLACES, run, GATEWAY_RUN_WORDS, speeds, count, rows, places, numbers, numbered);
}

static int places_stay(size_t from)
{
    for (size_t at = from; at < sizeof rows / sizeof rows[0]; at++)
        if (rows[at] != MARKED)
            return 0;
    return 1;
}

static int numbers_stay(size_t from)
{
    for (size_t k = from; k < sizeof numbers; k++)
        if (numbers[k] != MARK)
            return 0;
    return 1;
}

/* No slot was carried, and no place of the rows and the numbers was written. */
static int nothing_changed(void)
{
    static const uint32_t started[GATEWAY_RUN_WORDS];
    return memcmp(run, started, sizeof run) == 0 && places_stay(0) && numbers_stay(0);
}

static void shifts_of_nothing(void)
{
    lay_out_a_shift();
    too_short(gateway_shift(NULL, 0, table, GATEWAY_TABLE_PLACES, run, GATEWAY_RUN_WORDS, speeds, 1, rows, SHIFT_JOBS, numbers, 1), "shift: no plan");
    too_short(gateway_shift(plan, GATEWAY_PLAN_WORDS, table, GATEWAY_TABLE_PLACES, NULL, 0, speeds, 1, rows, SHIFT_JOBS, numbers, 1), "shift: no run");
    too_short(gateway_shift(plan, GATEWAY_PLAN_WORDS, NULL, 0, run, GATEWAY_RUN_WORDS, speeds, 1, rows, SHIFT_JOBS, numbers, 1), "shift: no table");
    too_short(gateway_shift(plan, GATEWAY_PLAN_WORDS, table, GATEWAY_TABLE_PLACES, run, GATEWAY_RUN_WORDS, speeds, 1, NULL, 0, numbers, 1), "shift: no rows");
    too_short(gateway_shift(plan, GATEWAY_PLAN_WORDS, table, GATEWAY_TABLE_PLACES, run, GATEWAY_RUN_WORDS, speeds, 1, rows, SHIFT_JOBS, NULL, 0), "shift: no numbers");
    too_short(gateway_shift(plan, GATEWAY_PLAN_WORDS, NULL, 0, run, GATEWAY_RUN_WORDS, NULL, 0, NULL, 0, NULL, 0), "shift: no speeds, and no table either");
    expect(gateway_shift(plan, GATEWAY_PLAN_WORDS, table, GATEWAY_TABLE_PLACES, run, GATEWAY_RUN_WORDS, NULL, 0, NULL, 0, NULL, 0) == GATEWAY_DONE,
        "shift: no speeds need no rows and no numbers");
    expect(shift(0, GATEWAY_ROWS_PLACES, GATEWAY_MOST_SPEEDS) == GATEWAY_DONE, "shift: no speeds are done");
    expect(nothing_changed(), "shift: no speeds and refused shifts change nothing");
}

/* Each ground together with those that come after it. */
static void order_of_a_shifts_refusals(void)
{
    size_t many = GATEWAY_MOST_SPEEDS + 1;
    lay_out_a_shift();
    too_short(shift(SLOTS, SHIFT_JOBS * SLOTS - 1, SLOTS), "shift: a place too few for the rows");
    too_short(shift(SLOTS, SHIFT_JOBS * SLOTS, SLOTS - 1), "shift: a number too few");
    expect(shift(many, 0, 0) == GATEWAY_TOO_MANY_SPEEDS, "shift: 27 comes before 22 for rows and numbers");
    expect(shift(many, SHIFT_JOBS * many, many) == GATEWAY_TOO_MANY_SPEEDS, "shift: 257 speeds are refused by 27");
    expect(gateway_shift(plan, GATEWAY_PLAN_WORDS, NULL, 0, run, GATEWAY_RUN_WORDS, speeds, many, rows, 0, numbers, 0) == GATEWAY_TOO_MANY_SPEEDS,
        "shift: 27 comes before 22 for the table");
    expect(nothing_changed(), "shift: a refused shift changes nothing");
    run[GATEWAY_INDEX_CLOCK] = SLOTS + 1;
    expect(shift(many, 0, 0) == GATEWAY_UNSOUND && shift(0, 0, 0) == GATEWAY_UNSOUND, "shift: 21 comes before 27, and without speeds too");
    run[GATEWAY_INDEX_CLOCK] = 0;
    run[GATEWAY_INDEX_ENDED(GATEWAY_MOST_JOBS - 1)] = 2;
    expect(shift(many, 0, 0) == GATEWAY_UNSOUND, "shift: a mark of 2 is refused by 21, past the count too");
    too_short(gateway_shift(plan, GATEWAY_PLAN_WORDS - 1, table, GATEWAY_TABLE_PLACES, run, GATEWAY_RUN_WORDS, speeds, many, rows, 0, numbers, 0),
        "shift: 22 for the plan comes before 21");
    too_short(gateway_shift(plan, GATEWAY_PLAN_WORDS, table, GATEWAY_TABLE_PLACES, run, GATEWAY_RUN_WORDS - 1, speeds, many, rows, 0, numbers, 0),
        "shift: 22 for the run comes before 21");
    run[GATEWAY_INDEX_ENDED(GATEWAY_MOST_JOBS - 1)] = 0;
    expect(nothing_changed(), "shift: a refused shift changes nothing, whatever refuses it");
}

/* The second speed is above the normal rate, and the fifth comes at the last deadline. */
static void refused_speeds_of_a_shift(void)
{
    static const uint32_t granted[] = { 1, 1, MARKED, MARKED, 0, 2, 0, 0 };
    static const uint8_t numbered[] = { GATEWAY_DONE, GATEWAY_SPEED_ABOVE_NORMAL, GATEWAY_DONE, GATEWAY_DONE, GATEWAY_CLOCK_AT_END };
    lay_out_a_shift();
    speeds[1]++;
    expect(shift(sizeof numbered, SHIFT_JOBS * sizeof numbered, sizeof numbered) == GATEWAY_DONE, "shift: refused speeds do not refuse it");
    expect(memcmp(numbers, numbered, sizeof numbered) == 0, "shift: each speed has its number");
    expect(memcmp(rows, granted, sizeof granted) == 0, "shift: each speed has its row, and a refused one leaves it");
    expect(rows[GATEWAY_INDEX_GRANT(SHIFT_JOBS, 2, 1)] == 2, "shift: the second job's grant at the third speed");
    expect(places_stay(GATEWAY_INDEX_GRANT(SHIFT_JOBS, 4, 0)) && numbers_stay(sizeof numbered), "shift: places beyond stay");
    expect(run[GATEWAY_INDEX_CLOCK] == SLOTS && run[GATEWAY_INDEX_SLOW] == 0, "shift: the clock counts the slots that are done");
    expect(run[GATEWAY_INDEX_CARRIED(0)] == 1 && run[GATEWAY_INDEX_CARRIED(1)] == 3, "shift: what is granted is carried");
}

static void most_speeds_of_a_shift(void)
{
    lay_out_a_shift();
    expect(shift(GATEWAY_MOST_SPEEDS, SHIFT_JOBS * GATEWAY_MOST_SPEEDS, GATEWAY_MOST_SPEEDS) == GATEWAY_DONE, "shift: 256 speeds are done");
    expect(numbers[SLOTS - 1] == GATEWAY_DONE && numbers[SLOTS] == GATEWAY_CLOCK_AT_END, "shift: the last slot that there is");
    expect(numbers[GATEWAY_MOST_SPEEDS - 1] == GATEWAY_CLOCK_AT_END && numbers_stay(GATEWAY_MOST_SPEEDS), "shift: the last of 256 numbers");
    expect(places_stay(GATEWAY_INDEX_GRANT(SHIFT_JOBS, SLOTS, 0)), "shift: the rows of refused speeds stay");
}

/* The second job is told ended after the first slot: what is carried for it stays. */
static void word_between_two_shifts(void)
{
    lay_out_a_shift();
    expect(shift(1, SHIFT_JOBS, 1) == GATEWAY_DONE && tell_of(1) == GATEWAY_DONE, "shift: a word may follow it");
    expect(shift(SLOTS - 1, SHIFT_JOBS * (SLOTS - 1), SLOTS - 1) == GATEWAY_DONE, "shift: it may follow a word");
    expect(rows[GATEWAY_INDEX_GRANT(SHIFT_JOBS, 0, 1)] == 0 && run[GATEWAY_INDEX_CARRIED(1)] == 1, "shift: an ended job gets nothing");
    expect(run[GATEWAY_INDEX_CLOCK] == SLOTS && run[GATEWAY_INDEX_ENDED(1)] == 1, "shift: an ended mark stays");
}

/* A reading's speed, of which a mark stood there before. */
static int reads_as(double mean, double lowest, uint16_t n, uint32_t number, uint16_t speed)
{
    uint16_t told = MARK;
    return gateway_meter(mean, lowest, n, &told) == number && told == speed;
}

/* The floats next to 2 are 2 - 2^-52 and 2 + 2^-51. */
static void speeds_of_readings(void)
{
    expect(reads_as(3.0, 1.999, 2, GATEWAY_DONE, 1) && reads_as(3.0, 2.7, 2, GATEWAY_DONE, 2), "speed: rounded down, and cut to the normal rate");
    expect(reads_as(3.0, 2.0 - DBL_EPSILON, 2, GATEWAY_DONE, 1) && reads_as(3.0, 2.0, 2, GATEWAY_DONE, 2), "speed: a whole number is one from itself on");
    expect(reads_as(DBL_MAX, DBL_MAX, 1000, GATEWAY_DONE, 1000), "speed: the greatest float there is");
    expect(reads_as(0.0, -0.0, 2, GATEWAY_DONE, 0) && reads_as(-0.0, 0.0, 2, GATEWAY_DONE, 0), "speed: both zeros are zero");
    expect(reads_as(3.0, -DBL_MIN, 2, GATEWAY_WRONG_LOWEST, 0), "speed: a rate below zero is refused by 31");
    expect(reads_as(2.0, 2.0 + 2 * DBL_EPSILON, 2, GATEWAY_WRONG_LOWEST, 0), "speed: a lowest rate above the mean is refused by 31");
    expect(reads_as(INFINITY, 1.0, 2, GATEWAY_NOT_FINITE, 0) && reads_as(3.0, -INFINITY, 2, GATEWAY_NOT_FINITE, 0), "speed: 30 comes before 31");
    expect(reads_as(NAN, 1.0, 2, GATEWAY_NOT_FINITE, 0) && reads_as(3.0, NAN, 2, GATEWAY_NOT_FINITE, 0), "speed: what is no number is refused by 30");
    expect(reads_as(NAN, NAN, 1, GATEWAY_WRONG_RATES, 0) && reads_as(1.0, 1.0, 1001, GATEWAY_WRONG_RATES, 0), "speed: 4 comes first");
}

/* A log of `readings` readings, each of a mean and a lowest rate of 1, and its length. */
static size_t make_log(size_t readings)
{
    static const uint8_t one[] = { 16, 0x3F, 0xF0, 0, 0, 0, 0, 0, 0, 0x3F, 0xF0, 0, 0, 0, 0, 0, 0 };
    size_t more = sizeof one * readings;
    memset(meter_log, 0, sizeof meter_log);
    meter_log[0] = 1;
    meter_log[3] = (uint8_t)(more >> 8);
    meter_log[4] = (uint8_t)more;
    for (size_t k = 0; k < readings; k++)
        memcpy(meter_log + 5 + sizeof one * k, one, sizeof one);
    return 5 + more;
}

/* Reads the log into `places` speeds, marks before, as this number, count and offset. A refusal leaves all speeds, and any answer those beyond. */
static int is_log(size_t length, uint16_t n, size_t places, uint32_t number, size_t count, size_t offset)
{
    size_t counted = MARK, wrong_at = MARK;
    memset(speeds, MARK, sizeof speeds);
    uint32_t answer = gateway_speeds(meter_log, length, n, speeds, places, &counted, &wrong_at);
    for (size_t k = 0; k < count; k++)
        if (speeds[k] != 1)
            return 0;
    return answer == number && counted == count && wrong_at == offset && is_marked(speeds + count, sizeof speeds - count * sizeof speeds[0]);
}

static void logs_of_nothing(void)
{
    size_t count = 1, offset = 1;
    expect(gateway_speeds(NULL, 0, 2, NULL, 0, &count, &offset) == GATEWAY_WRONG_VERSION && count == 0 && offset == 0, "speeds: an empty log is refused by 1");
    count = offset = 1;
    expect(gateway_speeds(NULL, 0, 1, NULL, 0, &count, &offset) == GATEWAY_WRONG_RATES && count == 0 && offset == 0, "speeds: 4 comes first");
    make_log(0);
    count = offset = 1;
    expect(gateway_speeds(meter_log, 5, 2, NULL, 0, &count, &offset) == GATEWAY_DONE && count == 0 && offset == 0, "speeds: no readings need no speeds");
    expect(is_log(1, 2, 1, GATEWAY_WRONG_EXTENT, 0, 1) && is_log(4, 2, 1, GATEWAY_WRONG_EXTENT, 0, 1), "speeds: a log that ends in its length is wrong there");
}

static void logs_with_readings(void)
{
    size_t length = make_log(2);
    expect(is_log(length, 2, 2, GATEWAY_DONE, 2, 0) && is_log(length, 2, 3, GATEWAY_DONE, 2, 0), "speeds: one for each reading, and places beyond stay");
    expect(is_log(length, 2, 1, GATEWAY_BUFFER_TOO_SHORT, 0, 0), "speeds: a place too few");
    expect(is_log(length - 1, 2, 2, GATEWAY_WRONG_EXTENT, 0, 1), "speeds: a log that is cut is wrong at its length");
    meter_log[4]--;
    expect(is_log(length - 1, 2, 0, GATEWAY_WRONG_EXTENT, 0, length - 8), "speeds: a rate that is cut is wrong where it begins");
    meter_log[4]++;
    meter_log[22] = 17;
    expect(is_log(length, 2, 0, GATEWAY_WRONG_RECORD_LENGTH, 0, 22), "speeds: a length byte that is wrong");
    meter_log[22] = 16;
    meter_log[31] = 0x40;
    expect(is_log(length, 2, 0, GATEWAY_WRONG_LOWEST, 0, 23), "speeds: 31 at the mean, and before 22");
    meter_log[23] = 0x7F;
    expect(is_log(length, 2, 0, GATEWAY_NOT_FINITE, 0, 23), "speeds: 30 at the mean, and before 31 and 22");
    expect(is_log(length, 1001, 0, GATEWAY_WRONG_RATES, 0, 0), "speeds: 4 comes before what stands in the log");
}

static void most_readings_of_a_log(void)
{
    size_t length = make_log(GATEWAY_MOST_SPEEDS);
    expect(length == GATEWAY_LARGEST_LOG, "speeds: the length of the largest log");
    expect(is_log(length, 2, GATEWAY_MOST_SPEEDS, GATEWAY_DONE, GATEWAY_MOST_SPEEDS, 0), "speeds: 256 readings are done");
    make_log(GATEWAY_MOST_SPEEDS + 1);
    expect(is_log(sizeof meter_log, 2, GATEWAY_MOST_SPEEDS + 1, GATEWAY_TOO_MANY_SPEEDS, 0, length), "speeds: a reading too many is refused by 27");
}

static void speeds_and_words(void)
{
    expect(gateway_speed(0, plan) == 0 && gateway_speed(1, plan) == 1 && gateway_speed(2, plan) == 2, "cut: up to the normal rate as measured");
    expect(gateway_speed(3, plan) == 2 && gateway_speed(UINT64_C(65537), plan) == 2, "cut: the normal rate if more is measured");
    plan[GATEWAY_INDEX_NORMAL_RATE] = UINT64_MAX;
    expect(gateway_speed(UINT64_MAX, plan) == UINT16_MAX, "cut: at most 65,535 whatever the plan says");
    expect(gateway_words(GATEWAY_WRONG_LOWEST + 1) == gateway_words(GATEWAY_ENDED + 1), "words: a number that is no answer");
}

int main(void)
{
    reading_of_nothing();
    reading_of_cut_files();
    make_plan();
    reading_of_a_file();
    expect(gateway_start(plan, GATEWAY_PLAN_WORDS, table, GATEWAY_TABLE_PLACES, run, GATEWAY_RUN_WORDS, location, GATEWAY_LOCATION_WORDS) == GATEWAY_DONE,
        "start: the plan is accepted");
    writing_of_nothing();
    judging_of_nothing();
    slots_of_nothing();
    word_that_a_job_has_ended();
    importing_of_nothing();
    exporting_of_nothing();
    list_inside_a_plan();
    desk_of_nothing();
    desk_of_one_job();
    desk_of_two_releases();
    shifts_of_nothing();
    order_of_a_shifts_refusals();
    refused_speeds_of_a_shift();
    most_speeds_of_a_shift();
    word_between_two_shifts();
    speeds_of_readings();
    logs_of_nothing();
    logs_with_readings();
    most_readings_of_a_log();
    speeds_and_words();
    return failed;
}
