/* A small host in C: reads a plan file and then speeds from standard input, runs the plan in shifts of as many speeds as a call takes, and prints
 * what runplan prints. Where a refused file is wrong it says on standard error.
 * With --check it reads a plan file alone, and says what the plan asks, whether it is accepted, how much slack it has, whether it is written
 * again as the same file, and how each transfer of an accepted plan ends at the floor, run slot by slot. Then the exit status is 0 for an
 * accepted plan and 1 for any other.
 * With --end it reads a plan file alone, starts the plan, says of each position in turn that its job has ended, also of the first position that
 * no job has, and runs the plan at the floor in shifts. It prints what each word is answered and how each transfer ends; the exit status is as
 * with --check.
 * With --import it reads a job list as text, and says which jobs it has and whether they are exported as the same text. Then the exit status is
 * 0 for a text that is taken and 1 for any other.
 * With --draw and two rates it reads a job list as text and draws up a timetable. It prints its rows, what the judge and the slack figure say of them
 * and how long the plan's file is; or why there is no timetable. The exit status is 0 for a timetable and 1 for none.
 * With --speed and three numbers, a normal rate and the mean and the lowest rate of a reading, it prints the reading's speed. With --meter it reads
 * a plan file and then a meter log, and runs the plan at the log's speeds. The exit status of both is 0, and 1 if something is refused.
 * With --refusals it prints what each refusal says. */
#include <stdio.h>
#include <stdlib.h>
#include <string.h>

#include "gateway.h"

#define OPENING_BYTES 5
#define SPEED_BYTES 2
#define FIRST_ROOM 4096

static uint8_t file[GATEWAY_LARGEST_FILE];
static uint8_t *text;
static uint8_t again[GATEWAY_LARGEST_FILE];
static uint64_t plan[GATEWAY_PLAN_WORDS];
static uint32_t table[GATEWAY_TABLE_PLACES];
static uint32_t run[GATEWAY_RUN_WORDS];
static uint32_t grants[GATEWAY_MOST_JOBS];
static uint16_t speeds[GATEWAY_MOST_SPEEDS];
static uint32_t rows[GATEWAY_ROWS_PLACES];
static uint8_t numbers[GATEWAY_MOST_SPEEDS];
static uint64_t location[GATEWAY_LOCATION_WORDS];
static size_t offset;

/* The file ends where its length field says, or at the largest file's length if that is earlier. */
static size_t read_file(void)
{
    size_t length = fread(file, 1, OPENING_BYTES, stdin);
    if (length < OPENING_BYTES)
        return length;
    uint64_t more = (uint64_t)file[1] << 24 | (uint64_t)file[2] << 16 | (uint64_t)file[3] << 8 | file[4];
    if (more > GATEWAY_LARGEST_FILE - OPENING_BYTES)
        more = GATEWAY_LARGEST_FILE - OPENING_BYTES;
    return length + fread(file + length, 1, (size_t)more, stdin);
}

static void print_name(size_t file_length, size_t job)
{
    fwrite(file + gateway_name(file, file_length, job), 1, GATEWAY_NAME_BYTES, stdout);
}

static void print_row(size_t file_length, const uint32_t *row)
{
    int some = 0;
    for (size_t i = 0; i < plan[GATEWAY_INDEX_JOB_COUNT]; i++) {
        if (row[i] == 0)
            continue;
        putchar(' ');
        print_name(file_length, i);
        printf("=%u", (unsigned)row[i]);
        some = 1;
    }
    puts(some ? "" : " -");
}

/* A shift leaves a number for each speed. What refuses the shift refuses each of its speeds. */
static void shift(const uint16_t *first, size_t count)
{
    uint32_t refused = gateway_shift(plan, GATEWAY_PLAN_WORDS, table, GATEWAY_TABLE_PLACES, run, GATEWAY_RUN_WORDS, first, count, rows, GATEWAY_ROWS_PLACES,
        numbers, GATEWAY_MOST_SPEEDS);
    for (size_t k = 0; refused != GATEWAY_DONE && k < count; k++)
        numbers[k] = (uint8_t)refused;
}

/* The lines of a shift that began at a clock. The slow mark stands after each of its slots as after the last. */
static void print_shift(size_t file_length, uint32_t clock, const uint16_t *first, size_t count)
{
    size_t jobs = (size_t)plan[GATEWAY_INDEX_JOB_COUNT];
    for (size_t k = 0; k < count; k++) {
        printf("%u %u ", (unsigned)clock, (unsigned)first[k]);
        if (numbers[k] != GATEWAY_DONE) {
            printf("R %u\n", (unsigned)numbers[k]);
            continue;
        }
        putchar(run[GATEWAY_INDEX_SLOW] ? 'D' : 'N');
        print_row(file_length, rows + GATEWAY_INDEX_GRANT(jobs, k, 0));
        clock++;
    }
}

/* Carries the speeds and prints their lines. A line says whether the slow mark is set after its slot, and a shift leaves only how it stands after
 * the last: one in which it was set is taken back and carried in two parts, down to the slot that sets it. */
static void carry(size_t file_length, const uint16_t *first, size_t count)
{
    uint32_t before[GATEWAY_RUN_WORDS];
    memcpy(before, run, sizeof run);
    shift(first, count);
    if (run[GATEWAY_INDEX_SLOW] == before[GATEWAY_INDEX_SLOW] || count == 1) {
        print_shift(file_length, before[GATEWAY_INDEX_CLOCK], first, count);
        return;
    }
    memcpy(run, before, sizeof run);
    carry(file_length, first, count / 2);
    carry(file_length, first + count / 2, count - count / 2);
}

static void print_outcomes(size_t file_length)
{
    puts("job outcome carried");
    for (size_t i = 0; i < plan[GATEWAY_INDEX_JOB_COUNT]; i++) {
        uint32_t outcome = gateway_outcome(plan, GATEWAY_PLAN_WORDS, run, GATEWAY_RUN_WORDS, i);
        print_name(file_length, i);
        printf(" %s %u\n", gateway_words(outcome), (unsigned)run[GATEWAY_INDEX_CARRIED(i)]);
    }
}

static uint32_t start(void)
{
    return gateway_start(plan, GATEWAY_PLAN_WORDS, table, GATEWAY_TABLE_PLACES, run, GATEWAY_RUN_WORDS, location, GATEWAY_LOCATION_WORDS);
}

/* The speeds of a shift, as many as there are and it may have. Answers their bytes; a stray one may be among them. */
static size_t read_speeds(void)
{
    static uint8_t bytes[SPEED_BYTES * GATEWAY_MOST_SPEEDS];
    size_t got = fread(bytes, 1, sizeof bytes, stdin);
    for (size_t k = 0; k < got / SPEED_BYTES; k++)
        speeds[k] = (uint16_t)(bytes[SPEED_BYTES * k] << 8 | bytes[SPEED_BYTES * k + 1]);
    return got;
}

static int night(void)
{
    size_t got;
    size_t length = read_file();
    uint32_t refused = gateway_read(file, length, plan, GATEWAY_PLAN_WORDS, table, GATEWAY_TABLE_PLACES, &offset);
    if (refused != GATEWAY_DONE)
        fprintf(stderr, "the file is wrong at byte %u\n", (unsigned)offset);
    else
        refused = start();
    if (refused != GATEWAY_DONE) {
        printf("refused %u\n", (unsigned)refused);
        return 0;
    }
    puts("slot speed mode grants");
    do {
        got = read_speeds();
        carry(length, speeds, got / SPEED_BYTES);
    } while (got == SPEED_BYTES * GATEWAY_MOST_SPEEDS);
    if (got % SPEED_BYTES != 0)
        puts("stray byte");
    print_outcomes(length);
    return 0;
}

/* The first byte of a name is the highest of its word. */
static void print_name_word(uint64_t name)
{
    for (int i = GATEWAY_NAME_BYTES - 1; i >= 0; i--)
        putchar((int)(name >> 8 * i & 0xFF));
}

static void print_jobs(void)
{
    for (size_t i = 0; i < plan[GATEWAY_INDEX_JOB_COUNT]; i++) {
        printf("job %u: ", (unsigned)i);
        print_name_word(plan[GATEWAY_INDEX_JOB_NAME(i)]);
        printf(" %s, release %u, size %u, deadline %u\n", plan[GATEWAY_INDEX_JOB_GRADE(i)] ? "HI" : "LO", (unsigned)plan[GATEWAY_INDEX_JOB_RELEASE(i)],
            (unsigned)plan[GATEWAY_INDEX_JOB_SIZE(i)], (unsigned)plan[GATEWAY_INDEX_JOB_DEADLINE(i)]);
    }
}

static void print_verdict(uint32_t refused)
{
    unsigned first = (unsigned)location[0];
    unsigned second = (unsigned)location[1];
    if (refused == GATEWAY_DONE) {
        puts("accepted");
        return;
    }
    printf("refused %u: %s", (unsigned)refused, gateway_words(refused));
    if (refused == GATEWAY_OUTSIDE_WINDOW)
        printf(" (job %u, interval %u)", first, second);
    if (refused == GATEWAY_WRONG_TOTAL)
        printf(" (job %u)", first);
    if (refused == GATEWAY_OVER_CAPACITY)
        printf(" (interval %u)", first);
    if (refused == GATEWAY_BELOW_FLOOR_RULE)
        printf(" (interval %u, deadline %u)", first, second);
    putchar('\n');
}

static void print_slack(void)
{
    int64_t slack;
    uint32_t answer = gateway_slack(plan, GATEWAY_PLAN_WORDS, table, GATEWAY_TABLE_PLACES, &slack, location, GATEWAY_LOCATION_WORDS);
    if (answer == GATEWAY_DONE)
        printf("slack %lld at interval %u, deadline %u\n", (long long)slack, (unsigned)location[0], (unsigned)location[1]);
    else
        printf("slack: %s\n", answer == GATEWAY_NONE_ESSENTIAL ? gateway_words(answer) : "none, for the same reason");
}

static void print_written(size_t length)
{
    size_t written;
    uint32_t refused = gateway_write(plan, GATEWAY_PLAN_WORDS, table, GATEWAY_TABLE_PLACES, again, GATEWAY_LARGEST_FILE, &written);
    int same = refused == GATEWAY_DONE && written == length && memcmp(file, again, length) == 0;
    printf("written again: %s %u bytes\n", same ? "the same" : "other", (unsigned)written);
}

/* Runs a started plan at its floor, slot by slot, until a slot is refused, which is at the last deadline. */
static uint32_t floor_in_slots(void)
{
    uint16_t speed = gateway_speed(plan[GATEWAY_INDEX_FLOOR], plan);
    uint32_t refused = GATEWAY_DONE;
    while (refused == GATEWAY_DONE)
        refused = gateway_step(plan, GATEWAY_PLAN_WORDS, table, GATEWAY_TABLE_PLACES, run, GATEWAY_RUN_WORDS, speed, grants, GATEWAY_MOST_JOBS);
    return refused;
}

/* The same in shifts, until the last speed of one is refused. */
static uint32_t floor_in_shifts(void)
{
    for (size_t k = 0; k < GATEWAY_MOST_SPEEDS; k++)
        speeds[k] = gateway_speed(plan[GATEWAY_INDEX_FLOOR], plan);
    do
        shift(speeds, GATEWAY_MOST_SPEEDS);
    while (numbers[GATEWAY_MOST_SPEEDS - 1] == GATEWAY_DONE);
    return numbers[GATEWAY_MOST_SPEEDS - 1];
}

static void print_floor_night(size_t file_length, uint32_t refused)
{
    printf("at the floor, until %s:\n", gateway_words(refused));
    print_outcomes(file_length);
}

static int print_refused(uint32_t refused)
{
    printf("refused %u: %s (byte %zu)\n", (unsigned)refused, gateway_words(refused), offset);
    return 1;
}

static int check(void)
{
    size_t length = read_file();
    uint32_t refused = gateway_read(file, length, plan, GATEWAY_PLAN_WORDS, table, GATEWAY_TABLE_PLACES, &offset);
    if (refused != GATEWAY_DONE)
        return print_refused(refused);
    printf("rates: normal %u, floor %u\n", (unsigned)plan[GATEWAY_INDEX_NORMAL_RATE], (unsigned)plan[GATEWAY_INDEX_FLOOR]);
    print_jobs();
    refused = gateway_judge(plan, GATEWAY_PLAN_WORDS, table, GATEWAY_TABLE_PLACES, location, GATEWAY_LOCATION_WORDS);
    print_verdict(refused);
    print_slack();
    print_written(length);
    if (refused != GATEWAY_DONE || start() != GATEWAY_DONE)
        return 1;
    print_floor_night(length, floor_in_slots());
    return 0;
}

static void print_word(size_t position)
{
    uint32_t refused = gateway_end(plan, GATEWAY_PLAN_WORDS, run, GATEWAY_RUN_WORDS, position);
    printf("position %u: ", (unsigned)position);
    if (refused == GATEWAY_DONE)
        puts(gateway_words(refused));
    else
        printf("refused %u: %s\n", (unsigned)refused, gateway_words(refused));
}

/* Reads a plan file of this length and starts its run. What refuses either is printed; the answer is the exit status so far. */
static int open_run(size_t length)
{
    uint32_t refused = gateway_read(file, length, plan, GATEWAY_PLAN_WORDS, table, GATEWAY_TABLE_PLACES, &offset);
    if (refused != GATEWAY_DONE)
        return print_refused(refused);
    refused = start();
    if (refused != GATEWAY_DONE)
        print_verdict(refused);
    return refused != GATEWAY_DONE;
}

static int end_all(void)
{
    size_t length = read_file();
    if (open_run(length))
        return 1;
    for (size_t i = 0; i <= plan[GATEWAY_INDEX_JOB_COUNT]; i++)
        print_word(i);
    print_floor_night(length, floor_in_shifts());
    return 0;
}

/* All that is left of standard input. Also a text or a log that is too long is refused for what stands in it, and never cut. */
static size_t read_text(void)
{
    size_t length = 0, room = 0;
    do {
        room = 2 * room + FIRST_ROOM;
        text = realloc(text, room);
        if (!text) {
            fputs("host-c: there is too little memory for the input\n", stderr);
            exit(2);
        }
        length += fread(text + length, 1, room - length, stdin);
    } while (length == room);
    return length;
}

/* The jobs go where a plan has them: a plan's words from the count on are the list of its jobs. */
static int import(void)
{
    size_t length = read_text(), written;
    uint64_t *list = plan + GATEWAY_INDEX_JOB_COUNT;
    uint32_t refused = gateway_import(text, length, list, GATEWAY_LIST_WORDS, &offset);
    if (refused != GATEWAY_DONE)
        return print_refused(refused);
    print_jobs();
    refused = gateway_export(list, GATEWAY_LIST_WORDS, again, GATEWAY_LONGEST_LIST, &written);
    int same = refused == GATEWAY_DONE && written == length && memcmp(text, again, length) == 0;
    printf("exported again: %s %u bytes\n", same ? "the same" : "other", (unsigned)written);
    return 0;
}

static void print_rows(void)
{
    for (size_t i = 0; i < plan[GATEWAY_INDEX_JOB_COUNT]; i++) {
        for (size_t j = 0; j < GATEWAY_MOST_INTERVALS; j++) {
            uint32_t units = table[GATEWAY_INDEX_ALLOTMENT(i, j)];
            if (units > 0)
                printf("job %u, interval %u: %u\n", (unsigned)i, (unsigned)j, (unsigned)units);
        }
    }
}

static int print_shortage(void)
{
    uint64_t pair[GATEWAY_PAIR_WORDS];
    uint32_t refused = gateway_shortage(plan, GATEWAY_PLAN_WORDS, pair, GATEWAY_PAIR_WORDS);
    printf("refused %u: %s", (unsigned)refused, gateway_words(refused));
    if (refused == GATEWAY_NO_TIMETABLE)
        printf(" (HI by %u, LO by %u: %llu asked, %llu carried)", (unsigned)pair[GATEWAY_INDEX_PAIR_HI_TIME], (unsigned)pair[GATEWAY_INDEX_PAIR_LO_TIME],
            (unsigned long long)pair[GATEWAY_INDEX_PAIR_ASKED], (unsigned long long)pair[GATEWAY_INDEX_PAIR_CARRIES]);
    putchar('\n');
    return 1;
}

/* A word that is no number is taken for 0, which no rate may be. */
static int draw(const char *normal_rate, const char *floor)
{
    size_t length = read_text(), written;
    uint32_t refused = gateway_import(text, length, plan + GATEWAY_INDEX_JOB_COUNT, GATEWAY_LIST_WORDS, &offset);
    if (refused != GATEWAY_DONE)
        return print_refused(refused);
    plan[GATEWAY_INDEX_NORMAL_RATE] = strtoul(normal_rate, NULL, 10);
    plan[GATEWAY_INDEX_FLOOR] = strtoul(floor, NULL, 10);
    refused = gateway_draw(plan, GATEWAY_PLAN_WORDS, table, GATEWAY_TABLE_PLACES);
    if (refused != GATEWAY_DONE)
        return print_shortage();
    print_rows();
    print_verdict(gateway_judge(plan, GATEWAY_PLAN_WORDS, table, GATEWAY_TABLE_PLACES, location, GATEWAY_LOCATION_WORDS));
    print_slack();
    refused = gateway_write(plan, GATEWAY_PLAN_WORDS, table, GATEWAY_TABLE_PLACES, again, GATEWAY_LARGEST_FILE, &written);
    printf("written: %u bytes\n", (unsigned)written);
    return refused != GATEWAY_DONE;
}

/* A word as a float; one that is no number stays none, and is refused by 30. */
static double float_of(const char *word)
{
    char *end;
    double number = strtod(word, &end);
    return end == word || *end != '\0' ? strtod("nan", NULL) : number;
}

/* A normal rate that is no number is taken for 0, and one that is too large too: no rate may be 0. */
static int print_speed(const char *rate, const char *mean, const char *lowest)
{
    uint16_t speed;
    unsigned long n = strtoul(rate, NULL, 10);
    uint32_t refused = gateway_meter(float_of(mean), float_of(lowest), n > UINT16_MAX ? 0 : (uint16_t)n, &speed);
    if (refused == GATEWAY_DONE)
        printf("speed %u\n", (unsigned)speed);
    else
        printf("refused %u: %s\n", (unsigned)refused, gateway_words(refused));
    return refused != GATEWAY_DONE;
}

/* Runs the plan in a shift at the speeds of the log that follows it. */
static int meter(void)
{
    size_t length = read_file(), count;
    if (open_run(length))
        return 1;
    size_t log_length = read_text();
    uint32_t refused = gateway_speeds(text, log_length, (uint16_t)plan[GATEWAY_INDEX_NORMAL_RATE], speeds, GATEWAY_MOST_SPEEDS, &count, &offset);
    if (refused != GATEWAY_DONE)
        return print_refused(refused);
    puts("slot speed mode grants");
    carry(length, speeds, count);
    print_outcomes(length);
    return 0;
}

static int print_refusals(void)
{
    for (uint32_t number = GATEWAY_WRONG_VERSION; number <= GATEWAY_WRONG_LOWEST; number++)
        printf("%u %s\n", (unsigned)number, gateway_words(number));
    return 0;
}

int main(int count, char **words)
{
    if (count == 1)
        return night();
    if (count == 2 && strcmp(words[1], "--check") == 0)
        return check();
    if (count == 2 && strcmp(words[1], "--end") == 0)
        return end_all();
    if (count == 2 && strcmp(words[1], "--import") == 0)
        return import();
    if (count == 4 && strcmp(words[1], "--draw") == 0)
        return draw(words[2], words[3]);
    if (count == 5 && strcmp(words[1], "--speed") == 0)
        return print_speed(words[2], words[3], words[4]);
    if (count == 2 && strcmp(words[1], "--meter") == 0)
        return meter();
    if (count == 2 && strcmp(words[1], "--refusals") == 0)
        return print_refusals();
    fputs("usage: host-c < PLAN-AND-SPEEDS\n       host-c --check < PLAN\n       host-c --end < PLAN\n       host-c --import < JOBS\n       host-c --draw NORMAL FLOOR < JOBS\n       host-c --speed NORMAL MEAN LOWEST\n       host-c --meter < PLAN-AND-LOG\n       host-c --refusals\n",
        stderr);
    return 2;
}
