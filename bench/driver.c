/* Measures what requests cost. See bench/run, which builds and calls this.
 *
 *   driver FRAMES                 a line for each row of the file FRAMES, with tabs between: its name, nanoseconds,
 *                                 allocations, nanoseconds of the floor, and three numbers for callgrind: few rounds,
 *                                 many rounds, and by how many a round is divided
 *   driver FRAMES rows            the same lines with no measure: the name and the three numbers
 *   driver FRAMES ROW             hears the frames of one row, counted from 0, and prints nanoseconds of one run
 *   driver FRAMES ROW ROUNDS      hears the frames of one row that many times over, and prints nothing
 */
#include <ctype.h>
#include <stdbool.h>
#include <stdint.h>
#include <stdio.h>
#include <stdlib.h>
#include <string.h>
#include <time.h>

enum { MOST_ROWS = 64, MOST_BYTES = 512, MOST_PACKED = 1 << 17, MOST_IN_ROUND = 2100, NAME_BYTES = 64, RUNS = 5 };

/* A timed run takes at least so many nanoseconds. */
#define SHORTEST_RUN 20e6

/* Frames one after another, each behind its length in two bytes. */
struct frames {
    size_t count;
    size_t length;
    uint8_t packed[MOST_PACKED];
};

struct row {
    char name[NAME_BYTES];
    bool own; /* whether it has parameters of its maker's own */
    uint16_t subs;
    uint8_t reports;
    uint32_t most_rounds; /* 0 where the responder can hear any number of rounds */
    size_t divided_by;
    struct frames preface;
    struct frames round;
};

static struct row rows[MOST_ROWS];
static size_t row_count;

static size_t length_at(const uint8_t *packed)
{
    return (size_t)packed[0] << 8 | packed[1];
}

/* ---- the responder: crates/rdm_bench */

struct tally {
    uint64_t bytes;
    uint64_t total;
};

uint8_t rdm_bench_run(bool own, uint16_t subs, const uint8_t *preface, size_t preface_length, const uint8_t *packed,
                      size_t length, uint32_t rounds, uint8_t reports, struct tally *tally);

/* Hears the preface of a row, and so many rounds of the first bytes of its frames. */
static struct tally hear(const struct row *row, size_t length, uint32_t rounds)
{
    static const char *const faults[] = {"", "out of memory", "too many sub-devices", "unknown reports"};
    struct tally tally = {0, 0};
    uint8_t fault = rdm_bench_run(row->own, row->subs, row->preface.packed, row->preface.length, row->round.packed,
                                  length, rounds, row->reports, &tally);
    if (fault != 0) {
        fprintf(stderr, "%s: %s\n", row->name, faults[fault]);
        exit(1);
    }
    return tally;
}

/* ---- allocations: the linker gives the calls of these functions to the ones below (--wrap) */

static uint64_t allocations;

void *__real_malloc(size_t size);
void *__real_calloc(size_t count, size_t size);
void *__real_realloc(void *block, size_t size);

void *__wrap_malloc(size_t size)
{
    allocations++;
    return __real_malloc(size);
}

void *__wrap_calloc(size_t count, size_t size)
{
    allocations++;
    return __real_calloc(count, size);
}

void *__wrap_realloc(void *block, size_t size)
{
    allocations++;
    return __real_realloc(block, size);
}

/* ---- the floor: the request's bytes are summed, and a reply of that length is copied and summed */

/* Their sum, modulo 65536, as a checksum is. */
static uint16_t sum_of(const uint8_t *bytes, size_t length)
{
    uint16_t sum = 0;
    for (size_t i = 0; i < length; i++)
        sum += bytes[i];
    return sum;
}

__attribute__((noinline)) static uint64_t floor_of(const uint8_t *request, size_t length,
                                                   const uint8_t *answer, size_t answer_length)
{
    uint8_t reply[MOST_BYTES];
    uint16_t sum = sum_of(request, length);
    memcpy(reply, answer, answer_length);
    return (uint64_t)sum + sum_of(reply, answer_length);
}

/* How long the reply to each frame of a round is, in the first one. */
static void reply_lengths(const struct row *row, size_t *lengths)
{
    const struct frames *round = &row->round;
    uint64_t before = hear(row, 0, 0).bytes;
    size_t end = 0;
    for (size_t i = 0; i < round->count; i++) {
        end += 2 + length_at(round->packed + end);
        uint64_t bytes = hear(row, end, 1).bytes;
        lengths[i] = (size_t)(bytes - before);
        before = bytes;
    }
}

static uint64_t floor_run(const struct frames *round, const size_t *lengths, uint32_t rounds)
{
    static const uint8_t answer[MOST_BYTES];
    uint64_t sum = 0;
    for (uint32_t i = 0; i < rounds; i++) {
        const uint8_t *at = round->packed;
        for (size_t frame = 0; frame < round->count; frame++) {
            size_t length = length_at(at);
            sum += floor_of(at + 2, length, answer, lengths[frame]);
            at += 2 + length;
        }
    }
    return sum;
}

/* ---- time: that of this process, so that others on the machine count little */

static volatile uint64_t kept;

static double now(void)
{
    struct timespec time;
    clock_gettime(CLOCK_PROCESS_CPUTIME_ID, &time);
    return (double)time.tv_sec * 1e9 + (double)time.tv_nsec;
}

/* How long these rounds take: of the floor where reply lengths are given, and else of the responder, where the time
 * that it takes to make one and to hear the preface is taken off. */
static double time_of(const struct row *row, const size_t *lengths, uint32_t rounds)
{
    double start = now();
    kept = lengths ? floor_run(&row->round, lengths, rounds) : hear(row, row->round.length, rounds).total;
    double end = now();
    if (lengths)
        return end - start;
    kept = hear(row, row->round.length, 0).total;
    return end - start - (now() - end);
}

/* How long that many runs of so many rounds take. */
static double times_of(const struct row *row, const size_t *lengths, uint32_t rounds, uint32_t times)
{
    double time = 0;
    for (uint32_t i = 0; i < times; i++)
        time += time_of(row, lengths, rounds);
    return time;
}

/* Nanoseconds of a round: of a run that is long enough, or of so many short ones. */
static double round_time(const struct row *row, const size_t *lengths)
{
    bool limited = row->most_rounds != 0 && lengths == NULL;
    uint32_t rounds = limited ? row->most_rounds : 16;
    uint32_t times = 1;
    double time;
    while ((time = times_of(row, lengths, rounds, times)) < SHORTEST_RUN)
        *(limited ? &times : &rounds) *= 2;
    return time / rounds / times;
}

struct times {
    double request;
    double floor;
};

/* Nanoseconds of a round, and of its floor: the best of five runs of each, which alternate. */
static struct times best_times(const struct row *row, const size_t *lengths)
{
    struct times best = {1e9, 1e9};
    for (int run = 0; run < RUNS; run++) {
        double request = round_time(row, NULL) / (double)row->divided_by;
        double floor = round_time(row, lengths) / (double)row->divided_by;
        best.request = request < best.request ? request : best.request;
        best.floor = floor < best.floor ? floor : best.floor;
    }
    return best;
}

/* What is in both drops out of a difference: to make the responder, and to hear the preface. */
static uint32_t few_rounds(const struct row *row)
{
    return row->most_rounds != 0 ? row->most_rounds / 5 : 100;
}

static uint32_t many_rounds(const struct row *row)
{
    return row->most_rounds != 0 ? row->most_rounds : 1100;
}

/* Allocations in that many rounds. */
static uint64_t allocations_of(const struct row *row, uint32_t rounds)
{
    uint64_t start = allocations;
    hear(row, row->round.length, rounds);
    return allocations - start;
}

static void print_row(const struct row *row)
{
    size_t lengths[MOST_IN_ROUND];
    uint32_t few = few_rounds(row);
    uint32_t many = many_rounds(row);
    double allocated = (double)(allocations_of(row, many) - allocations_of(row, few));
    reply_lengths(row, lengths);
    struct times times = best_times(row, lengths);
    printf("%s\t%.1f\t%.2f\t%.1f\t%u\t%u\t%zu\n", row->name, times.request,
           allocated / (many - few) / (double)row->divided_by, times.floor, few, many, row->divided_by);
}

/* ---- the file of frames */

static void faulty(size_t line, const char *why)
{
    fprintf(stderr, "line %zu: %s\n", line, why);
    exit(1);
}

static unsigned digit_of(char c)
{
    return (unsigned)(isdigit((unsigned char)c) ? c - '0' : toupper((unsigned char)c) - 'A' + 10);
}

static char *trimmed(char *text)
{
    while (*text == ' ')
        text++;
    for (size_t end = strlen(text); end > 0 && text[end - 1] == ' '; end--)
        text[end - 1] = '\0';
    return text;
}

static void add_bytes(struct frames *frames, const uint8_t *bytes, size_t length, size_t line)
{
    if (frames->length + length > MOST_PACKED)
        faulty(line, "too many frames");
    memcpy(frames->packed + frames->length, bytes, length);
    frames->length += length;
}

/* The frames of all rows so far. */
static void add_all_above(struct frames *frames, size_t line)
{
    for (size_t above = 0; above < row_count; above++) {
        add_bytes(frames, rows[above].round.packed, rows[above].round.length, line);
        frames->count += rows[above].round.count;
    }
}

static void add_frame(struct frames *frames, const char *text, size_t line)
{
    uint8_t frame[MOST_BYTES + 2];
    size_t end = 2;
    for (; *text != '\0'; text++) {
        if (*text == ' ')
            continue;
        if (end + 2 > sizeof frame)
            faulty(line, "a frame is too long");
        if (*text == '+') {
            uint16_t sum = sum_of(frame + 2, end - 2);
            frame[end++] = (uint8_t)(sum >> 8);
            frame[end++] = (uint8_t)sum;
        } else if (isxdigit((unsigned char)text[0]) && isxdigit((unsigned char)text[1])) {
            frame[end++] = (uint8_t)(digit_of(text[0]) << 4 | digit_of(text[1]));
            text++;
        } else {
            faulty(line, "no pair of hexadecimal digits");
        }
    }
    frame[0] = (uint8_t)((end - 2) >> 8);
    frame[1] = (uint8_t)(end - 2);
    add_bytes(frames, frame, end, line);
    frames->count++;
}

/* Frames with commas between, and how many times over they are heard, before an x. */
static void add_group(struct frames *frames, char *text, size_t line)
{
    size_t start = frames->length;
    size_t count = frames->count;
    size_t times = 1;
    char *behind = strchr(text, 'x');
    if (behind != NULL) {
        times = strtoul(text, NULL, 10);
        text = behind + 1;
    }
    char *rest;
    for (char *frame = strtok_r(text, ",", &rest); frame != NULL; frame = strtok_r(NULL, ",", &rest))
        add_frame(frames, frame, line);
    size_t length = frames->length - start;
    size_t in_group = frames->count - count;
    for (size_t more = 1; more < times; more++) {
        add_bytes(frames, frames->packed + start, length, line);
        frames->count += in_group;
    }
}

static void add_groups(struct frames *frames, char *text, size_t line)
{
    char *rest;
    for (char *group = strtok_r(text, ";", &rest); group != NULL; group = strtok_r(NULL, ";", &rest))
        add_group(frames, group, line);
}

static uint8_t reports_code(const char *word, size_t line)
{
    static const char *const words[] = {"-", "done", "advisory", "error"};
    for (uint8_t code = 0; code < 4; code++)
        if (strcmp(word, words[code]) == 0)
            return code;
    faulty(line, "unknown reports");
    return 0;
}

enum { NAME, SUBS, REPORTS, ROUNDS, PREFACE, ROUND, COLUMNS };

static void read_row(struct row *row, char *const *columns, size_t line)
{
    snprintf(row->name, sizeof row->name, "%s", columns[NAME]);
    row->own = strcmp(columns[SUBS], "own") == 0;
    row->subs = row->own ? 0 : (uint16_t)strtoul(columns[SUBS], NULL, 10);
    row->reports = reports_code(columns[REPORTS], line);
    row->most_rounds = (uint32_t)strtoul(columns[ROUNDS], NULL, 10);
    row->divided_by = 1;
    if (strcmp(columns[PREFACE], "-") != 0)
        add_groups(&row->preface, columns[PREFACE], line);
    if (strcmp(columns[ROUND], "*") == 0) {
        add_all_above(&row->round, line);
        row->divided_by = row->round.count;
    } else {
        add_groups(&row->round, columns[ROUND], line);
    }
    if (row->round.count == 0 || row->round.count > MOST_IN_ROUND)
        faulty(line, "no frame, or too many in a round");
}

static void read_line(char *text, size_t line)
{
    text[strcspn(text, "\r\n")] = '\0';
    if (text[strspn(text, " ")] == '\0' || text[0] == '#')
        return;
    char *columns[COLUMNS];
    size_t count = 0;
    for (char *column = strtok(text, "|"); column != NULL && count < COLUMNS; column = strtok(NULL, "|"))
        columns[count++] = trimmed(column);
    if (count != COLUMNS)
        faulty(line, "not six columns with | between");
    if (row_count == MOST_ROWS)
        faulty(line, "too many rows");
    read_row(&rows[row_count], columns, line);
    row_count++;
}

static void read_rows(const char *path)
{
    static char text[1 << 16];
    FILE *file = fopen(path, "r");
    if (file == NULL) {
        perror(path);
        exit(1);
    }
    for (size_t line = 1; fgets(text, sizeof text, file) != NULL; line++)
        read_line(text, line);
    fclose(file);
}

/* What callgrind needs to know of a row. */
static void print_rounds(const struct row *row)
{
    printf("%s\t%u\t%u\t%zu\n", row->name, few_rounds(row), many_rounds(row), row->divided_by);
}

static void for_each_row(void (*print)(const struct row *row))
{
    for (size_t row = 0; row < row_count; row++)
        print(&rows[row]);
}

int main(int count, char **words)
{
    if (count < 2 || count > 4)
        return 2;
    read_rows(words[1]);
    if (count == 2 || strcmp(words[2], "rows") == 0) {
        for_each_row(count == 2 ? print_row : print_rounds);
        return 0;
    }
    size_t at = strtoul(words[2], NULL, 10);
    if (at >= row_count)
        return 2;
    const struct row *row = &rows[at];
    if (count == 3)
        printf("%.1f\n", round_time(row, NULL) / (double)row->divided_by);
    else
        kept = hear(row, row->round.length, (uint32_t)strtoul(words[3], NULL, 10)).total;
    return 0;
}
