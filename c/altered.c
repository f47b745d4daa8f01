/* Searches of a line that alters frames and loses them: for each rate of altered and of lost frames 100 lines of 20 fixtures are
 * searched. It prints how many of these searches miss a fixture, and how many do if an altered answer to a mute is taken for none, as a
 * program would that passes on valid frames alone. Its status is 1 if a search misses one that it heard every byte of. */
#include "searched.h"
#include <stdio.h>

enum { MAKER = 0x7FF0, CONSOLE = 0xC0, FIXTURES = 20, SEARCHES = 100, REPEATS = 12, LIMIT = 4 * (74 * FIXTURES + 2) };

/* Of a hundred frames so many are altered, and so many lost. */
typedef struct {
    unsigned altered, lost;
} rates;

/* A line, and whether a mute's answer that is altered is taken for none. */
struct line {
    felosumay_responder fixtures[FIXTURES];
    uint32_t devices[FIXTURES];
    rates rates;
    int is_deaf;
};

static uint32_t state;

/* A number below `most`: each run has the same. */
static uint32_t chance(uint32_t most) {
    state ^= state << 13;
    state ^= state >> 17;
    state ^= state << 5;
    return state % most;
}

/* A frame goes over the line. It says how many bytes arrive. */
static uint64_t carry(const line *line, uint8_t *bytes, uint64_t count, int *is_altered) {
    unsigned fate = chance(100);
    *is_altered = 0;
    if (fate < line->rates.lost)
        return 0;
    if (fate < line->rates.lost + line->rates.altered && count != 0) {
        bytes[chance((uint32_t)count)] ^= (uint8_t)(1 + chance(255));
        *is_altered = 1;
    }
    return count;
}

/* Sends a request, and again while nothing is heard. */
static uint64_t transact(line *line, const uint8_t *request, uint64_t count, uint8_t heard[FELOSUMAY_FRAME_BYTES]) {
    uint8_t sent[FELOSUMAY_FRAME_BYTES];
    int is_mute = request[21] == 0 && request[22] == 2, is_altered = 0, answers;
    uint64_t length = 0;
    for (int i = 0; i <= REPEATS && length == 0; i++) {
        memcpy(sent, request, count);
        length = answer_of(line->fixtures, FIXTURES, sent, carry(line, sent, count, &is_altered), heard, &answers);
        length = carry(line, heard, length, &is_altered);
        if (is_altered && is_mute && line->is_deaf)
            return 0;
    }
    return length;
}

/* How many fixtures of the line a search found, or -1 if it found another, or one twice. */
static int found_of(felosumay_search *search, const line *line) {
    felosumay_found found;
    int seen[FIXTURES] = {0}, all = 0;
    for (size_t index = 0; felosumay_search_found(search, index, &found) == FELOSUMAY_DONE; index++) {
        int place = 0;
        while (place < FIXTURES && line->devices[place] != found.device)
            place++;
        if (place == FIXTURES || found.maker != MAKER || seen[place]++)
            return -1;
        all++;
    }
    return all;
}

/* Searches a line of fixtures with UIDs by chance. It says whether all were found: 1, 0, or -1 if something failed. */
static int search_one(line *line, uint32_t seed) {
    felosumay_search search = {0};
    felosumay_result status = FELOSUMAY_DONE;
    state = seed;
    for (int i = 0; i < FIXTURES && status == FELOSUMAY_DONE; i++) {
        line->devices[i] = chance(0xFFFFFFFF);
        status = felosumay_responder_demo(&line->fixtures[i], MAKER, line->devices[i], 0, 1);
    }
    if (status == FELOSUMAY_DONE)
        status = felosumay_search_new(&search, MAKER, CONSOLE, LIMIT);
    if (status == FELOSUMAY_DONE)
        status = discover(&search, line);
    int all = status == FELOSUMAY_NO_MORE ? found_of(&search, line) : -1;
    felosumay_search_free(&search);
    return all < 0 ? -1 : all == FIXTURES;
}

/* How many of the searches miss a fixture, or -1 if something failed. */
static int missed(rates rates, int is_deaf) {
    static line line;
    int missed = 0;
    line.rates = rates;
    line.is_deaf = is_deaf;
    for (uint32_t seed = 1; seed <= SEARCHES; seed++) {
        int all = search_one(&line, seed * 2654435761u);
        if (all < 0)
            return -1;
        missed += !all;
    }
    for (int i = 0; i < FIXTURES; i++)
        felosumay_responder_free(&line.fixtures[i]);
    return missed;
}

int main(void) {
    static const rates all[] = {{0, 0}, {1, 0}, {2, 0}, {5, 0}, {10, 0}, {0, 10}, {10, 10}};
    int failed = 0;
    for (size_t i = 0; i < sizeof all / sizeof *all; i++) {
        int now = missed(all[i], 0), deaf = missed(all[i], 1);
        printf("%2u %% altered, %2u %% lost: %d of %d searches miss a fixture, and %d if altered answers to mutes are none\n",
               all[i].altered, all[i].lost, now, SEARCHES, deaf);
        failed |= now != 0 || deaf < 0;
    }
    return failed;
}
