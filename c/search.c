/* A console's program: a search finds the fixtures of a line. Three responders are the line, on which all answers at one time
 * sound as one. searched.h runs the search. */
#include "searched.h"
#include <stdio.h>

enum { MAKER = 0x7FF0, CONSOLE = 0xC0, PLACES = 3, QUEUE_SIZE = 1 };

/* How the answers of more than one sound: as the OR of their bytes, as bytes of any kind, or as the answer of a device that
 * isn't there. */
enum sound { MIXED, NOISE, PHANTOM };

/* A line: the fixtures that are plugged in, and what its owner counts. */
struct line {
    felosumay_responder fixtures[PLACES];
    felosumay_responder phantom; /* what isn't there, and sounds if more than one answers */
    uint32_t devices[PLACES];
    int plugged_in;
    enum sound sound;
    unsigned transactions;
    unsigned collisions;
};

/* What sounds after a request: if more than one answers, a collision. */
static uint64_t transact(line *line, const uint8_t *request, uint64_t count, uint8_t heard[FELOSUMAY_FRAME_BYTES]) {
    uint8_t reply[FELOSUMAY_FRAME_BYTES];
    felosumay_stepped stepped;
    int answers;
    uint64_t length = answer_of(line->fixtures, line->plugged_in, request, count, heard, &answers);
    line->transactions++;
    if (answers < 2)
        return length;
    line->collisions++;
    if (line->sound == NOISE)
        for (size_t k = 0; k < length; k++)
            heard[k] = (uint8_t)(line->transactions * 37 + k * 101);
    if (line->sound == PHANTOM) {
        felosumay_responder_step(&line->phantom, request, count, reply, &stepped);
        if (stepped.replied)
            memcpy(heard, reply, stepped.count);
    }
    return length;
}

/* Prints what was found, and says whether it is the fixtures that are plugged in, each once. */
static int is_right(felosumay_search *search, const line *line) {
    felosumay_found found = {0, 0, 0, 0, 0, 0};
    uint64_t count = 0, index = 0;
    int seen[PLACES] = {0, 0, 0}, strangers = 0;
    for (; felosumay_search_found(search, index, &found) == FELOSUMAY_DONE; index++) {
        int is_known = 0;
        for (int i = 0; i < line->plugged_in; i++)
            if (found.maker == MAKER && found.device == line->devices[i]) {
                seen[i]++;
                is_known = 1;
            }
        strangers += !is_known;
        printf("    %04X:%08X, control field %04X, binding UID %u\n", found.maker, (unsigned)found.device, found.control,
               found.has_binding);
    }
    if (felosumay_search_count(search, &count) != FELOSUMAY_DONE || count != index || strangers != 0)
        return 0;
    for (int i = 0; i < line->plugged_in; i++)
        if (seen[i] != 1)
            return 0;
    return 1;
}

/* Makes the fixtures of a line, and the phantom. The first has two sub-devices. */
static felosumay_result make(line *line, uint32_t phantom) {
    felosumay_result status = felosumay_responder_demo(&line->phantom, MAKER, phantom, 0, QUEUE_SIZE);
    for (int i = 0; i < PLACES && status == FELOSUMAY_DONE; i++)
        status = felosumay_responder_demo(&line->fixtures[i], MAKER, line->devices[i], i == 0 ? 2 : 0, QUEUE_SIZE);
    return status;
}

static void give_up(line *line) {
    felosumay_responder_free(&line->phantom);
    for (int i = 0; i < PLACES; i++)
        felosumay_responder_free(&line->fixtures[i]);
}

/* Finds the first fixtures of a line, and then those that are plugged in later. `failed` is set if it finds others, or takes more
 * transactions than it may. */
static felosumay_result find(const char *name, line *line, enum sound sound, int first, int *failed) {
    felosumay_search search = {0};
    const uint32_t limit = 74 * (uint32_t)first + 2, more = 74 * (uint32_t)(PLACES - first) + 1;
    felosumay_result status = felosumay_search_new(&search, MAKER, CONSOLE, limit);
    line->sound = sound;
    line->plugged_in = first;
    line->transactions = line->collisions = 0;
    if (status == FELOSUMAY_DONE)
        status = discover(&search, line);
    if (status == FELOSUMAY_NO_MORE) {
        printf("%s: %u transactions, %u collisions\n", name, line->transactions, line->collisions);
        if (!is_right(&search, line) || line->transactions > limit)
            *failed = 1;
    }
    if (status == FELOSUMAY_NO_MORE && first < PLACES) {
        line->plugged_in = PLACES;
        line->transactions = 0;
        status = felosumay_search_resume(&search, more);
        if (status == FELOSUMAY_DONE)
            status = discover(&search, line);
        if (status == FELOSUMAY_NO_MORE) {
            printf("%s, later: %u transactions\n", name, line->transactions);
            if (!is_right(&search, line) || line->transactions > more)
                *failed = 1;
        }
    }
    felosumay_search_free(&search);
    return status;
}

/* A line that sounds though nobody answers: the search ends by its limit. */
static felosumay_result hear_noise(void) {
    const uint8_t noise = 0x55;
    uint8_t request[FELOSUMAY_FRAME_BYTES];
    uint64_t count = 0, transactions = 0;
    felosumay_search search = {0};
    felosumay_result status = felosumay_search_new(&search, MAKER, CONSOLE, 76);
    while (status == FELOSUMAY_DONE && (status = felosumay_search_next(&search, request, &count)) == FELOSUMAY_DONE) {
        status = felosumay_search_hear(&search, &noise, 1);
        transactions++;
    }
    printf("a line that sounds for ever: %u after %u transactions\n", status, (unsigned)transactions);
    felosumay_search_free(&search);
    return status;
}

/* What is refused, and a handle that holds no search. */
static void misuse(void) {
    uint8_t bytes[FELOSUMAY_FRAME_BYTES] = {0};
    uint64_t count = 0;
    felosumay_found found;
    felosumay_search none = {0};
    printf("a UID of all: %u\n", felosumay_search_new(&none, MAKER, 0xFFFFFFFF, 76));
    printf("no search: next %u, hear %u, resume %u, count %u, found %u\n", felosumay_search_next(&none, bytes, &count),
           felosumay_search_hear(&none, bytes, 0), felosumay_search_resume(&none, 76), felosumay_search_count(&none, &count),
           felosumay_search_found(&none, 0, &found));
    felosumay_search_free(&none);
}

int main(void) {
    line near = {{{0}, {0}, {0}}, {0}, {4, 5, 6}, 0, MIXED, 0, 0};
    line far = {{{0}, {0}, {0}}, {0}, {1, 0x40000000, 0xFFFFFFFE}, 0, MIXED, 0, 0};
    int failed = 0;
    felosumay_result status = make(&near, 7);
    if (status == FELOSUMAY_DONE)
        status = make(&far, 2);
    if (status == FELOSUMAY_DONE)
        status = find("near, mixed", &near, MIXED, 3, &failed);
    if (status == FELOSUMAY_NO_MORE)
        status = find("near, noise", &near, NOISE, 3, &failed);
    if (status == FELOSUMAY_NO_MORE)
        status = find("near, a phantom", &near, PHANTOM, 3, &failed);
    if (status == FELOSUMAY_NO_MORE)
        status = find("two of three", &far, NOISE, 2, &failed);
    if (status == FELOSUMAY_NO_MORE)
        status = find("far, mixed", &far, MIXED, 3, &failed);
    if (status == FELOSUMAY_NO_MORE)
        status = hear_noise();
    if (status == FELOSUMAY_LIMIT)
        misuse();
    give_up(&near);
    give_up(&far);
    if (status != FELOSUMAY_LIMIT) {
        printf("status %u\n", status);
        return status;
    }
    printf("%s\n", failed ? "other fixtures were found, or it took too long" : "exactly the fixtures of each line, each once");
    return failed ? 2 : 0;
}
