/* A fixture without a heap: its responder lies in an array of the program's, and takes no more than that. It is found, and its lamp is
 * struck; a console's frames stand here in place of a line. Its status is 0 if each reply is the one that it is to be. */
#include "felosumay_memory.h"

enum { QUEUE_SIZE = 4, ENTRIES = 8 };

FELOSUMAY_ALIGNED static uint8_t memory[FELOSUMAY_RESPONDER_BYTES(QUEUE_SIZE, ENTRIES, 0)];

/* What the fixture is. It may lie in flash. */
static const felosumay_profile PROFILE = {
    {0x00000100, 0x0011, 0x0102, 1, FELOSUMAY_TEXT("Moving head"), FELOSUMAY_TEXT("Example"), FELOSUMAY_TEXT("Left of stage"),
     FELOSUMAY_TEXT("1.0"), 1, {{2, FELOSUMAY_TEXT("Basic")}}},
    {0x00000100, 0x0012, 0x0102, 1, FELOSUMAY_TEXT("Cell"), FELOSUMAY_TEXT("Example"), FELOSUMAY_TEXT("Cell"),
     FELOSUMAY_TEXT("1.0"), 1, {{1, FELOSUMAY_TEXT("Cell")}}},
    1, 0, 4, FELOSUMAY_TEXT("Boot 1.0"),
    1, 2, 0, 0, 0,
    {0x656E},
    {{0x0001, 0, 0x00, FELOSUMAY_TEXT("Intensity")}, {0x0101, 0, 0x80, FELOSUMAY_TEXT("Pan")}},
    {{0, 0, 0, 0, 0, 0, 0, 0, {0, {0}}, 0}},
    {{0, {0, {0}}}},
    {{0, {0, {0}}}},
    0, NULL, 0, NULL, 0,
    {0, 0, 0, 0},
    {0, 0, 0, 0},
    0, 0, 0,
    NULL, 0, 0, {{0, 0}},
    {0},
    NULL, 0, NULL, 0,
};

/* A request, and the reply that it is to have. */
typedef struct {
    uint64_t count, replied;
    uint8_t request[27], reply[28];
} exchange;

static const exchange EXCHANGES[] = {
    /* DISC_MUTE: it has no sub-devices. */
    {26, 28,
     {0xCC, 0x01, 0x18, 0x7F, 0xF0, 0, 0, 0, 1, 0x7F, 0xF0, 0, 0, 0, 2, 0, 1, 0, 0, 0, 0x10, 0x00, 0x02, 0, 0x03, 0xD9},
     {0xCC, 0x01, 0x1A, 0x7F, 0xF0, 0, 0, 0, 2, 0x7F, 0xF0, 0, 0, 0, 1, 0, 0, 0, 0, 0, 0x11, 0x00, 0x02, 2, 0, 0, 0x03, 0xDD}},
    /* SET LAMP_STATE: ACK_TIMER, in 5 seconds. */
    {27, 28,
     {0xCC, 0x01, 0x19, 0x7F, 0xF0, 0, 0, 0, 1, 0x7F, 0xF0, 0, 0, 0, 2, 1, 1, 0, 0, 0, 0x30, 0x04, 0x03, 1, 1, 0x04, 0x02},
     {0xCC, 0x01, 0x1A, 0x7F, 0xF0, 0, 0, 0, 2, 0x7F, 0xF0, 0, 0, 0, 1, 1, 1, 0, 0, 0, 0x31, 0x04, 0x03, 2, 0, 0x32, 0x04, 0x36}},
    /* QUEUED_MESSAGE: the response to the SET. */
    {27, 26,
     {0xCC, 0x01, 0x19, 0x7F, 0xF0, 0, 0, 0, 1, 0x7F, 0xF0, 0, 0, 0, 2, 2, 1, 0, 0, 0, 0x20, 0x00, 0x20, 1, 2, 0x04, 0x0D},
     {0xCC, 0x01, 0x18, 0x7F, 0xF0, 0, 0, 0, 2, 0x7F, 0xF0, 0, 0, 0, 1, 2, 0, 0, 0, 0, 0x31, 0x04, 0x03, 0, 0x04, 0x00}},
};

int main(void) {
    const felosumay_outcome done = {FELOSUMAY_JOB_DONE, 0, 0, 0, 0, 0};
    felosumay_responder fixture = {0};
    uint8_t reply[FELOSUMAY_FRAME_BYTES], kept;
    uint64_t wrong = 0;
    felosumay_result result =
        felosumay_responder_new_in(memory, sizeof memory, &fixture, 0x7FF0, 1, &PROFILE, QUEUE_SIZE, ENTRIES, 0);
    for (size_t i = 0; result == FELOSUMAY_DONE && i < sizeof EXCHANGES / sizeof *EXCHANGES; i++) {
        const exchange *now = &EXCHANGES[i];
        felosumay_stepped stepped;
        result = felosumay_responder_step(&fixture, now->request, now->count, reply, &stepped);
        wrong += stepped.count != now->replied || memcmp(reply, now->reply, now->replied) != 0;
        if (stepped.started)
            result = felosumay_responder_arrive(&fixture, &stepped.job, &done, &kept);
    }
    felosumay_responder_free(&fixture);
    return result != FELOSUMAY_DONE || wrong != 0;
}
