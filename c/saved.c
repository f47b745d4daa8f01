/* The images of values that outlive power-off (felosumay_responder_save): of each profile they have as many bytes as FELOSUMAY_SAVED_BYTES
 * says of its counts, and no profile has more than FELOSUMAY_MOST_SAVED_BYTES. An image of each is restored by each other one, as after an
 * update. It prints what differs, and then ends with status 1. */
#include "felosumay.h"
#include "felosumay_names.h"
#include "felosumay_values.h"
#include <stdio.h>
#include <string.h>

enum { MAKER = 0x7FF0, MOST_OWN = 32, MOST_WITHOUT = 36, ADDRESS = 300, MANY = 512 };

/* What an image depends on, and no more. */
typedef struct {
    uint16_t sub_devices;
    uint8_t sensors, parameters, orders, scenes, without;
} counts;

static const counts ROWS[] = {
    {0, 0, 0, 0, 0, 0},    {1, 0, 0, 0, 0, 0},   {512, 0, 0, 0, 0, 0}, {0, 1, 0, 0, 0, 0},   {0, 8, 0, 0, 0, 0},
    {0, 0, 1, 0, 0, 0},    {0, 0, 32, 0, 0, 0},  {0, 0, 1, 1, 0, 0},   {0, 0, 32, 31, 0, 0}, {0, 0, 1, 0, 1, 0},
    {0, 0, 32, 7, 255, 0}, {0, 0, 0, 0, 0, 1},   {0, 0, 0, 0, 0, 36},  {48, 3, 5, 2, 9, 4},  {512, 8, 32, 0, 255, 0},
    {512, 8, 32, 32, 255, 36},
};

/* The parameters that a fixture may lack. */
static const uint16_t OPTIONAL[] = {
    0x0400, 0x0401, 0x0402, 0x0403, 0x0404, 0x0405, 0x0500, 0x0501, 0x0600, 0x0601, 0x0602, 0x0030, 0x0031,
    0x0032, 0x0033, 0x0080, 0x0081, 0x0082, 0x0090, 0x00A0, 0x00B0, 0x00C1, 0x00C2, 0x00E0, 0x00E1, 0x0120,
    0x0121, 0x0122, 0x0200, 0x0201, 0x0202, 0x1010, 0x1020, 0x1021, 0x1031, 0x0400,
};

static felosumay_profile profile;
static felosumay_parameter parameters[MOST_OWN];
static uint8_t image[FELOSUMAY_MOST_SAVED_BYTES], newer[FELOSUMAY_MOST_SAVED_BYTES];
static int failed;

static void expect(const char *what, const counts *row, uint64_t got, uint64_t wanted) {
    if (got != wanted) {
        printf("%s: %u, not %u, of %u sub-devices, %u sensors, %u parameters, %u orders, %u scenes, %u left out\n", what, (unsigned)got,
               (unsigned)wanted, row->sub_devices, row->sensors, row->parameters, row->orders, row->scenes, row->without);
        failed = 1;
    }
}

/* The least profile with so much of each. The scenes are those of the first parameter; the last ones are orders. */
static void describe(const counts *row) {
    memset(&profile, 0, sizeof profile);
    memset(parameters, 0, sizeof parameters);
    profile.root.personality_count = profile.sub.personality_count = 1;
    profile.root.start = profile.sub.start = 1;
    profile.root.personalities[0].footprint = profile.slot_count = 1;
    profile.language_count = 1;
    profile.subs = row->sub_devices;
    profile.sensor_count = row->sensors;
    profile.parameters = parameters;
    profile.parameter_count = row->parameters;
    profile.without = OPTIONAL;
    profile.without_count = row->without;
    for (uint8_t i = 0; i < row->parameters; i++) {
        parameters[i].pid = (uint16_t)(0x8000 + i);
        parameters[i].kind = FELOSUMAY_DS_UNSIGNED_BYTE;
        parameters[i].commands = i + row->orders < row->parameters ? FELOSUMAY_CC_GET_SET : FELOSUMAY_CC_SET;
        parameters[i].start.count = 1;
    }
    if (row->scenes > 0) {
        parameters[0].pid = FELOSUMAY_PID_PRESET_STATUS;
        parameters[0].kind = FELOSUMAY_DS_SCENES;
        parameters[0].high = row->scenes;
        parameters[0].start.count = 0;
    }
}

/* One image is saved and restored; with a byte less it is neither. */
static felosumay_result try_row(const counts *row) {
    const uint64_t bytes =
        FELOSUMAY_SAVED_BYTES(row->sub_devices, row->sensors, row->parameters, row->orders, row->scenes, row->without);
    felosumay_responder fixture = {0};
    uint64_t count = 0;
    describe(row);
    felosumay_result result = felosumay_responder_new(&fixture, MAKER, 1, &profile, 1);
    if (result == FELOSUMAY_DONE) {
        expect("the size", row, felosumay_responder_saved_size(&fixture, &count) == FELOSUMAY_DONE ? count : 0, bytes);
        expect("a byte less", row, felosumay_responder_save(&fixture, image, bytes - 1, &count), FELOSUMAY_SHORT_IMAGE);
        expect("save", row, felosumay_responder_save(&fixture, image, bytes, &count), FELOSUMAY_DONE);
        expect("what is saved", row, count, bytes);
        expect("restore of a byte less", row, felosumay_responder_restore(&fixture, image, bytes - 1), FELOSUMAY_IMAGE_LENGTH);
        expect("restore", row, felosumay_responder_restore(&fixture, image, bytes), FELOSUMAY_DONE);
    }
    felosumay_responder_free(&fixture);
    return result;
}

static uint64_t address_of(felosumay_responder *fixture) {
    uint16_t address = 0;
    return felosumay_get_u16(fixture, 0, FELOSUMAY_PID_DMX_START_ADDRESS, &address) == FELOSUMAY_DONE ? address : 0;
}

/* How many values of the one image the other one doesn't have. */
static uint64_t left_count(uint64_t older_count, uint64_t newer_count) {
    felosumay_left left = {0, 0, 0, 0};
    uint64_t from = 0, found = 0;
    while (felosumay_saved_left(image, older_count, newer, newer_count, from, &left) == FELOSUMAY_DONE) {
        from = left.number + 1;
        found++;
    }
    return found;
}

static uint64_t more(uint64_t had, uint64_t has) {
    return had > has ? had - has : 0;
}

/* How many are left by such an update, of values that are as they were at first but for the address: DEVICE_POWER_CYCLES, and those of
 * sub-devices, with 7 values each, sensors and own parameters that are gone. An order has a second value, and PRESET_STATUS one for each
 * scene. */
static uint64_t left_by(const counts *before, const counts *after) {
    uint64_t left = 1 + 7 * more(before->sub_devices, after->sub_devices) + more(before->sensors, after->sensors);
    for (uint8_t i = 0; i < before->parameters; i++) {
        const int is_order = i + before->orders >= before->parameters, is_scenes = i == 0 && before->scenes > 0;
        const int stays = i < after->parameters && (i > 0 || (before->scenes > 0) == (after->scenes > 0));
        const int stays_order = stays && i + after->orders >= after->parameters;
        left += (stays ? 0 : 1) + (is_order && !stays_order ? 1 : 0);
        if (is_scenes)
            left += stays ? more(before->scenes, after->scenes) : before->scenes;
    }
    return left;
}

/* An update turns the fixture of one row into that of another: the image of the one is restored in the other, and the address stays. */
static felosumay_result update(const counts *before, const counts *after) {
    felosumay_responder fixture = {0};
    uint64_t count = 0, newer_count = 0;
    describe(before);
    felosumay_result result = felosumay_responder_new(&fixture, MAKER, 1, &profile, 1);
    if (result == FELOSUMAY_DONE) {
        expect("place", before, felosumay_place_u16(&fixture, 0, FELOSUMAY_PID_DMX_START_ADDRESS, ADDRESS), FELOSUMAY_DONE);
        expect("save", before, felosumay_responder_save(&fixture, image, sizeof image, &count), FELOSUMAY_DONE);
    }
    felosumay_responder_free(&fixture);
    describe(after);
    profile.root.software = 2;
    if (result == FELOSUMAY_DONE)
        result = felosumay_responder_new(&fixture, MAKER, 1, &profile, 1);
    if (result == FELOSUMAY_DONE) {
        expect("restore after an update", after, felosumay_responder_restore(&fixture, image, count), FELOSUMAY_DONE);
        expect("the address", after, address_of(&fixture), ADDRESS);
        expect("save after an update", after, felosumay_responder_save(&fixture, newer, sizeof newer, &newer_count), FELOSUMAY_DONE);
        if (before->sub_devices < MANY || after->sub_devices < MANY)
            expect("what is left", after, left_count(count, newer_count), left_by(before, after));
    }
    felosumay_responder_free(&fixture);
    return result;
}

int main(void) {
    const size_t rows = sizeof ROWS / sizeof *ROWS;
    felosumay_result result = FELOSUMAY_DONE;
    for (size_t i = 0; i < rows && result == FELOSUMAY_DONE; i++) {
        result = try_row(&ROWS[i]);
        expect("new", &ROWS[i], result, FELOSUMAY_DONE);
    }
    for (size_t i = 0; i < rows * rows && result == FELOSUMAY_DONE; i++) {
        result = update(&ROWS[i / rows], &ROWS[i % rows]);
        expect("new", &ROWS[i % rows], result, FELOSUMAY_DONE);
    }
    return failed;
}
