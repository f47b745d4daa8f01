/* The values that outlive power-off: the flash has two areas, and a save replaces the older image, so that a power failure at any moment
 * leaves the old values or the new. docs/SAVED.md has the form of an image, and says what is proved of it. */
#include "board.h"
#include "fixture.h"
#include <felosumay_images.h>
#include <felosumay_names.h>
#include <felosumay_values.h>
#include <string.h>

enum { VALUES = FELOSUMAY_SAVED_BYTES(CELLS, SENSORS, 0, 0, 0, 0), KEY = 0x48656164 /* "Head" */ };
/* A save comes so long after a change, with all that has changed since: flash wears out, and a wheel at the menu turns fast. */
enum { SAVE_MILLISECONDS = 1000 };

FELOSUMAY_ASSERT(FELOSUMAY_IMAGE_BYTES(VALUES) <= FLASH_AREA_BYTES);

static uint8_t image[FELOSUMAY_IMAGE_BYTES(VALUES)]; /* the newest one, while `is_saved` */
static bool is_saved, is_changed;
static uint64_t changed_at;

static bool area_read(void *context, uint8_t area, uint8_t *bytes, uint64_t count) {
    (void)context;
    board_flash_read(area, bytes, (uint16_t)count);
    return true;
}

static bool area_erase(void *context, uint8_t area) {
    (void)context;
    return board_flash_erase(area);
}

static bool area_write(void *context, uint8_t area, const uint8_t *bytes, uint64_t count) {
    (void)context;
    return board_flash_write(area, bytes, (uint16_t)count);
}

static const felosumay_areas AREAS = {area_read, area_erase, area_write, NULL};

/* At power-on, before anything is heard. Without an image the values stay those of the profile, and it is the first power-on. */
void values_load(void) {
    const uint8_t *values = NULL;
    uint64_t count = 0;
    const felosumay_result loaded = felosumay_images_load(&AREAS, KEY, image, sizeof image, &values, &count);
    is_saved = loaded == FELOSUMAY_DONE && felosumay_responder_restore(&fixture, values, count) == FELOSUMAY_DONE;
    if (!is_saved) /* a restore counts a power cycle itself */
        felosumay_place_u32(&fixture, 0, FELOSUMAY_PID_DEVICE_POWER_CYCLES, 1);
    if (loaded == FELOSUMAY_NO_IMAGE) /* whatever the flash held: from now on a save that is cut off leaves the old values or the new */
        felosumay_images_format(&AREAS);
    values_changed();
}

/* It only takes note: a reply may be due. */
void values_changed(void) {
    if (!is_changed)
        changed_at = board_milliseconds();
    is_changed = true;
}

/* Saves the values, if they aren't those that were saved last. If the memory fails, it is tried again later. */
void values_keep(void) {
    uint8_t values[VALUES];
    uint64_t count = 0;
    if (!is_changed || board_milliseconds() - changed_at < SAVE_MILLISECONDS)
        return;
    if (felosumay_responder_save(&fixture, values, sizeof values, &count) != FELOSUMAY_DONE)
        return;
    is_changed = false;
    if (is_saved && memcmp(values, image + FELOSUMAY_IMAGE_HEADER_BYTES, VALUES) == 0)
        return;
    is_saved = felosumay_images_save(&AREAS, KEY, values, count, image, sizeof image) == FELOSUMAY_DONE;
    if (!is_saved)
        values_changed();
}
