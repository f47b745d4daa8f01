/* Two images of saved values in two areas of flash (felosumay_images.h). The flash is an array here, which loses power at any byte: after
 * each save that is interrupted so, either the old payload is loaded or the new one, whole. It prints what differs, and then ends with
 * status 1. */
#include "felosumay_images.h"
#include <stdio.h>
#include <string.h>

enum { AREA_BYTES = 40, PAYLOAD = 20, BUFFER = FELOSUMAY_IMAGE_HEADER_BYTES + PAYLOAD, KEY = 0x48656164, OTHER_KEY = 0x48656165 };
enum { NEVER = 1000000, WAYS = 4 };

static uint8_t cells[2][AREA_BYTES], buffer[BUFFER];
static int bytes_left;     /* after so many bytes that change power fails, and each call fails from then on */
static int way;            /* what the byte is at which it fails: one of WAYS */
static int altered_read;   /* the read of this number is altered, from 1 */
static int reads, changes; /* how many areas were read, and erased or written */
static int failed;

static void expect(const char *what, long got, long wanted) {
    if (got != wanted) {
        printf("%s: %ld, not %ld\n", what, got, wanted);
        failed = 1;
    }
}

/* ---- the flash */

/* Makes a byte another, if there is power: else it is as it was, as it is to be, or somewhere between. */
static bool put(uint8_t *cell, uint8_t wanted) {
    const uint8_t between[WAYS] = {*cell, wanted, (uint8_t)(*cell / 2 + wanted / 2), (uint8_t)((*cell & 0x0F) | (wanted & 0xF0))};
    const uint8_t least = *cell < wanted ? *cell : wanted;
    if (bytes_left == 0)
        return false;
    if (--bytes_left == 0) {
        *cell = between[way] < least ? least : between[way];
        return false;
    }
    *cell = wanted;
    return true;
}

static bool flash_read(void *context, uint8_t area, uint8_t *bytes, uint64_t count) {
    (void)context;
    if (bytes_left == 0)
        return false;
    memcpy(bytes, cells[area], (size_t)count);
    if (++reads == altered_read)
        bytes[count - 1] ^= 1;
    return true;
}

static bool flash_erase(void *context, uint8_t area) {
    int i;
    (void)context;
    changes++;
    for (i = 0; i < AREA_BYTES; i++)
        if (!put(&cells[area][i], 0xFF))
            return false;
    return true;
}

static bool flash_write(void *context, uint8_t area, const uint8_t *bytes, uint64_t count) {
    uint64_t i;
    (void)context;
    changes++;
    for (i = 0; i < count; i++) {
        expect("a byte that isn't erased and is written", cells[area][i], 0xFF);
        if (!put(&cells[area][i], bytes[i]))
            return false;
    }
    return true;
}

static const felosumay_areas AREAS = {flash_read, flash_erase, flash_write, NULL};

static void switch_on(void) {
    bytes_left = NEVER;
    altered_read = reads = changes = 0;
}

/* ---- payloads: each byte of one is its number */

static felosumay_result save(uint8_t number) {
    uint8_t payload[PAYLOAD];
    memset(payload, number, sizeof payload);
    return felosumay_images_save(&AREAS, KEY, payload, sizeof payload, buffer, sizeof buffer);
}

/* The number of the payload that is loaded, 0 if there is none, and -1 if it is none that was saved. */
static int load(void) {
    const uint8_t *payload = NULL;
    uint64_t count = 0, i;
    const felosumay_result result = felosumay_images_load(&AREAS, KEY, buffer, sizeof buffer, &payload, &count);
    if (result != FELOSUMAY_DONE)
        return result == FELOSUMAY_NO_IMAGE ? 0 : -1;
    for (i = 0; i < count; i++)
        if (count != PAYLOAD || payload[i] != payload[0])
            return -1;
    return payload[0];
}

/* So many saves into flash that held other things: numbers 1 and up. */
static void begin(int saves) {
    int number;
    switch_on();
    memset(cells, 0x55, sizeof cells);
    expect("format", felosumay_images_format(&AREAS), FELOSUMAY_DONE);
    for (number = 1; number <= saves; number++)
        expect("save", save((uint8_t)number), FELOSUMAY_DONE);
}

/* ---- power fails */

/* Power fails at this byte of a save, in this way. After it one of two payloads is loaded, and a save is what it is otherwise. */
static void cut_save(int saves, int at) {
    const int new_number = saves + 1;
    int loaded;
    begin(saves);
    bytes_left = at;
    expect("a save without power", save((uint8_t)new_number), FELOSUMAY_FLASH_FAILED);
    switch_on();
    loaded = load();
    if (loaded != saves && loaded != new_number) {
        printf("power fails at byte %d of save %d: %d is loaded\n", at, new_number, loaded);
        failed = 1;
    }
    expect("the save after it", save((uint8_t)(new_number + 1)), FELOSUMAY_DONE);
    expect("what it saved", load(), new_number + 1);
}

/* The same of a save that comes after one that was cut off. */
static void cut_twice(int saves, int first, int second) {
    int loaded, again;
    begin(saves);
    bytes_left = first;
    save((uint8_t)(saves + 1));
    switch_on();
    loaded = load();
    bytes_left = second;
    save((uint8_t)(saves + 2));
    switch_on();
    again = load();
    if (again != loaded && again != saves + 2) {
        printf("power fails at byte %d of a save and at byte %d of the next: %d is loaded, then %d\n", first, second, loaded, again);
        failed = 1;
    }
}

static void cut_each(void) {
    int saves, at, second;
    for (saves = 0; saves <= 3; saves++)
        for (at = 1; at <= AREA_BYTES + BUFFER; at++)
            for (way = 0; way < WAYS; way++) {
                cut_save(saves, at);
                for (second = 1; second <= AREA_BYTES + BUFFER; second += 7)
                    cut_twice(saves, at, second);
            }
    way = 0;
}

/* The counter begins again after 65535 saves. */
static void wrap(void) {
    long number;
    begin(0);
    for (number = 1; number <= 65540; number++) {
        switch_on();
        expect("save of many", save((uint8_t)(number % 250 + 1)), FELOSUMAY_DONE);
        expect("load of many", load(), number % 250 + 1);
    }
}

/* ---- the bytes, and what is refused */

/* An image of 2 bytes, worked out by hand: the sum of the bytes behind the check is 0x177. */
static void bytes_of_image(void) {
    static const uint8_t payload[2] = {1, 2};
    static const uint8_t image[14] = {0xFF, 0xFF, 0xFE, 0x88, 'H', 'e', 'a', 'd', 0, 0, 0, 2, 1, 2};
    felosumay_image read = {7, 7, 7};
    begin(0);
    expect("save of 2 bytes", felosumay_images_save(&AREAS, KEY, payload, sizeof payload, buffer, sizeof buffer), FELOSUMAY_DONE);
    expect("the bytes of an image", memcmp(cells[0], image, sizeof image), 0);
    expect("the byte behind it", cells[0][sizeof image], 0xFF);
    expect("read", felosumay_images_read(KEY, image, sizeof image, &read), FELOSUMAY_DONE);
    expect("whether it is there", read.there, 1);
    expect("its length", read.length, 2);
    expect("a byte less", felosumay_images_read(KEY, image, sizeof image - 1, &read), FELOSUMAY_IMAGE_LENGTH);
    expect("whether that is there", read.there, 0);
    expect("another key", felosumay_images_read(OTHER_KEY, image, sizeof image, &read), FELOSUMAY_FOREIGN_IMAGE);
    expect("an erased area", felosumay_images_read(KEY, cells[1], AREA_BYTES, &read), FELOSUMAY_IMAGE_LENGTH);
    memcpy(cells[1], image, sizeof image);
    cells[1][12] = 3;
    expect("another byte", felosumay_images_read(KEY, cells[1], AREA_BYTES, &read), FELOSUMAY_ALTERED_IMAGE);
}

static void refusals(void) {
    static const uint8_t many[65536] = {0};
    static uint8_t room[65536 + FELOSUMAY_IMAGE_HEADER_BYTES];
    const felosumay_image none = {0, 0, 0};
    const uint8_t *payload = many;
    uint64_t count = 7;
    uint8_t area = 7;
    begin(2);
    changes = 0;
    expect("no room", felosumay_images_save(&AREAS, KEY, many, PAYLOAD + 1, buffer, sizeof buffer), FELOSUMAY_SHORT_IMAGE);
    expect("no room for a header", felosumay_images_save(&AREAS, KEY, NULL, 0, buffer, 11), FELOSUMAY_SHORT_IMAGE);
    expect("too long", felosumay_images_next(KEY, &none, &none, many, sizeof many, room, &area), FELOSUMAY_TOO_LONG);
    expect("the area then", area, 7);
    expect("no image", felosumay_images_newest(&none, &none, &area), FELOSUMAY_NO_IMAGE);
    expect("the area then", area, 7);
    expect("another key", felosumay_images_load(&AREAS, OTHER_KEY, buffer, sizeof buffer, &payload, &count), FELOSUMAY_NO_IMAGE);
    altered_read = reads + 3;
    expect("flash that reads in two ways", load(), -1);
    bytes_left = 0;
    expect("load without power", felosumay_images_load(&AREAS, KEY, buffer, sizeof buffer, &payload, &count), FELOSUMAY_FLASH_FAILED);
    expect("format without power", felosumay_images_format(&AREAS), FELOSUMAY_FLASH_FAILED);
    expect("the count then", (long)count, 7);
    expect("whether the payload stays", payload == many, 1);
    switch_on();
    expect("what is loaded after all that", load(), 2);
}

int main(void) {
    bytes_of_image();
    refusals();
    cut_each();
    wrap();
    return failed;
}
