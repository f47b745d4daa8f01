/* Saved values in two areas of flash. A save replaces the older image, so if power fails at any moment, either the old values are there
 * or the new ones, whole. These functions are C over `felosumay_images_read`, `felosumay_images_newest` and `felosumay_images_next` of
 * felosumay.h, and over three functions of the program's; nothing else is called, and nothing is kept except what the flash holds.
 * docs/SAVED.md says what is proved, what this file does unproved, and what is assumed of the flash. firmware/values.c is a program that
 * uses it.
 *
 * A payload is any bytes, such as what `felosumay_responder_save` writes. `key` is a number of the program's, which says what kind of
 * payload it is: images with another key count as none. `buffer` has `size` bytes, which is FELOSUMAY_IMAGE_BYTES of the longest payload,
 * and the same in each call. What it holds is overwritten. */
#ifndef FELOSUMAY_IMAGES_H
#define FELOSUMAY_IMAGES_H
#include "felosumay.h"
#include <stdbool.h>
#include <string.h>

#ifdef __cplusplus
extern "C" {
#endif

/* How many bytes an image of a payload with so many bytes has. */
#define FELOSUMAY_IMAGE_BYTES(payload_bytes) (FELOSUMAY_IMAGE_HEADER_BYTES + (uint64_t)(payload_bytes))

/* Two areas of flash, 0 and 1, which share no sector. Each has at least as many bytes as the buffer. A function returns false if it
 * failed; what it has done is permanent when it returns true. `context` is passed to each of them, and may be NULL. */
typedef struct {
    bool (*read)(void *context, uint8_t area, uint8_t *bytes, uint64_t count); /* reads the bytes at the front of an area */
    bool (*erase)(void *context, uint8_t area);                                /* makes each byte of an area FF */
    bool (*write)(void *context, uint8_t area, const uint8_t *bytes, uint64_t count); /* writes the front of an erased area */
    void *context;
} felosumay_areas;

/* Reads an area, and says what it holds. FLASH_FAILED. */
static inline felosumay_result felosumay_images_look(const felosumay_areas *areas, uint8_t area, uint32_t key, uint8_t *buffer,
                                                     uint64_t size, felosumay_image *image) {
    if (!areas->read(areas->context, area, buffer, size))
        return FELOSUMAY_FLASH_FAILED;
    felosumay_images_read(key, buffer, size, image);
    return FELOSUMAY_DONE;
}

/* Reads both areas. FLASH_FAILED. */
static inline felosumay_result felosumay_images_look_at_both(const felosumay_areas *areas, uint32_t key, uint8_t *buffer, uint64_t size,
                                                             felosumay_image images[2]) {
    const felosumay_result result = felosumay_images_look(areas, 0, key, buffer, size, &images[0]);
    return result == FELOSUMAY_DONE ? felosumay_images_look(areas, 1, key, buffer, size, &images[1]) : result;
}

/* Erases both areas, so that nothing is loaded. Erase flash that may hold anything once in this way, before its first save: then a save
 * that is interrupted keeps its promise. FLASH_FAILED: call it again. */
static inline felosumay_result felosumay_images_format(const felosumay_areas *areas) {
    return areas->erase(areas->context, 0) && areas->erase(areas->context, 1) ? FELOSUMAY_DONE : FELOSUMAY_FLASH_FAILED;
}

/* Loads the payload that was saved last: it is the `count` bytes of the buffer at `payload`. FLASH_FAILED; NO_IMAGE if nothing of this key
 * was saved. `payload` and `count` stay then. */
static inline felosumay_result felosumay_images_load(const felosumay_areas *areas, uint32_t key, uint8_t *buffer, uint64_t size,
                                                     const uint8_t **payload, uint64_t *count) {
    felosumay_image images[2];
    uint8_t area = 0;
    felosumay_result result = felosumay_images_look_at_both(areas, key, buffer, size, images);
    if (result == FELOSUMAY_DONE)
        result = felosumay_images_newest(&images[0], &images[1], &area);
    if (result == FELOSUMAY_DONE)
        result = felosumay_images_look(areas, area, key, buffer, size, &images[area]);
    if (result != FELOSUMAY_DONE)
        return result;
    if (!images[area].there) /* what was an image a moment ago */
        return FELOSUMAY_FLASH_FAILED;
    *payload = buffer + FELOSUMAY_IMAGE_HEADER_BYTES;
    *count = images[area].length;
    return FELOSUMAY_DONE;
}

/* Saves a payload, which lies outside the buffer: its image takes the place of the older one, and is what the buffer holds when it is DONE.
 * SHORT_IMAGE if the buffer has no room for the image, and TOO_LONG if the payload has more than 65535 bytes: nothing is erased or written
 * then. FLASH_FAILED: what is loaded is the old payload or the new, whole; save again. */
static inline felosumay_result felosumay_images_save(const felosumay_areas *areas, uint32_t key, const uint8_t *payload, uint64_t length,
                                                     uint8_t *buffer, uint64_t size) {
    felosumay_image images[2];
    uint8_t area = 0;
    felosumay_result result;
    if (size < FELOSUMAY_IMAGE_HEADER_BYTES || length > size - FELOSUMAY_IMAGE_HEADER_BYTES)
        return FELOSUMAY_SHORT_IMAGE;
    result = felosumay_images_look_at_both(areas, key, buffer, size, images);
    if (result == FELOSUMAY_DONE)
        result = felosumay_images_next(key, &images[0], &images[1], payload, length, buffer, &area);
    if (result != FELOSUMAY_DONE)
        return result;
    memcpy(buffer + FELOSUMAY_IMAGE_HEADER_BYTES, felosumay_bytes(payload, length), (size_t)length);
    if (!areas->erase(areas->context, area) || !areas->write(areas->context, area, buffer, FELOSUMAY_IMAGE_BYTES(length)))
        return FELOSUMAY_FLASH_FAILED;
    return FELOSUMAY_DONE;
}

#ifdef __cplusplus
}
#endif
#endif
