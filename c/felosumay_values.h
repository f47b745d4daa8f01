/* Values as numbers and texts: for firmware that reads and sets single values of a responder, without a buffer of 231 bytes of its own and
 * without putting bytes in order by hand. These functions are C over `felosumay_responder_get` and `felosumay_responder_place` of
 * felosumay.h, which say what is read and what may be placed; nothing else of the library is called.
 *
 * `sub` is 0 for the root, or a sub-device, 1 to 512. Texts have up to 32 bytes (E1.20 section 10.5) and end with 0 here. */
#ifndef FELOSUMAY_VALUES_H
#define FELOSUMAY_VALUES_H
#include "felosumay.h"
#include <string.h>

#ifdef __cplusplus
extern "C" {
#endif

enum { FELOSUMAY_TEXT_ROOM = 33 };

/* A GET without data, whose value of at most `bytes` bytes is returned as a number. */
static inline felosumay_result felosumay_get_number(const felosumay_responder *responder, uint16_t sub, uint16_t pid, uint64_t bytes,
                                                    uint32_t *number) {
    uint8_t value[FELOSUMAY_VALUE_BYTES];
    uint64_t count = 0, i;
    uint16_t reason = 0;
    uint32_t read = 0;
    const felosumay_result result = felosumay_responder_get(responder, sub, pid, NULL, 0, value, &count, &reason);
    if (result != FELOSUMAY_DONE)
        return result;
    if (count != bytes)
        return FELOSUMAY_BAD_LENGTH;
    for (i = 0; i < count; i++)
        read = read << 8 | value[i];
    *number = read;
    return FELOSUMAY_DONE;
}

/* Places a number in so many bytes, the most significant one first. */
static inline felosumay_result felosumay_place_number(felosumay_responder *responder, uint16_t sub, uint16_t pid, uint64_t bytes,
                                                      uint32_t number) {
    uint8_t value[4];
    uint64_t i;
    for (i = 0; i < bytes; i++)
        value[i] = (uint8_t)(number >> 8 * (bytes - 1 - i));
    return felosumay_responder_place(responder, sub, pid, value, bytes);
}

/* Read a parameter of one, two or four bytes. As `felosumay_responder_get`, and then BAD_LENGTH if the value has another length. If it
 * isn't DONE, `value` is unchanged. */
static inline felosumay_result felosumay_get_u8(const felosumay_responder *responder, uint16_t sub, uint16_t pid, uint8_t *value) {
    uint32_t number = 0;
    const felosumay_result result = felosumay_get_number(responder, sub, pid, 1, &number);
    if (result == FELOSUMAY_DONE)
        *value = (uint8_t)number;
    return result;
}

static inline felosumay_result felosumay_get_u16(const felosumay_responder *responder, uint16_t sub, uint16_t pid, uint16_t *value) {
    uint32_t number = 0;
    const felosumay_result result = felosumay_get_number(responder, sub, pid, 2, &number);
    if (result == FELOSUMAY_DONE)
        *value = (uint16_t)number;
    return result;
}

static inline felosumay_result felosumay_get_u32(const felosumay_responder *responder, uint16_t sub, uint16_t pid, uint32_t *value) {
    return felosumay_get_number(responder, sub, pid, 4, value);
}

/* Reads a text, such as DEVICE_LABEL, and ends it with 0. As `felosumay_responder_get`, and then BAD_LENGTH if the value is longer than a
 * text. If it isn't DONE, `text` stays. */
static inline felosumay_result felosumay_get_text(const felosumay_responder *responder, uint16_t sub, uint16_t pid,
                                                  char text[FELOSUMAY_TEXT_ROOM]) {
    uint8_t value[FELOSUMAY_VALUE_BYTES];
    uint64_t count = 0;
    uint16_t reason = 0;
    const felosumay_result result = felosumay_responder_get(responder, sub, pid, NULL, 0, value, &count, &reason);
    if (result != FELOSUMAY_DONE)
        return result;
    if (count >= FELOSUMAY_TEXT_ROOM)
        return FELOSUMAY_BAD_LENGTH;
    memcpy(text, value, (size_t)count);
    text[count] = '\0';
    return FELOSUMAY_DONE;
}

/* Place a value of one, two or four bytes, or a text that ends with 0. As `felosumay_responder_place`. */
static inline felosumay_result felosumay_place_u8(felosumay_responder *responder, uint16_t sub, uint16_t pid, uint8_t value) {
    return felosumay_place_number(responder, sub, pid, 1, value);
}

static inline felosumay_result felosumay_place_u16(felosumay_responder *responder, uint16_t sub, uint16_t pid, uint16_t value) {
    return felosumay_place_number(responder, sub, pid, 2, value);
}

static inline felosumay_result felosumay_place_u32(felosumay_responder *responder, uint16_t sub, uint16_t pid, uint32_t value) {
    return felosumay_place_number(responder, sub, pid, 4, value);
}

static inline felosumay_result felosumay_place_text(felosumay_responder *responder, uint16_t sub, uint16_t pid, const char *text) {
    return felosumay_responder_place(responder, sub, pid, (const uint8_t *)text, strlen(text));
}

/* A sensor of the root reads this now: the reading is its present value, and its lowest or highest one if it is beyond them; the recorded
 * value stays (E1.20 section 10.7.2). For a sensor that is read at once (`at_once`): it is NO_VALUE for one that a job measures, whose
 * report says what was read, and REFUSED if there is no such sensor. ABSENT. Nothing changes unless it is DONE. */
static inline felosumay_result felosumay_sense(felosumay_responder *responder, uint8_t sensor, int16_t reading) {
    enum { SENSOR_VALUE = 0x0201, PRESENT = 1, LOWEST = 3, HIGHEST = 5 };
    uint8_t value[FELOSUMAY_VALUE_BYTES];
    uint64_t count = 0;
    uint16_t reason = 0;
    const uint8_t high = (uint8_t)((uint16_t)reading >> 8), low = (uint8_t)(uint16_t)reading;
    const felosumay_result result = felosumay_responder_get(responder, 0, SENSOR_VALUE, &sensor, 1, value, &count, &reason);
    if (result != FELOSUMAY_DONE)
        return result;
    value[PRESENT] = high;
    value[PRESENT + 1] = low;
    if (reading < (int16_t)(uint16_t)(value[LOWEST] << 8 | value[LOWEST + 1])) {
        value[LOWEST] = high;
        value[LOWEST + 1] = low;
    }
    if (reading > (int16_t)(uint16_t)(value[HIGHEST] << 8 | value[HIGHEST + 1])) {
        value[HIGHEST] = high;
        value[HIGHEST + 1] = low;
    }
    return felosumay_responder_place(responder, 0, SENSOR_VALUE, value, count);
}

#ifdef __cplusplus
}
#endif

#endif
