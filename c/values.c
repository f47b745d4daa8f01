/* A firmware reads and sets single values of its fixture: numbers of one, two and four bytes, texts, and what its sensors read
 * (felosumay_values.h). values.txt has what it prints. */
#include "felosumay.h"
#include "felosumay_names.h"
#include "felosumay_values.h"
#include <stdio.h>

enum { MAKER = 0x7FF0, FIXTURE = 1, QUEUE_SIZE = 4, FIRST = 0, MEASURED_BY_A_JOB = 1, MISSING = 2 };

static void show(const char *what, felosumay_result result) {
    printf("%s: %s\n", what, felosumay_status_name(result));
}

static void numbers(felosumay_responder *fixture) {
    uint8_t level = 7;
    uint16_t address = 7;
    uint32_t hours = 7;
    show("place hours", felosumay_place_u32(fixture, 0, FELOSUMAY_PID_DEVICE_HOURS, 70000));
    show("get hours", felosumay_get_u32(fixture, 0, FELOSUMAY_PID_DEVICE_HOURS, &hours));
    show("place address", felosumay_place_u16(fixture, 0, FELOSUMAY_PID_DMX_START_ADDRESS, 300));
    show("get address", felosumay_get_u16(fixture, 0, FELOSUMAY_PID_DMX_START_ADDRESS, &address));
    show("place display level", felosumay_place_u8(fixture, 0, FELOSUMAY_PID_DISPLAY_LEVEL, 200));
    show("get display level", felosumay_get_u8(fixture, 0, FELOSUMAY_PID_DISPLAY_LEVEL, &level));
    printf("hours %lu, address %u, display level %u\n", (unsigned long)hours, address, level);
    show("place address 0", felosumay_place_u16(fixture, 0, FELOSUMAY_PID_DMX_START_ADDRESS, 0));
    show("place address in one byte", felosumay_place_u8(fixture, 0, FELOSUMAY_PID_DMX_START_ADDRESS, 1));
    show("get address as one byte", felosumay_get_u8(fixture, 0, FELOSUMAY_PID_DMX_START_ADDRESS, &level));
    show("get of an unknown parameter", felosumay_get_u8(fixture, 0, 0x7777, &level));
    printf("display level %u\n", level);
}

static void texts(felosumay_responder *fixture) {
    char label[FELOSUMAY_TEXT_ROOM] = "as it was";
    show("get label of a missing sub-device", felosumay_get_text(fixture, 9, FELOSUMAY_PID_DEVICE_LABEL, label));
    printf("label \"%s\"\n", label);
    show("place label", felosumay_place_text(fixture, 0, FELOSUMAY_PID_DEVICE_LABEL, "Truss 2, left"));
    show("get label", felosumay_get_text(fixture, 0, FELOSUMAY_PID_DEVICE_LABEL, label));
    printf("label \"%s\"\n", label);
}

/* What a controller reads of a sensor: its present, lowest and highest value. */
static void print_sensor(const felosumay_responder *fixture, uint8_t sensor) {
    uint8_t value[FELOSUMAY_VALUE_BYTES];
    uint64_t count = 0;
    uint16_t reason = 0;
    int field;
    if (felosumay_responder_get(fixture, 0, FELOSUMAY_PID_SENSOR_VALUE, &sensor, 1, value, &count, &reason) != FELOSUMAY_DONE)
        return;
    for (field = 1; field < 7; field += 2)
        printf("%s%d", field == 1 ? "sensor: " : ", ", (int16_t)(uint16_t)(value[field] << 8 | value[field + 1]));
    printf("\n");
}

static void sensors(felosumay_responder *fixture) {
    show("sense 25", felosumay_sense(fixture, FIRST, 25));
    print_sensor(fixture, FIRST);
    show("sense -300", felosumay_sense(fixture, FIRST, -300));
    print_sensor(fixture, FIRST);
    show("sense 7", felosumay_sense(fixture, FIRST, 7));
    print_sensor(fixture, FIRST);
    show("sense of a job's sensor", felosumay_sense(fixture, MEASURED_BY_A_JOB, 7));
    show("sense of a missing sensor", felosumay_sense(fixture, MISSING, 7));
}

int main(void) {
    static felosumay_responder fixture;
    static felosumay_profile profile;
    felosumay_result result;
    profile.root.personality_count = profile.sub.personality_count = 1;
    profile.root.personalities[0].footprint = profile.sub.personalities[0].footprint = 1;
    profile.root.start = profile.sub.start = 1;
    profile.slot_count = 1;
    profile.sensor_count = 2;
    profile.language_count = 1;
    profile.languages[0] = 0x656E;
    profile.sensors[0].support = profile.sensors[1].support = 3;
    profile.sensors[0].at_once = 1;
    result = felosumay_responder_new(&fixture, MAKER, FIXTURE, &profile, QUEUE_SIZE);
    if (result != FELOSUMAY_DONE) {
        printf("status %u\n", result);
        return result;
    }
    numbers(&fixture);
    texts(&fixture);
    sensors(&fixture);
    felosumay_responder_free(&fixture);
    return 0;
}
