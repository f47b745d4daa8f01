/* A person at the fixture's own menu: a line of text for each order, on a UART of its own. A display with keys calls the same. */
#include "board.h"
#include "fixture.h"
#include <felosumay_values.h>
#include <string.h>

enum { MOST_LETTERS = 48 };

static char line[MOST_LETTERS + 1];
static uint8_t letters;

void menu_say(const char *text) {
    board_menu_send((const uint8_t *)text, (uint16_t)strlen(text));
}

void menu_number(uint32_t number) {
    char digits[11] = {0};
    uint8_t at = sizeof digits - 1;
    do
        digits[--at] = (char)('0' + number % 10);
    while ((number /= 10) != 0);
    menu_say(digits + at);
}

static uint32_t number_of(const char *text) {
    uint32_t number = 0;
    for (; *text >= '0' && *text <= '9' && number < 100000; text++)
        number = 10 * number + (uint32_t)(*text - '0');
    return number;
}

/* A change that queues a message for the console, or is placed without one if there is no room. */
static felosumay_result changed(felosumay_result told, uint16_t pid, const uint8_t *data, uint64_t count) {
    values_changed();
    return told == FELOSUMAY_NO_ROOM ? felosumay_responder_place(&fixture, 0, pid, data, count) : told;
}

static felosumay_result set_start(const char *text) {
    const uint32_t start = number_of(text);
    const uint8_t data[2] = {(uint8_t)(start >> 8), (uint8_t)start};
    if (start > 512)
        return FELOSUMAY_OUT_OF_RANGE;
    return changed(felosumay_responder_change_start(&fixture, (uint16_t)start), FELOSUMAY_PID_DMX_START_ADDRESS, data, 2);
}

static felosumay_result set_mode(const char *text) {
    const uint32_t mode = number_of(text);
    const uint8_t data[1] = {(uint8_t)mode};
    if (mode > 255)
        return FELOSUMAY_OUT_OF_RANGE;
    return changed(felosumay_responder_change_personality(&fixture, data[0]), FELOSUMAY_PID_DMX_PERSONALITY, data, 1);
}

static felosumay_result set_label(const char *text) {
    const uint8_t *const label = (const uint8_t *)text;
    return changed(felosumay_responder_change_label(&fixture, label, strlen(text)), FELOSUMAY_PID_DEVICE_LABEL, label, strlen(text));
}

/* The fixture reports a problem by itself, such as a blocked fan. */
static felosumay_result warn(const char *text) {
    uint8_t kept = 0;
    return felosumay_responder_note(&fixture, 0, FELOSUMAY_STATUS_WARNING, TEST_FAILED, (uint16_t)number_of(text), 0, &kept);
}

static felosumay_result hurry(const char *text) {
    const uint32_t times = number_of(text);
    if (times == 0 || times > 10000)
        return FELOSUMAY_OUT_OF_RANGE;
    jobs_hurry((uint16_t)times);
    return FELOSUMAY_DONE;
}

static void show_number(const char *name, uint32_t number) {
    menu_say(name);
    menu_number(number);
}

static felosumay_result show(const char *text) {
    char label[FELOSUMAY_TEXT_ROOM] = "";
    uint16_t start = 0, mode_of = 0; /* the second: which personality, and of how many */
    uint32_t cycles = 0;
    uint64_t waiting = 0;
    (void)text;
    felosumay_get_text(&fixture, 0, FELOSUMAY_PID_DEVICE_LABEL, label);
    felosumay_get_u16(&fixture, 0, FELOSUMAY_PID_DMX_START_ADDRESS, &start);
    felosumay_get_u16(&fixture, 0, FELOSUMAY_PID_DMX_PERSONALITY, &mode_of);
    felosumay_get_u32(&fixture, 0, FELOSUMAY_PID_DEVICE_POWER_CYCLES, &cycles);
    felosumay_responder_waiting(&fixture, &waiting);
    menu_say("label ");
    menu_say(label);
    show_number(", start ", start);
    show_number(", mode ", mode_of >> 8);
    show_number(", power cycles ", cycles);
    show_number(", messages ", (uint32_t)waiting);
    menu_say(", levels");
    for (uint16_t slot = 0; slot < SLOTS; slot++)
        show_number(" ", fixture_level_of(slot));
    menu_say("\r\n");
    return FELOSUMAY_DONE;
}

static felosumay_result reset(const char *text) {
    (void)text;
    board_reset();
}

static felosumay_result help(const char *text);

static const struct {
    const char *word, *told;
    felosumay_result (*order)(const char *text);
} ORDERS[] = {
    {"help", "", help},
    {"show", "", show},
    {"start", " N: the start address, 1 to 512", set_start},
    {"mode", " N: the personality, 1 or 2", set_mode},
    {"label", " TEXT: at most 32 letters", set_label},
    {"warn", " N: a status entry, which a console collects", warn},
    {"hurry", " N: slow commands take an N-th of their time, 1 to 10000", hurry},
    {"reset", "", reset},
};

static felosumay_result help(const char *text) {
    (void)text;
    for (uint8_t i = 0; i < sizeof ORDERS / sizeof *ORDERS; i++) {
        menu_say(ORDERS[i].word);
        menu_say(ORDERS[i].told);
        menu_say("\r\n");
    }
    return FELOSUMAY_DONE;
}

/* A whole line: a word, and after a space what the order is about. */
static void carry_out(void) {
    char *const blank = strchr(line, ' ');
    const char *const about = blank ? blank + 1 : "";
    if (blank)
        *blank = 0;
    for (uint8_t i = 0; i < sizeof ORDERS / sizeof *ORDERS; i++)
        if (strcmp(line, ORDERS[i].word) == 0) {
            const felosumay_result result = ORDERS[i].order(about);
            menu_say(result == FELOSUMAY_DONE ? "done\r\n" : "refused: ");
            if (result != FELOSUMAY_DONE) {
                menu_say(felosumay_status_name(result));
                menu_say("\r\n");
            }
            return;
        }
    menu_say("what? try help\r\n");
}

void menu_hear(uint8_t byte) {
    if (byte == '\r' || byte == '\n') {
        line[letters] = 0;
        if (letters != 0)
            carry_out();
        letters = 0;
    } else if (letters < MOST_LETTERS) {
        line[letters++] = (char)byte;
    }
}
