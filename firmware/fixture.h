/* The fixture, and its parts: what a maker writes. */
#ifndef FIXTURE_H
#define FIXTURE_H
#include <felosumay.h>
#include <felosumay_names.h>
#include <stdbool.h>

enum { MAKER = 0x7FF0, DEVICE = 1, CELLS = 2, SLOTS = 5, SENSORS = 2 };
/* How many results of slow commands and messages have room, and how many status entries. */
enum { QUEUE_SIZE = 8, ENTRIES = 64 };
/* The status IDs. */
enum { LAMP_FAILED = 0x8001, TEST_FAILED = 0x8002 };

/* profile.c */
extern const felosumay_profile PROFILE;

/* fixture.c: the responder. */
extern felosumay_responder fixture;

/* What comes on the line: a packet of RDM, to which the number of bytes of a reply is returned, 0 if there is none; and the level of a
 * slot of the line, 1 to 512. */
uint16_t fixture_hear(const uint8_t *packet, uint16_t count, uint8_t reply[FELOSUMAY_FRAME_BYTES]);
void fixture_level(uint16_t slot, uint8_t level);
/* The level that a slot of the fixture's own has, from 0. */
uint8_t fixture_level_of(uint16_t slot);

/* jobs.c: the work of slow commands, which takes real time. */
void jobs_begin(const felosumay_job *job);
void jobs_report(void);
/* The work takes so much less time: for tests. */
void jobs_hurry(uint16_t times);

/* values.c: the values that outlive power-off. */
void values_load(void);
void values_changed(void);
void values_keep(void);

/* menu.c: a person at the fixture. */
void menu_hear(uint8_t byte);
void menu_say(const char *text);
void menu_number(uint32_t number);

/* enttec.c: the line, as a computer has it at a serial port. */
void enttec_hear(uint8_t byte);

#endif
