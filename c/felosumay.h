/* Felosumay: a responder, a collector and discovery for Remote Device Management (ANSI E1.20-2010).
 *
 * A handle starts as {0}. It belongs to the library from then on: never copy it, and never look behind its pointer or write it. Pointers
 * must be valid, and no two of one call may overlap; the bytes that a call reads or writes may be NULL if their length is 0. Bytes that
 * it only reads may be constant, and in another call at the same time. Each handle may be in one call at a time, on any thread, so a
 * mutex may hand a handle from thread to thread; this includes const handles, which a call leaves unchanged. These are the only
 * preconditions: everything else is tested and reported in the result. If a call isn't DONE, what its other pointers point to is
 * meaningless, unless stated otherwise.
 *
 * The calls: a device receives bytes with `step`, and reports a finished job with `arrive`; a controller receives bytes with
 * `hear`, and reports a timeout with `over`.
 *
 * felosumay_names.h has the numbers of the standard by name. felosumay.hpp has the same library for C++.
 * docs/PORTS.md lists the processors that the library runs on. This header is the same for all of them. */
#ifndef FELOSUMAY_H
#define FELOSUMAY_H
#include <stddef.h>
#include <stdint.h>

/* Each struct has the same layout and size on every target, whether its pointers have 32 or 64 bits: counts are 64-bit numbers,
 * and a pointer takes 8 bytes. The assertions at the end stop a compiler that lays them out otherwise. */
#if defined __cplusplus
#define FELOSUMAY_WIDE alignas(8)
#define FELOSUMAY_ASSERT(fact) static_assert(fact, #fact)
#elif defined __GNUC__
#define FELOSUMAY_WIDE __attribute__((aligned(8)))
#else
#define FELOSUMAY_WIDE _Alignas(8)
#endif
#if defined FELOSUMAY_ASSERT
#elif defined __STDC_VERSION__ && __STDC_VERSION__ >= 201112L
#define FELOSUMAY_ASSERT(fact) _Static_assert(fact, #fact)
#else
#define FELOSUMAY_ASSERT(fact) extern char felosumay_asserted[(fact) ? 1 : -1]
#endif

/* The version of this header. felosumay_version() is that of the library. */
#define FELOSUMAY_VERSION "0.1.0"
#define FELOSUMAY_VERSION_MAJOR 0
#define FELOSUMAY_VERSION_MINOR 1
#define FELOSUMAY_VERSION_PATCH 0

#ifdef __cplusplus
extern "C" {
#endif

typedef struct { uint64_t at; } felosumay_responder;
typedef struct { uint64_t at; } felosumay_collector;
typedef struct { uint64_t at; } felosumay_search;

/* The result of a call. */
typedef uint8_t felosumay_result;
enum {
    FELOSUMAY_DONE = 0,          /* it was carried out */
    FELOSUMAY_OUT_OF_MEMORY = 1, /* out of memory */
    FELOSUMAY_BAD_PROFILE = 2,   /* the profile breaks one of the rules listed below it */
    FELOSUMAY_BAD_SIZE = 3,      /* the size of the queue, or the number of status entries, isn't 1 to 1,024 */
    FELOSUMAY_BAD_UID = 4,       /* the UID addresses more than one device */
    FELOSUMAY_ABSENT = 5,        /* the handle holds nothing that the call is for */
    FELOSUMAY_ASTRAY = 6,        /* the job isn't the oldest one of its worker, or its outcome doesn't fit */
    FELOSUMAY_UNKNOWN = 7,       /* an argument has an undefined value */
    FELOSUMAY_REFUSED = 8,       /* the command is rejected, and a reason is given */
    FELOSUMAY_NO_VALUE = 9,      /* the command doesn't answer with a value */
    FELOSUMAY_RESERVED = 10,     /* QUEUED_MESSAGE and STATUS_MESSAGES are the collector's own */
    FELOSUMAY_BUSY = 11,         /* a transaction is open */
    FELOSUMAY_TOO_LONG = 12,     /* there are more data than a frame can carry, or a label is longer than 32 bytes */
    FELOSUMAY_NO_MORE = 13,      /* there are no more */
    FELOSUMAY_NO_ROOM = 14,      /* there is no room for one more message */
    FELOSUMAY_OUT_OF_RANGE = 15, /* the value is out of range, or there is no such sensor */
    FELOSUMAY_LIMIT = 16,        /* the search reached its limit of transactions */
    FELOSUMAY_NO_DEVICE = 17,    /* there is no such sub-device */
    FELOSUMAY_NOT_STORED = 18,   /* the device stores no value of the parameter */
    FELOSUMAY_BAD_LENGTH = 19,   /* the data don't have the length of the value */
    FELOSUMAY_SHORT_IMAGE = 20,  /* there is no room for the image */
    FELOSUMAY_IMAGE_LENGTH = 21, /* the image is truncated, or has another length than it says */
    FELOSUMAY_ALTERED_IMAGE = 22, /* the image is altered, or isn't an image */
    FELOSUMAY_FOREIGN_IMAGE = 23, /* the image is of another manufacturer or model, or of another key */
    FELOSUMAY_NO_REPLY = 24,      /* the bytes aren't a response */
    FELOSUMAY_IN_USE = 25,        /* another responder occupies the memory */
    FELOSUMAY_UNALIGNED = 26,     /* the memory doesn't begin at a multiple of 16 */
    FELOSUMAY_SHORT_MEMORY = 27,  /* there is too little memory for the responder */
    FELOSUMAY_NO_IMAGE = 28,      /* neither area holds an image of the key */
    FELOSUMAY_FLASH_FAILED = 29   /* a function of the program's areas returned false (felosumay_images.h) */
};

enum {
    FELOSUMAY_FRAME_BYTES = 257, /* the room that a request or a reply needs */
    FELOSUMAY_VALUE_BYTES = 231  /* the room that parameter data need */
};

/* Command classes. */
enum { FELOSUMAY_DISCOVERY = 0x10, FELOSUMAY_GET = 0x20, FELOSUMAY_SET = 0x30 };

/* ---- what a responder is made from: a count larger than its array means the whole array */

typedef struct {
    uint8_t count;     /* how many bytes the text has: 0 to 32 */
    uint8_t bytes[32]; /* any bytes, normally ASCII; those after the text are ignored */
} felosumay_text;

/* felosumay_text name = FELOSUMAY_TEXT("Moving head"); at most 31 letters */
#define FELOSUMAY_TEXT(letters) { sizeof(letters) - 1, letters }

typedef struct {
    uint16_t footprint; /* how many DMX512 slots it takes: at most 512, and at the root at most slot_count + more_slots */
    felosumay_text name;
} felosumay_personality;

/* What a DMX512 slot is for (E1.20 sections 10.6.4 to 10.6.6). */
typedef struct {
    uint16_t label; /* the label of a primary slot, FELOSUMAY_SD_..; for a secondary slot, its primary slot, from 0 */
    uint8_t kind;   /* the slot type, FELOSUMAY_ST_.. */
    uint8_t value;  /* the DMX512 level if none is received: 0 to 255 */
    felosumay_text name;
} felosumay_slot;

/* A personality of the root that has slots of its own, or those of another one (sections 10.6.1 and 10.6.4). */
typedef struct {
    uint16_t footprint;  /* how many DMX512 slots it takes: 0 to 512 */
    uint16_t first_slot; /* which of `mode_slots` is the first of its own, from 0 */
    uint8_t slot_count;  /* how many of these are its own, from that one on: 0 to 46; two modes may have the same */
    uint8_t slots_of;    /* the number of the personality whose slots it has, from 1; 0 if it has its own */
    felosumay_text name;
} felosumay_mode;

/* What a sensor measures (sections 10.7.1 and 10.7.2). Its values are in `unit`, times what `prefix` stands for. */
typedef struct {
    int16_t low; /* the least and the greatest value that it can give; readings aren't checked against them */
    int16_t high;
    int16_t normal_low; /* the least and the greatest value in normal use */
    int16_t normal_high;
    uint8_t kind;    /* the sensor type, FELOSUMAY_SENS_.. */
    uint8_t unit;    /* FELOSUMAY_UNITS_.. */
    uint8_t prefix;  /* FELOSUMAY_PREFIX_.. */
    uint8_t support; /* bit 0: values can be recorded; bit 1: the lowest and the highest are kept */
    felosumay_text name;
    uint8_t at_once; /* 1 if SENSOR_VALUE is answered at once, with the value that was placed last; 0 if a job measures */
} felosumay_sensor;

typedef struct {
    uint8_t number; /* 1 to 254, and no two alike */
    felosumay_text name;
} felosumay_self_test;

typedef struct {
    uint16_t id; /* the status ID: those of a manufacturer are 0x8000 to 0xFFDF; no two alike */
    felosumay_text text;
} felosumay_status_text;

/* Data types (table A-15), and the commands of a parameter (table A-16). */
enum {
    FELOSUMAY_DS_NOT_DEFINED = 0x00, /* slots of a form that is described elsewhere */
    FELOSUMAY_DS_BIT_FIELD = 0x01,
    FELOSUMAY_DS_ASCII = 0x02, /* a text of at most 32 bytes */
    FELOSUMAY_DS_UNSIGNED_BYTE = 0x03,
    FELOSUMAY_DS_SIGNED_BYTE = 0x04,
    FELOSUMAY_DS_UNSIGNED_WORD = 0x05,
    FELOSUMAY_DS_SIGNED_WORD = 0x06,
    FELOSUMAY_DS_UNSIGNED_DWORD = 0x07,
    FELOSUMAY_DS_SIGNED_DWORD = 0x08,
    /* Not in table A-15: for parameters of E1.37-1, which PARAMETER_DESCRIPTION doesn't describe. */
    FELOSUMAY_DS_CHOICE = 0xF0, /* the number of an item, from low (1) to high; the GET reply has high after it */
    FELOSUMAY_DS_NAMES = 0xF1,  /* no data: the names of the items of the choice with the PID before this one */
    FELOSUMAY_DS_RATES = 0xF2,  /* the same, each with a frequency */
    FELOSUMAY_DS_SCENES = 0xF3, /* the times of scenes 1 to high; those up to low can only be read (PRESET_STATUS); `start` is empty */
    FELOSUMAY_DS_LOCK = 0xF4,   /* the number of a lock state, 0 to high; a SET needs the PIN (LOCK_STATE); low is 0 */
    FELOSUMAY_DS_PIN = 0xF5,    /* that PIN: two bytes, from low, which is 0, to high, which is 9999 (LOCK_PIN) */
    FELOSUMAY_DS_BLOCK = 0xF6   /* no data of its own: the start addresses of all sub-devices (DMX_BLOCK_ADDRESS); `start` is empty */
};
enum {
    FELOSUMAY_CC_GET = 0x01,
    FELOSUMAY_CC_SET = 0x02, /* an order: `step` reports each as a change, and `own_value` reads its data */
    FELOSUMAY_CC_GET_SET = 0x03,
    FELOSUMAY_CC_GET_CLEAR = 0xF0 /* not in table A-16: a SET has no data, and clears it to zero (COMMS_STATUS) */
};

/* One of the numbers in the slots of a parameter, one after another, the most significant byte first. */
typedef struct {
    uint32_t low; /* the least and the greatest number that it can be */
    uint32_t high;
    uint32_t also; /* one more number that it can be, such as 0xFFFF for a time without end; `low` again if there is none */
    uint8_t slots; /* 1, 2 or 4 */
} felosumay_field;

/* The name of an item of a choice. */
typedef struct {
    uint32_t hertz; /* the frequency, if it is one */
    uint16_t pid;   /* that of the parameter with the names, of kind DS_NAMES or DS_RATES */
    uint8_t number; /* from 1 */
    felosumay_text name;
} felosumay_choice;

/* A parameter that no controller can set in a lock state; the firmware still can. */
typedef struct {
    uint16_t pid;  /* a parameter of the table or of the maker's own; one with a slow SET can't be locked */
    uint8_t state; /* the state of LOCK_STATE, from 1 */
} felosumay_lock;

/* A parameter of the maker's own, at the root (section 10.4.2). If its PID is 0x8000 to 0xFFDF, PARAMETER_DESCRIPTION describes it with
 * all of these except `resets`. Its values are in `unit`, times what `prefix` stands for. */
typedef struct {
    int64_t low; /* the least and the greatest number that it accepts, both of its type; ignored if its data aren't a number */
    int64_t high;
    uint16_t pid;     /* 0x8000 to 0xFFDF, or one of a standard that docs/PARAMETERS.md lists; no two alike */
    uint8_t kind;     /* the type of its data, FELOSUMAY_DS_.. */
    uint8_t commands; /* FELOSUMAY_CC_.. */
    uint8_t size;     /* how many slots DS_BIT_FIELD or DS_NOT_DEFINED has: 0 to 32; ignored for other types */
    uint8_t unit;     /* FELOSUMAY_UNITS_.. */
    uint8_t prefix;   /* FELOSUMAY_PREFIX_.. */
    uint8_t resets;   /* 1 if FACTORY_DEFAULTS resets it, such as a setting; 0 if not, such as a counter */
    felosumay_text start; /* its first value: the data of a SET, in its range, the most significant byte first */
    felosumay_text name;
    uint8_t field_count;       /* how many numbers the slots of DS_NOT_DEFINED hold: 0 to 8; 0 if their form is described elsewhere */
    felosumay_field fields[8]; /* they take all of its slots */
} felosumay_parameter;

/* For an initializer: the last two fields of a parameter whose slots aren't numbers. */
#define FELOSUMAY_NO_FIELDS 0, {{0, 0, 0, 0}}

typedef struct {
    uint32_t software; /* the software version ID: any number */
    uint16_t model;    /* the model ID: any number of the maker's */
    uint16_t category; /* FELOSUMAY_PRODUCT_CATEGORY_.. */
    uint16_t start;    /* the DMX512 start address: 1 to 512 */
    felosumay_text model_text;
    felosumay_text maker_text;
    felosumay_text label; /* its first label */
    felosumay_text software_text;
    uint8_t personality_count;              /* 1 to 8 */
    felosumay_personality personalities[8]; /* the first is number 1, and active at first */
} felosumay_unit;

/* How long slow commands take, in tenths of a second: the estimate of ACK_TIMER (section 6.3.3). 0 stands for the usual time. */
typedef struct {
    uint16_t lamp;      /* a SET of LAMP_STATE: usually 50 */
    uint16_t power;     /* a SET of POWER_STATE: usually 20 */
    uint16_t self_test; /* a SET of PERFORM_SELFTEST: usually 100 */
    uint16_t sensor;    /* a GET of SENSOR_VALUE, if a job measures: usually 5 */
} felosumay_estimates;

/* Which worker carries out which slow command: each has its jobs one after the other, in the order in which they were accepted. */
enum {
    FELOSUMAY_WORKER_USUAL = 0, /* the usual one, as below */
    FELOSUMAY_WORKER_0 = 1,
    FELOSUMAY_WORKER_1 = 2 /* so is every greater number */
};

typedef struct {
    uint8_t lamp;      /* FELOSUMAY_WORKER_.. of a SET of LAMP_STATE: usually worker 0 */
    uint8_t power;     /* of a SET of POWER_STATE: usually worker 0 */
    uint8_t self_test; /* of a SET of PERFORM_SELFTEST: usually worker 1 */
    uint8_t sensor;    /* of a GET of SENSOR_VALUE, if a job measures: usually worker 1 */
} felosumay_workers;

typedef struct {
    felosumay_unit root;
    felosumay_unit sub; /* what each sub-device starts as */
    uint32_t boot;      /* the boot software version ID: any number */
    uint16_t subs;      /* how many sub-devices there are: 0 to 512 */
    uint16_t presets;   /* how many presets (scenes) there are: 0 to 65534 */
    felosumay_text boot_text;
    uint8_t language_count;    /* 1 to 8 */
    uint8_t slot_count;        /* 0 to 46 */
    uint8_t sensor_count;      /* 0 to 8 */
    uint8_t test_count;        /* 0 to 8 */
    uint8_t status_text_count; /* 0 to 8 */
    uint16_t languages[8];     /* ISO 639-1: two letters each, the first in the upper byte; it starts with the first language */
    felosumay_slot slots[46];
    felosumay_sensor sensors[8];
    felosumay_self_test tests[8];
    felosumay_status_text status_texts[8];
    uint16_t more_slots; /* how many DMX512 slots the root has that `slots` doesn't describe: 0 to 512 */
    /* Lists outside this struct: `new` reads each once, and it may be NULL if its count is 0. */
    FELOSUMAY_WIDE const felosumay_parameter *parameters; /* the maker's own, by ascending PID */
    uint64_t parameter_count;                /* 0 to 32 */
    FELOSUMAY_WIDE const uint16_t *without; /* the PIDs of the parameters that the fixture lacks, in any order */
    uint64_t without_count;                  /* 0 to 36 */
    felosumay_estimates estimates;         /* how long slow commands take */
    felosumay_workers workers;             /* and which worker carries them out */
    /* What the answers to DISC_MUTE and DISC_UN_MUTE tell, beside whether there are sub-devices (section 7.6): */
    uint8_t boot_loader;    /* 1 if it can do nothing until firmware is uploaded to it, else 0 */
    uint8_t proxied_device; /* 1 if it isn't on this line itself, and a proxy answers for it, else 0 */
    /* Which messages of changes at the menu wait: */
    uint8_t newest_only; /* 1 if one takes the place of another that still waits and tells of the same parameter; 0 if each waits */
    FELOSUMAY_WIDE const felosumay_choice *choices; /* the names of choices, by ascending PID and number */
    uint64_t choice_count;                   /* 0 to 64 */
    uint8_t lock_count;                    /* 0 to 64 */
    felosumay_lock locks[64];              /* which parameters are locked in which state, in any order */
    /* The UID of its first port, if it has several, each with a UID of its own: the answers to DISC_MUTE tell it (section 7.6). It is the
     * manufacturer ID and then the device ID, the most significant byte first, or {0} if the fixture has one port. */
    uint8_t binding_uid[6];
    /* Two more lists outside this struct: */
    FELOSUMAY_WIDE const felosumay_mode *modes; /* more personalities of the root, which are numbered behind those of `root` */
    uint64_t mode_count;                        /* 0 to 247 */
    FELOSUMAY_WIDE const felosumay_slot *mode_slots; /* the slots of all of them; each says which are its own */
    uint64_t mode_slot_count;                        /* 0 to 65535 */
} felosumay_profile;

/* The rules of a profile, in the order in which they are tested. BAD_PROFILE says that one of them is broken. */
enum {
    FELOSUMAY_NO_FAULT = 0,            /* no rule is broken */
    FELOSUMAY_FAULT_SUB_DEVICES = 1,   /* subs is at most 512 */
    FELOSUMAY_FAULT_PRESETS = 2,       /* presets is below 65535 */
    FELOSUMAY_FAULT_PERSONALITIES = 3, /* root and sub have at least one personality each, even if there are no sub-devices */
    FELOSUMAY_FAULT_START = 4,         /* the start address of root and of sub is 1 to 512, even if there are no sub-devices */
    FELOSUMAY_FAULT_FOOTPRINT = 5,     /* that of each personality of root is at most slot_count + more_slots, and at most 512 */
    FELOSUMAY_FAULT_SUB_FOOTPRINT = 6, /* the footprint of each personality of sub is at most 512 */
    FELOSUMAY_FAULT_LANGUAGES = 7,     /* there is a language */
    FELOSUMAY_FAULT_TEST_NUMBER = 8,   /* the number of each self test is 1 to 254 */
    FELOSUMAY_FAULT_TWIN_TESTS = 9,    /* no two self tests have the same number */
    FELOSUMAY_FAULT_TWIN_TEXTS = 10,   /* no two status texts have the same ID */
    FELOSUMAY_FAULT_LEFT_OUT = 11, /* without_count is at most 36, and each of `without` is a parameter that a device may lack */
    FELOSUMAY_FAULT_LEFT_OUT_NEEDED = 12,   /* a profile that omits a parameter omits those that need it */
    FELOSUMAY_FAULT_PARAMETER_COUNT = 13,   /* parameter_count is at most 32 */
    FELOSUMAY_FAULT_PARAMETER_PID = 14,     /* each has a PID that is free for it, and no two the same */
    FELOSUMAY_FAULT_PARAMETER_LIMITS = 15,  /* kind and commands are among those above; size is at most 32; low and high fit, in order */
    FELOSUMAY_FAULT_PARAMETER_START = 16,   /* start has as many bytes as the data, and is in range */
    FELOSUMAY_FAULT_PARAMETER_ORDER = 17,   /* their PIDs ascend */
    FELOSUMAY_FAULT_PARAMETER_FIELDS = 18,  /* the fields of each take all of its slots, and their limits fit their width, in order */
    FELOSUMAY_FAULT_PARAMETER_STANDARD = 19, /* one with a PID of a standard has its data and its commands, or fewer of these */
    FELOSUMAY_FAULT_PARAMETER_NAMES = 20,   /* each choice has its names, each name its choice; CURVE has as many as DIMMER_INFO */
    FELOSUMAY_FAULT_PARAMETER_LOCKS = 21,   /* each lock is for a state from 1 to the greatest of LOCK_STATE */
    FELOSUMAY_FAULT_PARAMETER_LOCK_STATE = 22, /* LOCK_STATE can be read, and has LOCK_PIN beside it */
    FELOSUMAY_FAULT_PARAMETER_LOCKED = 23,  /* each lock is for a parameter with a quick SET at the root, and not for LOCK_STATE */
    FELOSUMAY_FAULT_BINDING_UID = 24,       /* the device ID of binding_uid isn't FFFFFFFF, which addresses more than one device */
    FELOSUMAY_FAULT_MODE_COUNT = 25,        /* mode_count is at most 247 */
    FELOSUMAY_FAULT_MODE_FOOTPRINT = 26,    /* the footprint of each mode is at most 512 */
    FELOSUMAY_FAULT_MODE_SLOTS = 27 /* each has at most 46 slots, all in mode_slots; or none, and slots_of is a personality with its own */
};

/* The first rule that the profile breaks, or NO_FAULT; then `new` doesn't return BAD_PROFILE. */
static inline uint8_t felosumay_profile_fault(const felosumay_profile *profile);

/* ---- the responder */

/* An accepted slow command. Keep it until it has ended, and pass it back with the outcome. */
typedef struct {
    uint32_t number;   /* counts the jobs of its worker, from the first number of the responder; 0 comes after the greatest */
    uint16_t estimate; /* tenths of a second, as in the ACK_TIMER */
    uint16_t sub;      /* the sub-device, 1 to 512, or 0 for the root */
    uint16_t pid;      /* FELOSUMAY_PID_.. of the slow command */
    uint8_t command_class; /* FELOSUMAY_GET or FELOSUMAY_SET */
    uint8_t argument;      /* the byte of data: the state of the lamp or the power, the self test, or the sensor, from 0 */
    uint8_t worker;        /* 0 or 1: each worker's jobs end in order */
} felosumay_job;

/* A message of a device's queue, or a part of one (E1.20 section 10.3.1): as a collector has it from another device, or as it waits at a
 * responder, which sends no parts. */
typedef struct {
    uint64_t count; /* how many bytes of data it has: 0 to 231 */
    uint16_t pid;    /* its parameter, FELOSUMAY_PID_.. or one of the maker's own */
    uint16_t sub;    /* the sub-device, 1 to 512, or 0 for the root */
    uint16_t reason; /* if it is a NACK, why an earlier command was rejected, FELOSUMAY_NR_..; else 0 */
    uint16_t tenths; /* if it is an ACK_TIMER, in how many tenths of a second the result is due; else 0 */
    uint8_t type;    /* FELOSUMAY_ACK and so on; FELOSUMAY_ACK_OVERFLOW if it is a part, and more of the message follows */
    uint8_t command_class; /* that of the response: 0x21 for a GET, 0x31 for a SET */
    uint8_t may_repeat;    /* 1 if it was asked for again, so it may repeat the message before it; else 0 */
    uint8_t after_loss;    /* 1 if a poll got no answer since the previous one was recorded, so something may be missing; else 0 */
    uint8_t bytes[FELOSUMAY_VALUE_BYTES];
} felosumay_message;

typedef struct {
    uint64_t count;    /* how many bytes the reply has: at most 257 */
    uint8_t replied; /* 1 if there is a reply, else 0 */
    uint8_t started; /* 1 if a job started, else 0 */
    uint8_t changed; /* FELOSUMAY_NOTHING_CHANGED and so on */
    felosumay_job job; /* the job that started, if one did; else meaningless */
    uint16_t changed_sub_device; /* if one value changed, the sub-device, or 0 for the root; else 0 */
    uint16_t changed_parameter;  /* if one value changed, its PID; else 0 */
} felosumay_stepped;

/* What a request changed, among the values that `get` reads. The end of a job, a change at the menu and `place` aren't reported here:
 * the firmware made those calls itself. */
enum {
    FELOSUMAY_NOTHING_CHANGED = 0, /* no value changed, even if there was a SET */
    FELOSUMAY_ONE_CHANGED = 1,     /* one parameter of one device; after RECORD_SENSORS it is SENSOR_VALUE, of one sensor or all */
    FELOSUMAY_SEVERAL_CHANGED = 2  /* several: by a SET of all sub-devices, or of DMX_BLOCK_ADDRESS, or by FACTORY_DEFAULTS */
};

typedef struct {
    uint8_t kind;     /* FELOSUMAY_JOB_DONE and so on */
    uint8_t severity; /* if it failed, its status type: 0x02 advisory, 0x03 warning, 0x04 error; 0x12, 0x13, 0x14 when cleared */
    int16_t reading; /* if it is a reading: what the sensor measured, in its unit and prefix */
    uint16_t id;     /* if it failed: the status ID, and the two values that its text names, in the text's units, or 0 */
    uint16_t v1;
    uint16_t v2;
} felosumay_outcome;

enum {
    FELOSUMAY_JOB_DONE = 0,    /* a SET is done */
    FELOSUMAY_JOB_READING = 1, /* a sensor gave this reading */
    FELOSUMAY_JOB_FAILED = 2   /* it failed: a status entry with severity, ID and two values */
};

/* Makes a responder of this profile, or the demonstration fixture with N sub-devices (`subs`), and replaces what the handle
 * held. `queue_size` is how many messages and jobs it has room for, 1 to 1,024, at 272 bytes each; `entries` how many status
 * entries wait at most to be shown, 1 to 1,024, at 9 bytes each: 1,024 if no number is passed. If it isn't DONE, the handle
 * stays as it was. BAD_UID, BAD_SIZE, BAD_PROFILE, OUT_OF_MEMORY, in this order.
 *
 * `first_job` is the number of each worker's first job: 0 if no number is passed. A report is identified by the numbers of its job. So if
 * a worker may still report a job of the previous responder, pass a number that none of its jobs had: its greatest `number` so far, plus
 * 1. A responder accepts at most 4,294,967,295 jobs for each worker, so that no two have the same number. */
static inline felosumay_result felosumay_responder_new(felosumay_responder *responder, uint16_t maker, uint32_t device,
                                                       const felosumay_profile *profile, uint16_t queue_size);
static inline felosumay_result felosumay_responder_new_with(felosumay_responder *responder, uint16_t maker, uint32_t device,
                                                            const felosumay_profile *profile, uint16_t queue_size, uint16_t entries,
                                                            uint32_t first_job);
felosumay_result felosumay_responder_demo(felosumay_responder *responder, uint16_t maker, uint32_t device, uint16_t subs,
                                          uint16_t queue_size);

/* How many bytes of memory a responder takes with room for so many messages and jobs and status entries, and with so many
 * sub-devices, each block rounded up to 16 bytes: `new` asks the heap for no more, and no later call asks it for any.
 * FELOSUMAY_RESPONDER_BYTES is the same as a constant, for the size of an array. A profile with unusual features takes more: add
 * each of these that applies. FELOSUMAY_PARTICULARS_BYTES if it has `parameters`, `without`, `choices`, `locks`, `more_slots`, unusual
 * `estimates`, `boot_loader`, `proxied_device`, `newest_only`, `binding_uid` or `modes`; FELOSUMAY_OWN_PARAMETERS_BYTES of the number of
 * its parameters; FELOSUMAY_VALUES_BYTES of how many of them are orders, and how many scenes PRESET_STATUS has; FELOSUMAY_CHOICES_BYTES and
 * FELOSUMAY_LOCKS_BYTES of those numbers; FELOSUMAY_MODES_BYTES of the number of its modes, and the sum of their `slot_count`.
 * `fits` tests whether a responder of this size fits into so many bytes at this address, as felosumay_memory.h makes one: UNALIGNED,
 * SHORT_MEMORY, in this order. Both calls calculate with any sizes; `new` rejects a BAD_SIZE. */
uint64_t felosumay_responder_size(uint16_t queue_size, uint16_t entries, uint16_t sub_devices);
felosumay_result felosumay_responder_fits(uint64_t address, uint64_t bytes, uint16_t queue_size, uint16_t entries,
                                          uint16_t sub_devices);
#define FELOSUMAY_ROUNDED(bytes) (((uint64_t)(bytes) + 15) / 16 * 16)
#define FELOSUMAY_PARTICULARS_BYTES FELOSUMAY_ROUNDED(176)
#define FELOSUMAY_OWN_PARAMETERS_BYTES(count) ((count) == 0 ? (uint64_t)0 : FELOSUMAY_ROUNDED(24) + (256 + 48) * (uint64_t)(count))
#define FELOSUMAY_VALUES_BYTES(count) (48 * (uint64_t)(count))
#define FELOSUMAY_CHOICES_BYTES(count) ((count) == 0 ? (uint64_t)0 : FELOSUMAY_ROUNDED(3080))
#define FELOSUMAY_LOCKS_BYTES(count) ((count) == 0 ? (uint64_t)0 : FELOSUMAY_ROUNDED(264))
#define FELOSUMAY_MODES_BYTES(mode_count, slot_count) \
    ((mode_count) == 0 ? (uint64_t)0                  \
                       : FELOSUMAY_ROUNDED(24) + FELOSUMAY_ROUNDED(88 * (uint64_t)(mode_count)) + 48 * (uint64_t)(slot_count))
#define FELOSUMAY_RESPONDER_BYTES(queue_size, entries, sub_devices)                                                             \
    (FELOSUMAY_ROUNDED(5856) + FELOSUMAY_ROUNDED(56 * (uint64_t)(sub_devices)) + 2 * FELOSUMAY_ROUNDED(12 * (uint64_t)(queue_size)) + \
     FELOSUMAY_ROUNDED(248 * (uint64_t)(queue_size)) + FELOSUMAY_ROUNDED(9 * (uint64_t)(entries)))

/* Takes received bytes. If there is a reply, it is at the front of `reply`; the answer to DISC_UNIQUE_BRANCH is a reply like any other, and
 * has no break before it. The bytes after the reply are meaningless. ABSENT: `replied`, `started` and `changed` are 0 then. */
static inline felosumay_result felosumay_responder_step(felosumay_responder *responder, const uint8_t *bytes, uint64_t length,
                                                        uint8_t reply[FELOSUMAY_FRAME_BYTES], felosumay_stepped *stepped);

/* Takes the report of a job. `kept` is 1 if it left a status entry that is kept, else 0. UNKNOWN, ABSENT, ASTRAY, in this
 * order; nothing changes then. Each field of the job is compared with the responder's own record. A job is identified by these
 * alone: one of another responder, or of the previous one of this handle, is mistaken for a job of this responder with the same numbers
 * (`first_job`). */
felosumay_result felosumay_responder_arrive(felosumay_responder *responder, const felosumay_job *job,
                                            const felosumay_outcome *outcome, uint8_t *kept);

/* A person changes something at the fixture's own menu. Each DONE queues a message for the controller, even if the value stays the
 * same. Polls take messages from the queue: if no controller polls, it fills up, and each change is NO_ROOM from then on, until the firmware
 * drops a message (`drop_oldest`). `place` needs no room. TOO_LONG for a label, then ABSENT, NO_ROOM, OUT_OF_RANGE, in this order; nothing
 * changes then. */
felosumay_result felosumay_responder_change_start(felosumay_responder *responder, uint16_t start);
felosumay_result felosumay_responder_change_personality(felosumay_responder *responder, uint8_t number);
static inline felosumay_result felosumay_responder_change_label(felosumay_responder *responder, const uint8_t *label,
                                                                uint64_t length);

/* Whether there is room for the message of a change: `there` is 1 then, else 0. ABSENT. */
felosumay_result felosumay_responder_room(const felosumay_responder *responder, uint8_t *there);

/* Sets a stored value as a SET would, at the root (`sub` 0) or at a sub-device, 1 to 512: hours or strikes that the firmware counts,
 * what a sensor shows, or a change at the menu for whose message there is no room. It takes effect at once, even if the SET on the line
 * is slow, and sends no message. FACTORY_DEFAULTS still returns to the profile's values.
 * Firmware can also place what a GET may return but no SET may ask for: for LAMP_STATE 0x04 (lamp not present), 0x7F (lamp error) and the
 * maker's 0x80 to 0xDF (table A-8), for LAMP_ON_MODE the maker's 0x80 to 0xDF (table A-9).
 * `data` are those of the SET, in its range and units, the most significant byte first (DEVICE_HOURS: 4 bytes, in hours, E1.20
 * section 10.8.1). What a sensor shows is placed as SENSOR_VALUE, 0x0201, at the root, with the 9 bytes of its reply: the sensor's
 * number, then its present, lowest, highest and recorded value (section 10.7.2). A scene, even one that can only be read, is placed as
 * PRESET_STATUS, 0x1042, with the 9 bytes of its SET (E1.37-1). docs/PARAMETERS.md has the list.
 * ABSENT; NO_DEVICE if there is no such sub-device; NOT_STORED if the device stores no value of `pid`; BAD_LENGTH;
 * OUT_OF_RANGE, in this order; nothing changes then. */
static inline felosumay_result felosumay_responder_place(felosumay_responder *responder, uint16_t sub, uint16_t pid,
                                                         const uint8_t *data, uint64_t length);

/* Values outlive power-off: `save` writes an image of all of them to the front of `image`, and `restore` loads it when the fixture is on
 * again, before its first request. The states of the lamp, of identification, of power, of a self test and of a preset aren't in it, nor
 * what the sensors measured, except their recorded values. All images of one profile have the same number of bytes, `saved_size`.
 * FELOSUMAY_SAVED_BYTES is the same as a constant, from the profile's counts: its sub-devices, sensors and own parameters, how many of
 * these are orders (FELOSUMAY_CC_SET), how many scenes PRESET_STATUS has, and how many parameters it omits. No profile has more than
 * FELOSUMAY_MOST_SAVED_BYTES.
 * The program stores images where it likes, such as in two areas of flash (felosumay_images.h); one that is truncated or altered is
 * rejected. After an update of the firmware, `restore` takes the image of the older version, too: of the same manufacturer and model, but
 * with another software version, or with other personalities, languages, sensors, sub-devices, parameters or scenes. Then each value is
 * restored that both versions have and this one accepts, and the others stay as they are. DEVICE_POWER_CYCLES counts one more than was saved (E1.20 section 10.8.6). `restore` queues no message, and jobs, messages and
 * status entries stay.
 * `saved_size`: ABSENT. `save`: ABSENT, SHORT_IMAGE; nothing is written then. `restore`: ABSENT, IMAGE_LENGTH, ALTERED_IMAGE,
 * FOREIGN_IMAGE, in this order; nothing changes then. */
#define FELOSUMAY_SAVED_BYTES(sub_devices, sensors, parameters, orders, scenes, without)                                   \
    (88 + 46 * (uint64_t)(sub_devices) + 2 * (uint64_t)(sensors) + 41 * (uint64_t)(parameters) + 37 * (uint64_t)(orders) + \
     37 * (uint64_t)(scenes) + 2 * (uint64_t)(without))
#define FELOSUMAY_MOST_SAVED_BYTES FELOSUMAY_SAVED_BYTES(512, 8, 32, 32, 255, 36)
felosumay_result felosumay_responder_saved_size(const felosumay_responder *responder, uint64_t *count);
felosumay_result felosumay_responder_save(const felosumay_responder *responder, uint8_t *image, uint64_t size, uint64_t *count);
static inline felosumay_result felosumay_responder_restore(felosumay_responder *responder, const uint8_t *image, uint64_t length);

/* A value of an older image. */
typedef struct {
    uint64_t number; /* its number in that image, from 0 */
    uint16_t sub;    /* 0 for the root, or the number of the sub-device */
    uint16_t pid;    /* of a sensor it is SENSOR_VALUE */
    uint16_t index;  /* the number of the sensor or of the scene, else 0 */
} felosumay_left;

/* After an update `left` says which values of the older image weren't taken over: restore the older image, save, and compare both images.
 * It finds the first value, from number `from` on, that the newer image doesn't have; ask again from `left->number + 1` for the next one.
 * DEVICE_POWER_CYCLES is always among them, since `restore` counts one more. NO_MORE: there is none; `left` stays then. Bytes that are no
 * image have no values. */
static inline felosumay_result felosumay_saved_left(const uint8_t *older, uint64_t older_length, const uint8_t *newer,
                                                    uint64_t newer_length, uint64_t from, felosumay_left *left);

/* The firmware reports a problem, such as a blocked fan, as a status entry of the root (`sub` 0) or of a
 * sub-device, 1 to 512. A controller receives it once, with STATUS_MESSAGES (E1.20 section 10.3.2). `severity` is the status type
 * (table A-4): 0x02 advisory, 0x03 warning, 0x04 error; 0x12, 0x13, 0x14 when that has cleared. `id` is the status ID, which the
 * profile's status texts explain (section 10.3.3), and `v1` and `v2` are the values that its text names, in its units, or 0.
 * `noted` is 1 if the entry is kept, else 0: it is kept if the device exists, its threshold is neither 0x00 nor above the entry (section
 * 10.3.5), and there is room for one more. UNKNOWN if `severity` is another, then ABSENT; nothing changes then. */
felosumay_result felosumay_responder_note(felosumay_responder *responder, uint16_t sub, uint8_t severity, uint16_t id,
                                          uint16_t v1, uint16_t v2, uint8_t *noted);

/* Reads a parameter as a GET would. ABSENT; REFUSED, with the code of the NACK in `reason`; NO_VALUE if the command starts
 * a job or fetches a message. Nothing changes. */
static inline felosumay_result felosumay_responder_get(const felosumay_responder *responder, uint16_t sub, uint16_t pid,
                                                       const uint8_t *argument, uint64_t length, uint8_t value[FELOSUMAY_VALUE_BYTES],
                                                       uint64_t *count, uint16_t *reason);

/* Reads the value of a parameter of `parameters`, whatever commands it has, such as the data of an order, which no GET reads: when `step`
 * reports the order as a change, the firmware reads it, sends the reply, and carries it out. ABSENT; NOT_STORED if the profile adds no
 * parameter with this PID. Nothing changes. */
felosumay_result felosumay_responder_own_value(const felosumay_responder *responder, uint16_t pid,
                                               uint8_t value[FELOSUMAY_VALUE_BYTES], uint64_t *count);

/* How many messages wait, how many jobs are outstanding, and how many status entries wait to be shown. ABSENT. */
felosumay_result felosumay_responder_waiting(const felosumay_responder *responder, uint64_t *count);
felosumay_result felosumay_responder_outstanding(const felosumay_responder *responder, uint64_t *count);
felosumay_result felosumay_responder_entries(const felosumay_responder *responder, uint64_t *count);

/* The message with this index among those that wait, as a controller will collect it: the oldest has index 0. ABSENT; NO_MORE if no more
 * wait; `message` stays then. */
felosumay_result felosumay_responder_waiting_message(const felosumay_responder *responder, uint64_t index, felosumay_message *message);

/* Drops the oldest message that waits: for firmware whose queue is full since no controller polls. It makes room for one more job or change,
 * and no controller ever gets that message. What GET_LAST_MESSAGE repeats stays. ABSENT; NO_MORE if no message waits; nothing changes then. */
felosumay_result felosumay_responder_drop_oldest(felosumay_responder *responder);

/* The job that a worker is at, as `step` returned it: the oldest of its outstanding ones. Firmware that asks for it needs no list of jobs of
 * its own. UNKNOWN if `worker` is neither 0 nor 1; ABSENT; NO_MORE if the worker is at none; `job` stays then. */
felosumay_result felosumay_responder_working(const felosumay_responder *responder, uint8_t worker, felosumay_job *job);

/* Since when each worker is at its job. It starts as {0}. Never write it; a copy goes on as the original would. */
typedef struct {
    uint32_t number;
    uint32_t begun;
    uint32_t length;
    uint8_t there;
} felosumay_at_job;

typedef struct {
    felosumay_at_job first, second;
} felosumay_deadlines;

/* In how many milliseconds the first estimate ends of the jobs that the workers are at: so long the firmware may sleep. 0 if it has ended.
 * `now` is the time in milliseconds; a clock of 32 bits may go on at 0 after its greatest number. A job begins when this call first sees it:
 * call it after each packet and each report, and once in 49 days. ABSENT; NO_MORE if no worker is at a job; `milliseconds` stays then. */
felosumay_result felosumay_responder_next_end(const felosumay_responder *responder, felosumay_deadlines *deadlines, uint32_t now,
                                              uint32_t *milliseconds);

/* Frees what the handle holds, if anything, and sets the handle to {0}. NULL is allowed and does nothing. */
void felosumay_responder_free(felosumay_responder *responder);

/* ---- two images of saved values in two areas of flash: if power fails at any moment, the old values are there or the new, whole */

/* What an area holds. */
typedef struct {
    uint16_t counter; /* the newer of two images has the next number; 0 follows 65535 */
    uint16_t length;  /* how many bytes its payload has: 0 to 65535 */
    uint8_t there;    /* 1 if the area holds an image; 0 if it holds none: then the other fields are meaningless */
} felosumay_image;

enum { FELOSUMAY_IMAGE_HEADER_BYTES = 12 }; /* how many bytes of an image stand in front of its payload */

/* The library decides, and the program reads, erases and writes: felosumay_images.h does that with three functions of the program's. An
 * image is a header and a payload, such as what `felosumay_responder_save` writes; docs/SAVED.md has its bytes, and says what is assumed
 * of the areas. `key` is a number of the program's, which says what the payload is of: an image of another key counts as none.
 *
 * `read` says what an area holds, from the bytes at its front. Those behind the image don't count. IMAGE_LENGTH if there are fewer bytes
 * than a header has, or than it says; ALTERED_IMAGE; FOREIGN_IMAGE, in this order: `image` says then that there is none.
 *
 * `newest` says which area holds the newest image, 0 or 1: pass what `read` said of area 0, and of area 1. NO_IMAGE if neither holds one;
 * `area` stays then.
 *
 * `next` says where the image of this payload goes: erase `area`, and then write the header at its front, and the payload behind that. Pass
 * what `read` said of both areas. TOO_LONG if the payload has more than 65535 bytes; `header` and `area` stay then. */
static inline felosumay_result felosumay_images_read(uint32_t key, const uint8_t *bytes, uint64_t length, felosumay_image *image);
felosumay_result felosumay_images_newest(const felosumay_image *first, const felosumay_image *second, uint8_t *area);
static inline felosumay_result felosumay_images_next(uint32_t key, const felosumay_image *first, const felosumay_image *second,
                                                     const uint8_t *payload, uint64_t length,
                                                     uint8_t header[FELOSUMAY_IMAGE_HEADER_BYTES], uint8_t *area);

/* ---- the receiver: it extracts packets and levels from what a UART receives */

/* It needs no other memory, and starts as {0}. Never write it; read only its field `packet`. A copy goes on as the original would. */
typedef struct {
    uint16_t count;
    uint8_t state;
    uint8_t packet[FELOSUMAY_FRAME_BYTES]; /* the bytes of a packet that was reported; they stay until the next call */
} felosumay_receiver;

/* What a byte completes. */
enum {
    FELOSUMAY_RECEIVED_NOTHING = 0, /* nothing: `number` is 0 */
    FELOSUMAY_RECEIVED_PACKET = 1,  /* a packet of RDM: `number` bytes at the front of `packet`, 26 to 257 */
    FELOSUMAY_RECEIVED_LEVEL = 2    /* a level of DMX512: the byte is that of slot `number`, 1 to 512 */
};

/* Pass in each signal in the order in which the UART reports it: a break; a byte; or an error, which is a framing error other than a
 * break, or an overrun. Each call takes the same few steps and allocates nothing: call it from the UART's interrupt. docs/FIXTURES.md
 * shows how, and says when a reply is due.
 *
 * A packet is reported with its last byte. It is exactly what came since the break: CC, 01, a message length of at least 24, and as many
 * bytes as that says, with the 2 of the checksum (E1.20 sections 6.2.1 to 6.2.3 and 6.2.11). Pass it to `felosumay_responder_step`, which
 * tests the rest: a packet with a wrong checksum is reported, too, but not answered. The level of each slot after a break and 00 is
 * reported at once, and not kept. Nothing else is reported: not other START codes; not the answer to DISC_UNIQUE_BRANCH, which has no break
 * before it; not bytes after the end of a packet or after slot 512; and after an error nothing until the next break. */
void felosumay_receiver_break(felosumay_receiver *receiver);
void felosumay_receiver_error(felosumay_receiver *receiver);
uint8_t felosumay_receiver_byte(felosumay_receiver *receiver, uint8_t byte, uint16_t *number);

/* ---- frames */

/* The tests of a frame, in their order (E1.20 section 6.2). */
enum {
    FELOSUMAY_IS_FRAME = 0,        /* the bytes pass all of them */
    FELOSUMAY_FRAME_SHORT = 1,     /* there are at least 26 bytes */
    FELOSUMAY_FRAME_START = 2,     /* the first is CC */
    FELOSUMAY_FRAME_SUB_START = 3, /* the second is 01 */
    FELOSUMAY_FRAME_LENGTH = 4,    /* the third, the message length, is two less than their number */
    FELOSUMAY_FRAME_DATA_LENGTH = 5, /* the parameter data length is what the message length leaves for it */
    FELOSUMAY_FRAME_CHECKSUM = 6   /* the last two are the sum of the others */
};

/* The first test that the bytes fail, or IS_FRAME: for the counts of COMMS_STATUS. Responders and collectors ignore what isn't a frame. The
 * answer to DISC_UNIQUE_BRANCH isn't a frame. */
static inline uint8_t felosumay_frame_fault(const uint8_t *bytes, uint64_t length);

/* ---- the collector: it fetches the messages of one device, however that answers polls, and sends commands in between */

typedef struct {
    uint32_t device; /* the device ID and the manufacturer ID of the destination */
    uint16_t maker;
    uint16_t sub;          /* the sub-device, 1 to 512, 0 for the root, or 0xFFFF for a SET of all sub-devices */
    uint16_t pid;          /* FELOSUMAY_PID_.. */
    uint8_t command_class; /* FELOSUMAY_GET, FELOSUMAY_SET or FELOSUMAY_DISCOVERY */
} felosumay_command;

/* What a response says (E1.20 section 6.3). */
typedef struct {
    uint64_t count;    /* how many bytes of data it has: 0 to 231 */
    uint32_t device; /* the device ID and the manufacturer ID of the device that answers */
    uint16_t maker;
    uint16_t sub; /* the sub-device, 1 to 512, or 0 for the root */
    uint16_t pid; /* FELOSUMAY_PID_.. or one of the maker's own */
    uint16_t reason; /* if it is a NACK, why the request is rejected, FELOSUMAY_NR_..; else 0 */
    uint16_t tenths; /* if it is an ACK_TIMER, in how many tenths of a second the result is due; else 0 */
    uint8_t type;    /* FELOSUMAY_ACK and so on */
    uint8_t command_class; /* that of the response: 0x11 for discovery, 0x21 for a GET, 0x31 for a SET */
    uint8_t waiting;       /* how many messages wait in the device, at most 255: poll if there are any */
    uint8_t bytes[FELOSUMAY_VALUE_BYTES];
} felosumay_reply;

/* Response types (table A-2). */
enum {
    FELOSUMAY_ACK = 0,         /* it was carried out */
    FELOSUMAY_ACK_TIMER = 1,   /* the result comes later: poll for it when that time is over */
    FELOSUMAY_NACK = 2,        /* it is rejected */
    FELOSUMAY_ACK_OVERFLOW = 3 /* the data are a part: the same request fetches the next */
};

/* Parses a response. It takes no handle, and doesn't check whom the response is for: `felosumay_collector_hear` says whether it
 * answers the open request. NO_REPLY if the bytes aren't a response: a frame of class 0x11, 0x21 or 0x31 with a response type of
 * the table, in which ACK_TIMER and NACK_REASON have two bytes of data. Nothing is written then. */
static inline felosumay_result felosumay_reply_read(const uint8_t *bytes, uint64_t length, felosumay_reply *reply);

/* How a collector classifies bytes. */
enum {
    FELOSUMAY_IGNORED = 0,      /* nothing that it waits for */
    FELOSUMAY_MESSAGE = 1,      /* a message, which answers the open poll */
    FELOSUMAY_REPLY = 2,        /* the reply to the open command */
    FELOSUMAY_PART = 3,         /* a part of a message (ACK_OVERFLOW): the next polls fetch the others (section 6.3.2) */
    FELOSUMAY_UNSUPPORTED = 4,  /* the device has no queue: it doesn't support QUEUED_MESSAGE (section 6.3.4) */
    FELOSUMAY_POLL_REFUSED = 5, /* the device rejects the poll for another reason; the next poll goes on */
    FELOSUMAY_NOT_YET = 6       /* the device needs time to answer the poll (section 6.3.3); the next one asks for the same */
};

typedef struct {
    uint16_t reason; /* for POLL_REFUSED, FELOSUMAY_NR_..; else 0 */
    uint16_t tenths; /* for NOT_YET, in how many tenths of a second to poll again; else 0 */
    uint8_t kind;    /* FELOSUMAY_IGNORED and so on */
} felosumay_heard;

/* Makes a collector, and replaces what the handle held. `wants` is 02 for status entries of every severity, 03 for warnings
 * and errors, 04 for errors alone. UNKNOWN; BAD_UID if its own UID or its target's addresses more than one device;
 * OUT_OF_MEMORY, in this order; the handle stays as it was then. */
felosumay_result felosumay_collector_new(felosumay_collector *collector, uint16_t maker, uint32_t device,
                                         uint16_t target_maker, uint32_t target_device, uint8_t wants);

/* Makes the request of a command, or of a poll for the target's next message, at the front of `request`, and opens a
 * transaction. After NOT_YET a poll asks for the same as the poll before it. `ask`: UNKNOWN, ABSENT, RESERVED, BUSY, TOO_LONG. `poll`:
 * ABSENT, BUSY, OUT_OF_MEMORY. In this order; nothing changes then. */
static inline felosumay_result felosumay_collector_ask(felosumay_collector *collector, const felosumay_command *command,
                                                       const uint8_t *load, uint64_t length, uint8_t request[FELOSUMAY_FRAME_BYTES],
                                                       uint64_t *count);
felosumay_result felosumay_collector_poll(felosumay_collector *collector, uint8_t request[FELOSUMAY_FRAME_BYTES],
                                          uint64_t *count);

/* Hears bytes, and says how it classifies them: any response in the open transaction answers it. The answer to DISC_UNIQUE_BRANCH isn't a
 * frame, and is ignored. ABSENT. */
static inline felosumay_result felosumay_collector_hear(felosumay_collector *collector, const uint8_t *bytes, uint64_t length,
                                                        felosumay_heard *heard);

/* Ends the open transaction, if there is one, without an answer: call it on a timeout. After a poll that ended so, the next poll
 * asks for the last message again. ABSENT. */
felosumay_result felosumay_collector_over(felosumay_collector *collector);

/* Takes the first message, or part of one, that was recorded and not taken yet, and releases it. A message may come twice in a row: if the
 * request of a poll was lost, the next poll asks for the last message, which may have been recorded already. So drop a message whose
 * `may_repeat` is 1 and that equals the one before it. The data of a message in parts are those of its parts, joined: each except the last
 * is of type ACK_OVERFLOW, and all have one command class, PID and sub-device. Two equal parts of a device look like one that was repeated:
 * if `after_loss` of any part after the first is 1, a part may be missing. ABSENT, NO_MORE, in this order; nothing changes then. */
felosumay_result felosumay_collector_next(felosumay_collector *collector, felosumay_message *message);

/* Frees what the handle holds, if anything, and sets the handle to {0}. NULL is allowed and does nothing. */
void felosumay_collector_free(felosumay_collector *collector);

/* ---- the search for the fixtures of a line */

/* A fixture that was found, and what its answer to DISC_MUTE says. */
typedef struct {
    uint32_t device;         /* its UID: the device ID, below 0xFFFFFFFF, and the manufacturer ID */
    uint32_t binding_device; /* 0 if it has no binding UID, and so is binding_maker */
    uint16_t maker;
    uint16_t binding_maker;
    uint16_t control;    /* bit 0 a managed proxy, bit 1 sub-devices, bit 2 a boot loader, bit 3 a proxied device */
    uint8_t has_binding; /* 1 if it has a binding UID, by which the ports of one device show that they are one; else 0 */
} felosumay_found;

/* Makes a search for all fixtures of the line, and replaces what the handle held. The first UID is the controller's own. It
 * makes at most `limit` transactions: 74 for each fixture that the line may have, and 2 more, are enough on every line, whatever
 * collisions sound like, with 2 more for each answer that is altered on its way. BAD_UID, OUT_OF_MEMORY, in this order; the handle stays
 * as it was then. */
felosumay_result felosumay_search_new(felosumay_search *search, uint16_t maker, uint32_t device, uint32_t limit);

/* Writes the next request to the front of `request`. Nothing changes: until `hear` each call writes the same.
 * ABSENT; NO_MORE if the search has ended, and each fixture was found; LIMIT if no transaction is left before its end:
 * there is noise on the line though nobody answers, or the line has more fixtures than the limit is for. */
felosumay_result felosumay_search_next(const felosumay_search *search, uint8_t request[FELOSUMAY_FRAME_BYTES], uint64_t *count);

/* Takes what came after the request of `next`: all bytes, even if they aren't an answer, as after a collision; with length 0 if nothing
 * came. If invalid bytes answer a mute, the same mute is sent again, at most 8 times, so that an altered answer hides no fixture. ABSENT;
 * OUT_OF_MEMORY: the search stays where it was, and the same bytes can be passed in again. */
static inline felosumay_result felosumay_search_hear(felosumay_search *search, const uint8_t *bytes, uint64_t length);

/* Starts again for fixtures that were plugged in since, or lost power. It un-mutes none, so those already found stay silent: 74
 * transactions for each of the others and 1 more are enough. ABSENT. */
felosumay_result felosumay_search_resume(felosumay_search *search, uint32_t limit);

/* How many fixtures have been found. ABSENT. */
felosumay_result felosumay_search_count(const felosumay_search *search, uint64_t *count);

/* The fixture with this index, from 0, in the order in which they were found. ABSENT; NO_MORE if no more were found. */
felosumay_result felosumay_search_found(const felosumay_search *search, uint64_t index, felosumay_found *found);

/* The device with this index, from 0, among those whose answers to all of 9 mutes were invalid: its UID, and 0 in the
 * other fields. Even if it isn't among those found, it may be muted: a new search on a better line finds it. ABSENT; NO_MORE if there are
 * no more. */
felosumay_result felosumay_search_unsure(const felosumay_search *search, uint64_t index, felosumay_found *unsure);

/* Frees what the handle holds, if anything, and sets the handle to {0}. NULL is allowed and does nothing. */
void felosumay_search_free(felosumay_search *search);

/* ---- NULL with length 0. The library accepts no NULL for what it reads, even if the length is 0. So each call above that reads
 * bytes, or the lists of a profile, is an inline function over one of the library's, whose name ends in `_nonnull`: if the length
 * is 0, it passes another, valid address. Other languages call those functions, and pass a valid address, too. */

/* The address of an array, or a valid dummy address if `count` is 0; never NULL. */
static inline const void *felosumay_address(const void *things, uint64_t count) {
    static const uint64_t something = 0;
    return count == 0 ? &something : things;
}
static inline const uint8_t *felosumay_bytes(const uint8_t *bytes, uint64_t length) {
    return (const uint8_t *)felosumay_address(bytes, length);
}
static inline const felosumay_parameter *felosumay_parameters_of(const felosumay_profile *profile) {
    return (const felosumay_parameter *)felosumay_address(profile->parameters, profile->parameter_count);
}
static inline const uint16_t *felosumay_without_of(const felosumay_profile *profile) {
    return (const uint16_t *)felosumay_address(profile->without, profile->without_count);
}
static inline const felosumay_choice *felosumay_choices_of(const felosumay_profile *profile) {
    return (const felosumay_choice *)felosumay_address(profile->choices, profile->choice_count);
}
static inline const felosumay_mode *felosumay_modes_of(const felosumay_profile *profile) {
    return (const felosumay_mode *)felosumay_address(profile->modes, profile->mode_count);
}
static inline const felosumay_slot *felosumay_mode_slots_of(const felosumay_profile *profile) {
    return (const felosumay_slot *)felosumay_address(profile->mode_slots, profile->mode_slot_count);
}

uint8_t felosumay_profile_fault_nonnull(const felosumay_profile *profile, const felosumay_parameter *parameters,
                                        uint64_t parameter_count, const uint16_t *without, uint64_t without_count,
                                        const felosumay_choice *choices, uint64_t choice_count, const felosumay_mode *modes,
                                        uint64_t mode_count, const felosumay_slot *mode_slots, uint64_t mode_slot_count);
static inline uint8_t felosumay_profile_fault(const felosumay_profile *profile) {
    return felosumay_profile_fault_nonnull(profile, felosumay_parameters_of(profile), profile->parameter_count,
                                           felosumay_without_of(profile), profile->without_count, felosumay_choices_of(profile),
                                           profile->choice_count, felosumay_modes_of(profile), profile->mode_count,
                                           felosumay_mode_slots_of(profile), profile->mode_slot_count);
}

felosumay_result felosumay_responder_new_with_nonnull(felosumay_responder *responder, uint16_t maker, uint32_t device,
                                                      const felosumay_profile *profile, const felosumay_parameter *parameters,
                                                      uint64_t parameter_count, const uint16_t *without, uint64_t without_count,
                                                      const felosumay_choice *choices, uint64_t choice_count,
                                                      const felosumay_mode *modes, uint64_t mode_count,
                                                      const felosumay_slot *mode_slots, uint64_t mode_slot_count,
                                                      uint16_t queue_size, uint16_t entries, uint32_t first_job);
static inline felosumay_result felosumay_responder_new_with(felosumay_responder *responder, uint16_t maker, uint32_t device,
                                                            const felosumay_profile *profile, uint16_t queue_size, uint16_t entries,
                                                            uint32_t first_job) {
    return felosumay_responder_new_with_nonnull(responder, maker, device, profile, felosumay_parameters_of(profile),
                                                profile->parameter_count, felosumay_without_of(profile), profile->without_count,
                                                felosumay_choices_of(profile), profile->choice_count, felosumay_modes_of(profile),
                                                profile->mode_count, felosumay_mode_slots_of(profile), profile->mode_slot_count,
                                                queue_size, entries, first_job);
}

static inline felosumay_result felosumay_responder_new(felosumay_responder *responder, uint16_t maker, uint32_t device,
                                                       const felosumay_profile *profile, uint16_t queue_size) {
    return felosumay_responder_new_with(responder, maker, device, profile, queue_size, 1024, 0);
}

felosumay_result felosumay_responder_step_nonnull(felosumay_responder *responder, const uint8_t *bytes, uint64_t length,
                                                  uint8_t reply[FELOSUMAY_FRAME_BYTES], felosumay_stepped *stepped);
static inline felosumay_result felosumay_responder_step(felosumay_responder *responder, const uint8_t *bytes, uint64_t length,
                                                        uint8_t reply[FELOSUMAY_FRAME_BYTES], felosumay_stepped *stepped) {
    return felosumay_responder_step_nonnull(responder, felosumay_bytes(bytes, length), length, reply, stepped);
}

felosumay_result felosumay_responder_change_label_nonnull(felosumay_responder *responder, const uint8_t *label, uint64_t length);
static inline felosumay_result felosumay_responder_change_label(felosumay_responder *responder, const uint8_t *label,
                                                                uint64_t length) {
    return felosumay_responder_change_label_nonnull(responder, felosumay_bytes(label, length), length);
}

felosumay_result felosumay_responder_place_nonnull(felosumay_responder *responder, uint16_t sub, uint16_t pid, const uint8_t *data,
                                                   uint64_t length);
static inline felosumay_result felosumay_responder_place(felosumay_responder *responder, uint16_t sub, uint16_t pid,
                                                         const uint8_t *data, uint64_t length) {
    return felosumay_responder_place_nonnull(responder, sub, pid, felosumay_bytes(data, length), length);
}

felosumay_result felosumay_responder_restore_nonnull(felosumay_responder *responder, const uint8_t *image, uint64_t length);
static inline felosumay_result felosumay_responder_restore(felosumay_responder *responder, const uint8_t *image, uint64_t length) {
    return felosumay_responder_restore_nonnull(responder, felosumay_bytes(image, length), length);
}

felosumay_result felosumay_saved_left_nonnull(const uint8_t *older, uint64_t older_length, const uint8_t *newer, uint64_t newer_length,
                                              uint64_t from, felosumay_left *left);
static inline felosumay_result felosumay_saved_left(const uint8_t *older, uint64_t older_length, const uint8_t *newer,
                                                    uint64_t newer_length, uint64_t from, felosumay_left *left) {
    return felosumay_saved_left_nonnull(felosumay_bytes(older, older_length), older_length, felosumay_bytes(newer, newer_length),
                                        newer_length, from, left);
}

felosumay_result felosumay_images_read_nonnull(uint32_t key, const uint8_t *bytes, uint64_t length, felosumay_image *image);
static inline felosumay_result felosumay_images_read(uint32_t key, const uint8_t *bytes, uint64_t length, felosumay_image *image) {
    return felosumay_images_read_nonnull(key, felosumay_bytes(bytes, length), length, image);
}

felosumay_result felosumay_images_next_nonnull(uint32_t key, const felosumay_image *first, const felosumay_image *second,
                                               const uint8_t *payload, uint64_t length, uint8_t header[FELOSUMAY_IMAGE_HEADER_BYTES],
                                               uint8_t *area);
static inline felosumay_result felosumay_images_next(uint32_t key, const felosumay_image *first, const felosumay_image *second,
                                                     const uint8_t *payload, uint64_t length,
                                                     uint8_t header[FELOSUMAY_IMAGE_HEADER_BYTES], uint8_t *area) {
    return felosumay_images_next_nonnull(key, first, second, felosumay_bytes(payload, length), length, header, area);
}

felosumay_result felosumay_responder_get_nonnull(const felosumay_responder *responder, uint16_t sub, uint16_t pid,
                                                 const uint8_t *argument, uint64_t length, uint8_t value[FELOSUMAY_VALUE_BYTES],
                                                 uint64_t *count, uint16_t *reason);
static inline felosumay_result felosumay_responder_get(const felosumay_responder *responder, uint16_t sub, uint16_t pid,
                                                       const uint8_t *argument, uint64_t length, uint8_t value[FELOSUMAY_VALUE_BYTES],
                                                       uint64_t *count, uint16_t *reason) {
    return felosumay_responder_get_nonnull(responder, sub, pid, felosumay_bytes(argument, length), length, value, count, reason);
}

uint8_t felosumay_frame_fault_nonnull(const uint8_t *bytes, uint64_t length);
static inline uint8_t felosumay_frame_fault(const uint8_t *bytes, uint64_t length) {
    return felosumay_frame_fault_nonnull(felosumay_bytes(bytes, length), length);
}

felosumay_result felosumay_reply_read_nonnull(const uint8_t *bytes, uint64_t length, felosumay_reply *reply);
static inline felosumay_result felosumay_reply_read(const uint8_t *bytes, uint64_t length, felosumay_reply *reply) {
    return felosumay_reply_read_nonnull(felosumay_bytes(bytes, length), length, reply);
}

felosumay_result felosumay_collector_ask_nonnull(felosumay_collector *collector, const felosumay_command *command,
                                                 const uint8_t *load, uint64_t length, uint8_t request[FELOSUMAY_FRAME_BYTES],
                                                 uint64_t *count);
static inline felosumay_result felosumay_collector_ask(felosumay_collector *collector, const felosumay_command *command,
                                                       const uint8_t *load, uint64_t length, uint8_t request[FELOSUMAY_FRAME_BYTES],
                                                       uint64_t *count) {
    return felosumay_collector_ask_nonnull(collector, command, felosumay_bytes(load, length), length, request, count);
}

felosumay_result felosumay_collector_hear_nonnull(felosumay_collector *collector, const uint8_t *bytes, uint64_t length,
                                                  felosumay_heard *heard);
static inline felosumay_result felosumay_collector_hear(felosumay_collector *collector, const uint8_t *bytes, uint64_t length,
                                                        felosumay_heard *heard) {
    return felosumay_collector_hear_nonnull(collector, felosumay_bytes(bytes, length), length, heard);
}

felosumay_result felosumay_search_hear_nonnull(felosumay_search *search, const uint8_t *bytes, uint64_t length);
static inline felosumay_result felosumay_search_hear(felosumay_search *search, const uint8_t *bytes, uint64_t length) {
    return felosumay_search_hear_nonnull(search, felosumay_bytes(bytes, length), length);
}

/* ---- names and the version. They live as long as the program, and end with a NUL; what has no name is "unknown". The calls
 * `felosumay_tell_..` are for languages without inline functions: `letters` points to any byte before them. */

typedef struct {
    FELOSUMAY_WIDE const char *letters;
    uint64_t count; /* how many bytes there are, with the NUL */
} felosumay_name;

void felosumay_tell_status(felosumay_result status, felosumay_name *name);
void felosumay_tell_parameter(uint16_t pid, felosumay_name *name);
void felosumay_tell_reason(uint16_t reason, felosumay_name *name);
void felosumay_tell_version(felosumay_name *name);

/* The name of a result, such as "NO_ROOM". */
static inline const char *felosumay_status_name(felosumay_result status) {
    felosumay_name name = {"", 1};
    felosumay_tell_status(status, &name);
    return name.letters;
}

/* The name of a parameter, such as "DMX_START_ADDRESS" (table A-3). */
static inline const char *felosumay_parameter_name(uint16_t pid) {
    felosumay_name name = {"", 1};
    felosumay_tell_parameter(pid, &name);
    return name.letters;
}

/* The words of a NACK reason, such as "data out of range" (table A-17). */
static inline const char *felosumay_reason_name(uint16_t reason) {
    felosumay_name name = {"", 1};
    felosumay_tell_reason(reason, &name);
    return name.letters;
}

/* The version of the library; FELOSUMAY_VERSION is that of the header. */
static inline const char *felosumay_version(void) {
    felosumay_name name = {"", 1};
    felosumay_tell_version(&name);
    return name.letters;
}

/* ---- the heap: what the library calls for memory. libfelosumay_heap.a has the three functions over malloc, realloc and free
 * (c/heap.c). A program that takes memory from a pool defines them itself, and doesn't link that library. An alignment is 1, 2,
 * 4, 8 or 16, and a size is below 2^63, even if no block can be so large. */

typedef struct {
    uint8_t there; /* 1 if there is memory, else 0 */
    FELOSUMAY_WIDE void *at; /* where the block begins; never NULL, even if there is none */
} felosumay_block;

/* Allocates a block of `size` bytes. */
felosumay_block rattle_alloc(uint64_t size, uint64_t alignment);

/* Resizes a block to `size` bytes, in place or elsewhere; its first `kept` bytes stay the same. If there is no memory for that, the block
 * stays as it was. */
felosumay_block rattle_realloc(void *at, uint64_t kept, uint64_t size, uint64_t alignment);

/* Frees a block. */
void rattle_dealloc(void *at);

/* ---- the layout of what crosses: the library has the same numbers on each target */

FELOSUMAY_ASSERT(sizeof(felosumay_responder) == 8);
FELOSUMAY_ASSERT(sizeof(felosumay_collector) == 8);
FELOSUMAY_ASSERT(sizeof(felosumay_search) == 8);
FELOSUMAY_ASSERT(sizeof(felosumay_text) == 33);
FELOSUMAY_ASSERT(sizeof(felosumay_personality) == 36);
FELOSUMAY_ASSERT(sizeof(felosumay_slot) == 38);
FELOSUMAY_ASSERT(sizeof(felosumay_mode) == 40);
FELOSUMAY_ASSERT(sizeof(felosumay_sensor) == 46);
FELOSUMAY_ASSERT(sizeof(felosumay_self_test) == 34);
FELOSUMAY_ASSERT(sizeof(felosumay_status_text) == 36);
FELOSUMAY_ASSERT(sizeof(felosumay_field) == 16);
FELOSUMAY_ASSERT(sizeof(felosumay_choice) == 40);
FELOSUMAY_ASSERT(sizeof(felosumay_lock) == 4);
FELOSUMAY_ASSERT(sizeof(felosumay_parameter) == 224);
FELOSUMAY_ASSERT(offsetof(felosumay_parameter, high) == 8);
FELOSUMAY_ASSERT(offsetof(felosumay_parameter, pid) == 16);
FELOSUMAY_ASSERT(sizeof(felosumay_unit) == 432);
FELOSUMAY_ASSERT(sizeof(felosumay_estimates) == 8);
FELOSUMAY_ASSERT(sizeof(felosumay_workers) == 4);
FELOSUMAY_ASSERT(sizeof(felosumay_profile) == 3968);
FELOSUMAY_ASSERT(offsetof(felosumay_profile, parameters) == 3608);
FELOSUMAY_ASSERT(offsetof(felosumay_profile, parameter_count) == 3616);
FELOSUMAY_ASSERT(offsetof(felosumay_profile, without) == 3624);
FELOSUMAY_ASSERT(offsetof(felosumay_profile, without_count) == 3632);
FELOSUMAY_ASSERT(offsetof(felosumay_profile, estimates) == 3640);
FELOSUMAY_ASSERT(offsetof(felosumay_profile, boot_loader) == 3652);
FELOSUMAY_ASSERT(offsetof(felosumay_profile, newest_only) == 3654);
FELOSUMAY_ASSERT(offsetof(felosumay_profile, choices) == 3656);
FELOSUMAY_ASSERT(offsetof(felosumay_profile, choice_count) == 3664);
FELOSUMAY_ASSERT(offsetof(felosumay_profile, lock_count) == 3672);
FELOSUMAY_ASSERT(offsetof(felosumay_profile, binding_uid) == 3930);
FELOSUMAY_ASSERT(offsetof(felosumay_profile, modes) == 3936);
FELOSUMAY_ASSERT(offsetof(felosumay_profile, mode_count) == 3944);
FELOSUMAY_ASSERT(offsetof(felosumay_profile, mode_slots) == 3952);
FELOSUMAY_ASSERT(offsetof(felosumay_profile, mode_slot_count) == 3960);
FELOSUMAY_ASSERT(sizeof(felosumay_job) == 16);
FELOSUMAY_ASSERT(sizeof(felosumay_stepped) == 32);
FELOSUMAY_ASSERT(offsetof(felosumay_stepped, replied) == 8);
FELOSUMAY_ASSERT(offsetof(felosumay_stepped, job) == 12);
FELOSUMAY_ASSERT(sizeof(felosumay_outcome) == 10);
FELOSUMAY_ASSERT(sizeof(felosumay_at_job) == 16);
FELOSUMAY_ASSERT(offsetof(felosumay_at_job, there) == 12);
FELOSUMAY_ASSERT(sizeof(felosumay_deadlines) == 32);
FELOSUMAY_ASSERT(sizeof(felosumay_left) == 16);
FELOSUMAY_ASSERT(offsetof(felosumay_left, index) == 12);
FELOSUMAY_ASSERT(sizeof(felosumay_image) == 6);
FELOSUMAY_ASSERT(offsetof(felosumay_image, there) == 4);
FELOSUMAY_ASSERT(sizeof(felosumay_receiver) == 260);
FELOSUMAY_ASSERT(offsetof(felosumay_receiver, state) == 2);
FELOSUMAY_ASSERT(offsetof(felosumay_receiver, packet) == 3);
FELOSUMAY_ASSERT(sizeof(felosumay_command) == 12);
FELOSUMAY_ASSERT(sizeof(felosumay_message) == 256);
FELOSUMAY_ASSERT(offsetof(felosumay_message, pid) == 8);
FELOSUMAY_ASSERT(sizeof(felosumay_reply) == 256);
FELOSUMAY_ASSERT(offsetof(felosumay_reply, device) == 8);
FELOSUMAY_ASSERT(sizeof(felosumay_heard) == 6);
FELOSUMAY_ASSERT(sizeof(felosumay_found) == 16);
FELOSUMAY_ASSERT(sizeof(felosumay_name) == 16);
FELOSUMAY_ASSERT(offsetof(felosumay_name, count) == 8);
FELOSUMAY_ASSERT(sizeof(felosumay_block) == 16);
FELOSUMAY_ASSERT(offsetof(felosumay_block, at) == 8);

#ifdef __cplusplus
}
#endif
#endif
