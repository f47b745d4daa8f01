/* What the fixture is: a moving head with two cells, that of docs/PARAMETERS.md. It lies in flash. */
#include "fixture.h"

const felosumay_profile PROFILE = {
    /* the root: software, model and category, start address, texts, personalities */
    {0x00000100, 0x0011, FELOSUMAY_PRODUCT_CATEGORY_FIXTURE_MOVING_YOKE, 1, FELOSUMAY_TEXT("Moving head"), FELOSUMAY_TEXT("Prototype"),
     FELOSUMAY_TEXT("Fixture"), FELOSUMAY_TEXT("1.0"), 2, {{3, FELOSUMAY_TEXT("Basic")}, {5, FELOSUMAY_TEXT("Fine")}}},
    /* what each cell starts as */
    {0x00000100, 0x0012, FELOSUMAY_PRODUCT_CATEGORY_FIXTURE_MOVING_YOKE, 1, FELOSUMAY_TEXT("Cell module"), FELOSUMAY_TEXT("Prototype"),
     FELOSUMAY_TEXT("Cell"), FELOSUMAY_TEXT("1.0"), 1, {{1, FELOSUMAY_TEXT("Cell")}}},
    /* boot software, cells, presets */
    1, CELLS, 4, FELOSUMAY_TEXT("Boot 1.0"),
    /* how many languages, slots, sensors, self tests and status IDs */
    2, SLOTS, SENSORS, 2, 2,
    {0x656E, 0x6465},
    {{FELOSUMAY_SD_INTENSITY, FELOSUMAY_ST_PRIMARY, 0x00, FELOSUMAY_TEXT("Intensity")},
     {FELOSUMAY_SD_PAN, FELOSUMAY_ST_PRIMARY, 0x80, FELOSUMAY_TEXT("Pan")},
     {FELOSUMAY_SD_TILT, FELOSUMAY_ST_PRIMARY, 0x80, FELOSUMAY_TEXT("Tilt")},
     {1, FELOSUMAY_ST_SEC_FINE, 0x00, FELOSUMAY_TEXT("Pan fine")},
     {2, FELOSUMAY_ST_SEC_FINE, 0x00, FELOSUMAY_TEXT("Tilt fine")}},
    {{-20, 120, 0, 80, FELOSUMAY_SENS_TEMPERATURE, FELOSUMAY_UNITS_CENTIGRADE, FELOSUMAY_PREFIX_NONE, 0x03,
      FELOSUMAY_TEXT("Lamp temperature"), 0},
     {-20, 120, 0, 80, FELOSUMAY_SENS_TEMPERATURE, FELOSUMAY_UNITS_CENTIGRADE, FELOSUMAY_PREFIX_NONE, 0x03,
      FELOSUMAY_TEXT("Head temperature"), 0}},
    {{1, FELOSUMAY_TEXT("Lamp")}, {2, FELOSUMAY_TEXT("Motors")}},
    {{LAMP_FAILED, FELOSUMAY_TEXT("Lamp failed to strike")}, {TEST_FAILED, FELOSUMAY_TEXT("Self test failed")}},
    /* no more slots, no parameters of the maker's own, and none that are left out: c/own.c has some */
    0, NULL, 0, NULL, 0,
    /* the usual times and workers of slow commands */
    {0, 0, 0, 0},
    {0, 0, 0, 0},
    /* no boot loader, not behind a proxy, and every message of a change waits */
    0, 0, 0,
    /* no names of choices, and no locks */
    NULL, 0, 0, {{0, 0}},
    /* one port */
    {0},
    /* no personalities with slots of their own */
    NULL, 0, NULL, 0,
};
