/* The header compiles in C and in C++, and its functions answer the marked run's first steps: prints what they return. */
#include "circmon.h"
#include <stdio.h>
#include <string.h>

static const uint8_t table[CIRCMON_TABLE_BYTES] = {0x88, 0x00, 0x0C, 0xC0, 0x00, 0xE0};
static const uint8_t requests[3][CIRCMON_REQUEST_BYTES] = {
    {0x50, 0x80, 0, 0, 0, 0}, {0x10, 0x80, 0x01, 0, 0, 0}, {0x70, 0x80, 0, 0, 0, 0}};
/* Subject 1 changes the level of object 0 to class 1. */
static const uint8_t raise[CIRCMON_REQUEST_BYTES] = {0x70, 0x80, 0, 0x10, 0, 0};

/* The numbers 2, 4, 13 and 0, the line of subject 1, the last line, and a byte that is left. */
static void page_of(const circmon_unit *unit) {
    uint8_t page[CIRCMON_PAGE_BYTES + 1];
    memset(page, 0xEE, sizeof page);
    printf("page %d", circmon_page(unit, 64, page, sizeof page));
    printf(" %d", circmon_page(unit, 63, page, sizeof page));
    printf(" %d", circmon_page(unit, 0, page, CIRCMON_PAGE_BYTES - 1));
    printf(" %d\n", circmon_page(unit, 0, page, sizeof page));
    printf("%.15s%.18s%02x\n", (const char *)page + 15, (const char *)page + 240, page[CIRCMON_PAGE_BYTES]);
}

static void on_a_unit(uint8_t *image, circmon_size length) {
    circmon_unit unit;
    printf("start %d\n", circmon_start(&unit, table, sizeof table));
    for (int i = 0; i < 3; i++) {
        printf("ask %d\n", circmon_ask(&unit, requests[i], sizeof requests[i]));
    }
    printf("short %d\n", circmon_save(&unit, image, length - 1));
    printf("save %d\n", circmon_save(&unit, image, length));
    printf("open %d\n", circmon_open(&unit, image, length));
    printf("ask %d\n", circmon_ask(&unit, requests[2], sizeof requests[2]));
    page_of(&unit);
}

static void on_an_image(uint8_t *image, circmon_size length) {
    printf("begin %d\n", circmon_begin(table, sizeof table, image, length));
    for (int i = 0; i < 3; i++) {
        printf("request %d\n", circmon_request(image, length, requests[i], sizeof requests[i]));
    }
    printf("read %d\n", circmon_read(image, length));
    printf("short %d\n", circmon_begin(table, sizeof table, image, length - 1));
}

/* The label is raised to class 1, and is then not lowered to class 0: on a unit, and on an image. */
static void raised(const uint8_t *image, circmon_size length) {
    circmon_unit unit;
    uint8_t copy[CIRCMON_IMAGE_BYTES];
    circmon_open(&unit, image, length);
    memcpy(copy, image, sizeof copy);
    printf("raised %d", circmon_ask(&unit, raise, sizeof raise));
    printf(" %d\n", circmon_request(copy, sizeof copy, raise, sizeof raise));
    printf("lowered %d", circmon_ask(&unit, requests[2], sizeof requests[2]));
    printf(" %d\n", circmon_request(copy, sizeof copy, requests[2], sizeof requests[2]));
}

/* Subject 1 deletes object 0. */
static const uint8_t deletion[CIRCMON_REQUEST_BYTES] = {0x60, 0x80, 0, 0, 0, 0};

/* A label that rose and a delete are taken back, and then nothing is left to take back: the unit is as it was opened. */
static void taken_back(const uint8_t *image, circmon_size length) {
    circmon_unit unit, opened;
    uint8_t saved[CIRCMON_IMAGE_BYTES];
    circmon_open(&opened, image, length);
    memcpy(&unit, &opened, sizeof unit);
    printf("raised %d", circmon_ask(&unit, raise, sizeof raise));
    printf(", deleted %d", circmon_ask(&unit, deletion, sizeof deletion));
    printf(", gone %d", circmon_ask(&unit, requests[1], sizeof requests[1]));
    printf(", taken back %d", circmon_take_back(&unit));
    printf(" %d", circmon_ask(&unit, requests[2], sizeof requests[2]));
    printf(" %d", circmon_take_back(&unit));
    printf(" %d\n", circmon_take_back(&unit));
    circmon_save(&unit, saved, sizeof saved);
    printf("as opened %d", memcmp(&unit, &opened, CIRCMON_MONITOR_BYTES) == 0);
    printf(" %d\n", memcmp(saved, image, sizeof saved) == 0);
}

/* Subject 1 creates object 1 and gives it class 3 needs {0,1}, which is above the label of object 0. */
static const uint8_t second[2][CIRCMON_REQUEST_BYTES] = {{0x50, 0x80, 0x08, 0, 0, 0}, {0x70, 0x80, 0x08, 0x30, 0, 0x30}};
/* Subject 1 gets r on object 1, r on object 0 and a on object 0; the first and the last would together break star. */
static const uint8_t wanted[3][CIRCMON_REQUEST_BYTES] = {
    {0x10, 0x80, 0x09, 0, 0, 0}, {0x10, 0x80, 0x01, 0, 0, 0}, {0x10, 0x80, 0x03, 0, 0, 0}};

/* The code and the two places. */
static void clash(const circmon_unit *unit, const uint8_t *list, circmon_size length) {
    uint64_t found = circmon_clash(unit, list, length);
    printf(" %d:%d:%d", CIRCMON_ORDERS_CODE(found), (int)CIRCMON_ORDERS_FIRST(found), (int)CIRCMON_ORDERS_SECOND(found));
}

/* Each code, of a unit that is only read. */
static void start_orders(const uint8_t *image, circmon_size length) {
    static const uint8_t many[CIRCMON_REQUEST_BYTES * 4096 + 1] = {0};
    circmon_unit unit, kept;
    circmon_open(&unit, image, length);
    printf("second %d", circmon_ask(&unit, second[0], sizeof second[0]));
    printf(" %d\n", circmon_ask(&unit, second[1], sizeof second[1]));
    memcpy(&kept, &unit, sizeof kept);
    printf("clash");
    clash(&unit, wanted[0], 2 * sizeof wanted[0]);
    clash(&unit, wanted[0], sizeof wanted);
    clash(&unit, wanted[0], sizeof wanted - 1);
    clash(&unit, many, sizeof many - 1);
    clash(&unit, many, sizeof many);
    printf(" %d\n", memcmp(&kept, &unit, sizeof kept) == 0);
}

/* Subject 1 sets the companies of object 0 to 1 0 0 0 and those of object 1 to 2 0 0 0, and gets w on each. */
static const uint8_t competing[4][CIRCMON_REQUEST_BYTES] = {
    {0x80, 0x80, 0, 0x01, 0, 0}, {0x80, 0x80, 0x08, 0x02, 0, 0}, {0x10, 0x80, 0x02, 0, 0, 0}, {0x10, 0x80, 0x0A, 0, 0, 0}};
/* Subject 1 changes the level of object 1 to class 0, that of object 0: so only the wall keeps the two apart. */
static const uint8_t level_1[CIRCMON_REQUEST_BYTES] = {0x70, 0x80, 0x08, 0, 0, 0};

/* The wall: the two gets clash, and the second is refused with 18, on a unit and on an image; the bytes of the companies in the unit. */
static void companies(const uint8_t *image, circmon_size length) {
    circmon_unit unit;
    uint8_t copy[CIRCMON_IMAGE_BYTES];
    circmon_open(&unit, image, length);
    circmon_ask(&unit, second[0], sizeof second[0]);
    printf("companies %d", circmon_ask(&unit, level_1, sizeof level_1));
    for (int i = 0; i < 2; i++) {
        printf(" %d", circmon_ask(&unit, competing[i], sizeof competing[i]));
    }
    clash(&unit, competing[2], 2 * sizeof competing[2]);
    circmon_save(&unit, copy, sizeof copy);
    for (int i = 2; i < 4; i++) {
        printf(" %d", circmon_ask(&unit, competing[i], sizeof competing[i]));
        printf(" %d", circmon_request(copy, sizeof copy, competing[i], sizeof competing[i]));
    }
    printf(" %02x %02x\n", unit.row[128][6], unit.row[129][6]);
}

/* Subject 1 creates object 1 under object 0, object 2 under object 3, which is not live, and object 2 under itself; it changes the
 * level of object 0 to class 1, and of object 1 to class 0, which does not dominate it; and it deletes object 0. */
static const uint8_t tree[6][CIRCMON_REQUEST_BYTES] = {{0x50, 0x80, 0x08, 0, 0, 0x10}, {0x50, 0x80, 0x10, 0, 0, 0x40}, {0x50, 0x80, 0x10, 0, 0, 0x30},
                                                       {0x70, 0x80, 0, 0x10, 0, 0},    {0x70, 0x80, 0x08, 0, 0, 0},    {0x60, 0x80, 0, 0, 0, 0}};

/* Each on a unit and on an image; the parent of object 1 in the unit; then object 1 is gone too, and there is nothing to take back. */
static void parents(const uint8_t *image, circmon_size length) {
    circmon_unit unit;
    uint8_t copy[CIRCMON_IMAGE_BYTES], saved[CIRCMON_IMAGE_BYTES];
    circmon_open(&unit, image, length);
    memcpy(copy, image, sizeof copy);
    printf("parents");
    for (int i = 0; i < 6; i++) {
        printf(" %d", circmon_ask(&unit, tree[i], sizeof tree[i]));
        printf(" %d", circmon_request(copy, sizeof copy, tree[i], sizeof tree[i]));
        if (i == 4) {
            printf(" (%d)", unit.row[129][8]);
        }
    }
    printf(" %d %d", unit.row[128][0], unit.row[129][0]);
    printf(" %d", circmon_take_back(&unit));
    circmon_save(&unit, saved, sizeof saved);
    printf(" %d\n", memcmp(saved, copy, sizeof saved) == 0);
}

/* Under a profile of two subjects and one object, class 3 and the needs 0 and 1: table W has a third subject and is refused with 11,
 * and with needs 0 alone 16 comes for subject 1. Without its third subject it is accepted. */
static void profiles(void) {
    uint8_t two[CIRCMON_TABLE_BYTES], image[CIRCMON_IMAGE_BYTES], telling[CIRCMON_DISTINGUISH_BYTES];
    circmon_unit unit, again;
    memcpy(two, table, sizeof two);
    two[5] = 0xC0;
    printf("start_in %d", circmon_start_in(&unit, 2, 1, 3, 0x0003, table, sizeof table));
    printf(" %d", circmon_start_in(&unit, 2, 1, 3, 0x0001, two, sizeof two));
    printf(" %d", circmon_start_in(&unit, 17, 1, 3, 0x0003, two, sizeof two));
    printf(" %d\n", circmon_start_in(&unit, 2, 1, 3, 0x0003, two, sizeof two));
    printf("profile %d %d %d %d %d\n", unit.row[208][0], unit.row[208][1], unit.row[208][3], unit.row[208][4], unit.row[208][5]);
    printf("ask %d", circmon_ask(&unit, requests[0], sizeof requests[0]));
    printf(" %d", circmon_ask(&unit, second[0], sizeof second[0]));
    printf(" %d\n", circmon_save(&unit, image, sizeof image));
    printf("open_in %d", circmon_open_in(&again, 1, 1, 3, 0x0003, image, sizeof image));
    printf(" %d", circmon_open_in(&again, 2, 1, 3, 0x0003, image, sizeof image));
    printf(" %d\n", memcmp(&unit, &again, CIRCMON_MONITOR_BYTES) == 0);
    printf("distinguish_in %d", circmon_distinguish_in(2, 0, 3, 0x0003, image, sizeof image, image, sizeof image, telling, sizeof telling));
    printf(" %d\n", circmon_distinguish_in(2, 1, 3, 0x0003, image, sizeof image, image, sizeof image, telling, sizeof telling));
}

/* The number and the count of a load into 13 bytes, in which two requests have room, and the bytes after it. */
static void load_from(uint32_t seed) {
    uint8_t buffer[2 * CIRCMON_REQUEST_BYTES + 1];
    memset(buffer, 0xEE, sizeof buffer);
    uint64_t loaded = circmon_load(seed, buffer, sizeof buffer);
    printf("load %d %d", CIRCMON_NUMBER(loaded), (int)CIRCMON_COUNT(loaded));
    for (size_t i = 0; i < sizeof buffer; i++) {
        printf(" %02x", buffer[i]);
    }
    printf("\n");
}

int main(void) {
    uint8_t saved[CIRCMON_IMAGE_BYTES], image[CIRCMON_IMAGE_BYTES], fresh[CIRCMON_IMAGE_BYTES];
    uint8_t replies[4] = {0xEE, 0xEE, 0xEE, 0xEE}, telling[CIRCMON_DISTINGUISH_BYTES];
    on_a_unit(saved, sizeof saved);
    on_an_image(image, sizeof image);
    printf("the same image %d\n", memcmp(saved, image, sizeof image) == 0);
    raised(image, sizeof image);
    taken_back(image, sizeof image);
    start_orders(image, sizeof image);
    companies(image, sizeof image);
    parents(image, sizeof image);
    profiles();
    printf("replay %d\n", circmon_replay(table, sizeof table, requests[0], sizeof requests, replies, sizeof replies));
    printf("replies %d %d %d %d\n", replies[0], replies[1], replies[2], replies[3]);
    memset(telling, 0xEE, sizeof telling);
    printf("begin %d\n", circmon_begin(table, sizeof table, fresh, sizeof fresh));
    printf("distinguish %d\n", circmon_distinguish(image, sizeof image, fresh, sizeof fresh, telling, sizeof telling));
    printf("telling %02x %02x %02x %02x %02x %02x %02x\n", telling[0], telling[1], telling[2], telling[3], telling[4],
           telling[5], telling[6]);
    printf("compare %d %d", circmon_compare(1, 0x0001, 1, 0x0001), circmon_compare(2, 0x8001, 1, 0x8000));
    printf(" %d %d\n", circmon_compare(1, 0x0000, 1, 0x8000), circmon_compare(16, 0x0001, 15, 0x8000));
    load_from(0);
    load_from(1);
    return 0;
}
