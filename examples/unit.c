/* A unit in C: it starts from an enrolment table, answers requests in memory, writes the access page of an object, saves
 * its state as an image and opens it again; a delete taken back; the order of two gets; objects of two competing
 * companies; an object under another one; a request on an image alone; two levels compared; a test load; and a unit
 * under the profile of a small plant. docs/EMBEDDING.md builds and runs it. */
#include "circmon.h"
#include <stdio.h>
#include <string.h>

/* Subject 0 has class 1 needs {0}, subject 1 class 3 needs {0,1}, subject 2 class 0 needs {}. */
static const uint8_t table[CIRCMON_TABLE_BYTES] = {0x88, 0x00, 0x0C, 0xC0, 0x00, 0xE0};

static const struct {
    const char *words;
    uint8_t bytes[CIRCMON_REQUEST_BYTES];
} requests[] = {
    {"s1 creates o0", {0x50, 0x80, 0x00, 0x00, 0x00, 0x00}},
    {"s1 gets r on o0, which has no label", {0x10, 0x80, 0x01, 0x00, 0x00, 0x00}},
    {"s1 labels o0 class 1 needs {0}", {0x70, 0x80, 0x00, 0x10, 0x00, 0x10}},
    {"s1 labels o0 class 0 needs {}, which is lower", {0x70, 0x80, 0x00, 0x00, 0x00, 0x00}},
    {"s1 gets r on o0", {0x10, 0x80, 0x01, 0x00, 0x00, 0x00}},
};
static const char *const answers[] = {"equal", "above", "below", "apart"};
static const uint8_t release[CIRCMON_REQUEST_BYTES] = {0x20, 0x80, 0x01, 0x00, 0x00, 0x00};
static const uint8_t delete_o0[CIRCMON_REQUEST_BYTES] = {0x60, 0x80};

/* A mistaken delete: the object is there again, with its label, its rights and the accesses held. */
static void mistaken_delete(circmon_unit *unit) {
    printf("s1 deletes o0: %d\n", circmon_ask(unit, delete_o0, sizeof delete_o0));
    printf("take back: %d\n", circmon_take_back(unit));
    printf("take back, with nothing left in the journal: %d\n", circmon_take_back(unit));
}

/* s1 creates o1 and labels it class 0 needs {}. */
static const uint8_t make_o1[2][CIRCMON_REQUEST_BYTES] = {{0x50, 0x80, 0x08}, {0x70, 0x80, 0x08}};
/* s1 gets r on o0 and a on o1. */
static const uint8_t wanted[2][CIRCMON_REQUEST_BYTES] = {{0x10, 0x80, 0x01}, {0x10, 0x80, 0x0B}};

/* After a power return s1 takes both accesses: does it matter which of them comes first? */
static void start_order(circmon_unit *unit) {
    uint64_t answer;
    circmon_ask(unit, release, sizeof release);
    circmon_ask(unit, make_o1[0], sizeof make_o1[0]);
    circmon_ask(unit, make_o1[1], sizeof make_o1[1]);
    answer = circmon_clash(unit, wanted[0], sizeof wanted);
    printf("order of s1 gets r on o0 and s1 gets a on o1: %d", CIRCMON_ORDERS_CODE(answer));
    if (CIRCMON_ORDERS_CODE(answer) == CIRCMON_ORDERS_CLASH) {
        printf(", those at the places %d and %d are never both granted", (int)CIRCMON_ORDERS_FIRST(answer),
               (int)CIRCMON_ORDERS_SECOND(answer));
    }
    printf("\n");
}

/* s1 sets the companies of o0 to 1 0 0 0 and those of o1 to 2 0 0 0: two that compete in conflict class 1. */
static const uint8_t set_companies[2][CIRCMON_REQUEST_BYTES] = {{0x80, 0x80, 0x00, 0x01}, {0x80, 0x80, 0x08, 0x02}};
/* s1 gets r on o0 and r on o1. */
static const uint8_t reads[2][CIRCMON_REQUEST_BYTES] = {{0x10, 0x80, 0x01}, {0x10, 0x80, 0x09}};

/* Both labels allow s1 to read, and the wall allows it one of the two at a time. */
static void competing(circmon_unit *unit) {
    printf("s1 sets the company of o0 to 1: %d\n", circmon_ask(unit, set_companies[0], sizeof set_companies[0]));
    printf("s1 sets the company of o1 to 2: %d\n", circmon_ask(unit, set_companies[1], sizeof set_companies[1]));
    printf("s1 gets r on o0: %d\n", circmon_ask(unit, reads[0], sizeof reads[0]));
    printf("s1 gets r on o1: %d\n", circmon_ask(unit, reads[1], sizeof reads[1]));
}

/* s1 creates o2 under o0, the needs field holding the number of o0 plus one; labels it class 0 needs {}; creates o3 under o9. */
static const uint8_t make_o2[CIRCMON_REQUEST_BYTES] = {0x50, 0x80, 0x10, 0x00, 0x00, 0x10}, label_o2[CIRCMON_REQUEST_BYTES] = {0x70, 0x80, 0x10};
static const uint8_t make_o3[CIRCMON_REQUEST_BYTES] = {0x50, 0x80, 0x18, 0x00, 0x00, 0xA0};

/* What is under an object goes with it, and that is not taken back. */
static void branch(circmon_unit *unit) {
    printf("s1 creates o2 under o0: %d\n", circmon_ask(unit, make_o2, sizeof make_o2));
    printf("s1 labels o2 class 0 needs {}, which does not dominate the label of o0: %d\n", circmon_ask(unit, label_o2, sizeof label_o2));
    printf("s1 creates o3 under o9, which is not live: %d\n", circmon_ask(unit, make_o3, sizeof make_o3));
    printf("s1 deletes o0, and o2 with it: %d\n", circmon_ask(unit, delete_o0, sizeof delete_o0));
    printf("take back, after a delete that took a child: %d\n", circmon_take_back(unit));
}

/* s1 creates o9 and o10. */
static const uint8_t make_o9[CIRCMON_REQUEST_BYTES] = {0x50, 0x80, 0x48}, make_o10[CIRCMON_REQUEST_BYTES] = {0x50, 0x80, 0x50};

/* Four tasks at most, ten objects, classes up to 3, and the needs 0 and 1. */
static void small_plant(void) {
    circmon_unit unit;
    uint8_t image[CIRCMON_IMAGE_BYTES];
    printf("a plant of 2 tasks, from a table with 3: %d\n", circmon_start_in(&unit, 2, 10, 3, 0x0003, table, sizeof table));
    printf("a plant of 4 tasks: %d\n", circmon_start_in(&unit, 4, 10, 3, 0x0003, table, sizeof table));
    printf("s1 creates o9: %d\n", circmon_ask(&unit, make_o9, sizeof make_o9));
    printf("s1 creates o10, which is beyond the profile: %d\n", circmon_ask(&unit, make_o10, sizeof make_o10));
    /* the image does not say the profile */
    circmon_save(&unit, image, sizeof image);
    printf("open under the same profile: %d\n", circmon_open_in(&unit, 4, 10, 3, 0x0003, image, sizeof image));
}

int main(void) {
    circmon_unit unit, again;
    uint8_t saved[CIRCMON_IMAGE_BYTES], image[CIRCMON_IMAGE_BYTES], telling[CIRCMON_DISTINGUISH_BYTES];
    uint8_t page[CIRCMON_PAGE_BYTES], load[200 * CIRCMON_REQUEST_BYTES], answer;
    uint64_t loaded;
    int granted = 0;
    printf("start: %d\n", circmon_start(&unit, table, sizeof table));
    for (size_t i = 0; i < sizeof requests / sizeof *requests; i++) {
        uint8_t reply = circmon_ask(&unit, requests[i].bytes, CIRCMON_REQUEST_BYTES);
        printf("%s: %d, %s\n", requests[i].words, reply, reply < 2 ? "granted" : "refused");
    }
    /* the page is text for a terminal */
    printf("page of o0: %d\n", circmon_page(&unit, 0, page, sizeof page));
    fwrite(page, 1, sizeof page, stdout);
    /* the image is the whole state */
    printf("save: %d\n", circmon_save(&unit, saved, sizeof saved));
    printf("open: %d\n", circmon_open(&again, saved, sizeof saved));
    mistaken_delete(&again);
    /* the journal, which is behind the monitor, is not compared */
    printf("the two units are %s\n", memcmp(&unit, &again, CIRCMON_MONITOR_BYTES) == 0 ? "equal" : "different");
    start_order(&again);
    competing(&again);
    branch(&again);
    /* without a unit: the image is read, checked and written by the call */
    memcpy(image, saved, sizeof image);
    printf("s1 releases r on o0, on an image: %d\n", circmon_request(image, sizeof image, release, sizeof release));
    printf("requests that tell it from the one saved: %d\n",
           circmon_distinguish(image, sizeof image, saved, sizeof saved, telling, sizeof telling));
    /* why s0 could not read an object with this label */
    answer = circmon_compare(1, 0x0001, 2, 0x0002);
    printf("class 1 needs {0} compared with class 2 needs {1}: %d, %s\n", answer, answers[answer]);
    /* a test load: a number with a count beside it */
    loaded = circmon_load(1, load, sizeof load);
    for (uint64_t i = 0; i < CIRCMON_COUNT(loaded); i++) {
        granted += circmon_ask(&unit, load + CIRCMON_REQUEST_BYTES * i, CIRCMON_REQUEST_BYTES) < 2;
    }
    printf("load from seed 1: %d, %d requests, %d of them granted\n", CIRCMON_NUMBER(loaded), (int)CIRCMON_COUNT(loaded),
           granted);
    small_plant();
    return 0;
}
