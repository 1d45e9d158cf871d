/* Tables, requests and images by their bits, a page by its characters and a load by its draws, written from docs/FORMATS.md
 * alone: a table with three subjects, each of the eight kinds of request, the records of two objects read out of the image, an
 * access page, and test loads made here beside those of the library. docs/FORMATS.md builds and runs it. */
#include "circmon.h"
#include <stdio.h>
#include <string.h>

/* The fields are packed most significant bit first: bit 0 is the bit of weight 128 in byte 0. */
static void put(uint8_t *bytes, unsigned at, unsigned width, unsigned number) {
    for (unsigned i = 0; i < width; i++) {
        unsigned place = at + i, mask = 0x80u >> place % 8;
        unsigned bit = number >> (width - 1 - i) & 1;
        bytes[place / 8] = (uint8_t)(bit ? bytes[place / 8] | mask : bytes[place / 8] & ~mask);
    }
}

static unsigned get(const uint8_t *bytes, unsigned at, unsigned width) {
    unsigned number = 0;
    for (unsigned place = at; place < at + width; place++) {
        number = number << 1 | (bytes[place / 8] >> (7 - place % 8) & 1u);
    }
    return number;
}

enum kind { GET = 1, RELEASE, GIVE, RESCIND, CREATE, DELETE, CHANGE_LEVEL, SET_COMPANIES };
enum mode { NONE, R, W, A, E };

struct request {
    const char *words;
    enum kind kind;
    unsigned actor, other, object;
    enum mode mode;
    unsigned class, needs;
};

static void pack(uint8_t bytes[CIRCMON_REQUEST_BYTES], const struct request *it) {
    put(bytes, 0, 4, it->kind);
    put(bytes, 4, 5, it->actor);
    put(bytes, 9, 5, it->other);
    put(bytes, 14, 7, it->object);
    put(bytes, 21, 3, it->mode);
    put(bytes, 24, 4, it->class);
    put(bytes, 28, 16, it->needs);
    put(bytes, 44, 4, 0);
}

static void enrol(uint8_t *table, unsigned subject, unsigned class, unsigned needs) {
    put(table, 21 * subject, 1, 1);
    put(table, 21 * subject + 1, 4, class);
    put(table, 21 * subject + 5, 16, needs);
}

static void hex(const char *words, const uint8_t *bytes, size_t count) {
    for (size_t i = 0; i < count; i++) {
        printf("%02X ", bytes[i]);
    }
    printf(" %s", words);
}

static void show_object(const uint8_t *image, unsigned object) {
    unsigned at = 336 + 177 * object, parent = get(image, at + 170, 7);
    printf("o%u: live %u, owner %u, label %u, class %u, needs 0x%04X, companies", object, get(image, at, 1), get(image, at + 1, 4),
           get(image, at + 5, 1), get(image, at + 6, 4), get(image, at + 10, 16));
    for (unsigned class = 1; class <= 4; class++) {
        printf(" %u", get(image, at + 26 + 4 * (class - 1), 4));
    }
    if (parent != 0) {
        printf(", under o%u", parent - 1);
    }
    printf("\n");
    for (unsigned subject = 0; subject < 16; subject++) {
        unsigned rights = get(image, at + 42 + 8 * subject, 4), held = get(image, at + 46 + 8 * subject, 4);
        if (rights | held) {
            printf("    s%u: rights %X, accesses %X\n", subject, rights, held);
        }
    }
}

/* The fields of a page are text at fixed places. */
static void show_page(const uint8_t *image, unsigned object) {
    circmon_unit unit;
    uint8_t page[CIRCMON_PAGE_BYTES];
    const char *text = (const char *)page, *last = text + 240;
    circmon_open(&unit, image, CIRCMON_IMAGE_BYTES);
    printf("the page of o%u: %d\n", object, circmon_page(&unit, (uint8_t)object, page, sizeof page));
    for (const char *line = text; line < last; line += 15) {
        if (line[13] != '0') {
            printf("    s%.2s: rights %.4s, accesses %.4s, in number %c\n", line, line + 3, line + 8, line[13]);
        }
    }
    printf("    holders: r %.2s, w %.2s, a %.2s, e %.2s, total %.2s\n", last + 3, last + 6, last + 9, last + 12, last + 15);
}

/* The next draw of a load. */
static uint32_t draw(uint32_t *state) {
    *state ^= *state << 13;
    *state ^= *state >> 17;
    *state ^= *state << 5;
    return *state;
}

/* Seven draws, in the order of the fields; a field that the kind does not use is drawn and is 0. */
static void drawn(uint8_t bytes[CIRCMON_REQUEST_BYTES], uint32_t *state) {
    struct request it = {"", (enum kind)(1 + draw(state) % 7), 0, 0, 0, NONE, 0, 0};
    it.actor = draw(state) % 16;
    it.other = draw(state) % 16 * (it.kind == GIVE || it.kind == RESCIND);
    it.object = draw(state) % 64;
    uint32_t d = draw(state);
    it.mode = (enum mode)(it.kind <= RESCIND ? 1 + d % 4 : it.kind == CREATE ? 4 * (d % 2) : 0);
    it.class = draw(state) % 16 * (it.kind == CHANGE_LEVEL);
    it.needs = draw(state) % 65536 * (it.kind == CHANGE_LEVEL);
    pack(bytes, &it);
}

static void compare_loads(uint32_t seeds) {
    uint8_t library[20 * CIRCMON_REQUEST_BYTES], here[sizeof library];
    uint32_t equal = 0;
    for (uint32_t seed = 1; seed <= seeds; seed++) {
        uint32_t state = seed;
        for (size_t i = 0; i < sizeof here; i += CIRCMON_REQUEST_BYTES) {
            drawn(here + i, &state);
        }
        uint64_t answer = circmon_load(seed, library, sizeof library);
        equal += answer % 256 == 0 && answer / 256 == 20 && memcmp(library, here, sizeof here) == 0;
    }
    printf("loads of 20 requests from seeds 1 to %u: %u are as drawn here\n", (unsigned)seeds, (unsigned)equal);
}

static const struct request requests[] = {
    {"s1 creates o1 with e", CREATE, 1, 0, 1, E, 0, 0},
    {"s1 changes the level of o1 to class 2 needs {0}", CHANGE_LEVEL, 1, 0, 1, NONE, 2, 0x0001},
    {"s1 gives s2 r on o1", GIVE, 1, 2, 1, R, 0, 0},
    {"s2 gets r on o1", GET, 2, 0, 1, R, 0, 0},
    {"s1 gets w on o1", GET, 1, 0, 1, W, 0, 0},
    {"s1 gets e on o1", GET, 1, 0, 1, E, 0, 0},
    {"s1 releases e on o1", RELEASE, 1, 0, 1, E, 0, 0},
    {"s1 rescinds r on o1 from s2", RESCIND, 1, 2, 1, R, 0, 0},
    {"s1 creates o63", CREATE, 1, 0, 63, NONE, 0, 0},
    {"s1 deletes o63", DELETE, 1, 0, 63, NONE, 0, 0},
    {"s1 creates o2 under o1", CREATE, 1, 0, 2, NONE, 0, 1 + 1},
    {"s1 sets the companies of o1 to 3 0 0 1", SET_COMPANIES, 1, 0, 1, NONE, 0, 3 * 4096 + 0 * 256 + 0 * 16 + 1},
};

int main(void) {
    uint8_t table[CIRCMON_TABLE_BYTES] = {0}, image[CIRCMON_IMAGE_BYTES];
    enrol(table, 0, 1, 0x0001);
    enrol(table, 1, 3, 0x0003);
    enrol(table, 2, 0, 0x0000);
    hex("and 36 bytes 00: the table", table, 6);
    printf(": %d\n", circmon_begin(table, sizeof table, image, sizeof image));
    for (size_t i = 0; i < sizeof requests / sizeof *requests; i++) {
        uint8_t bytes[CIRCMON_REQUEST_BYTES];
        pack(bytes, &requests[i]);
        hex(requests[i].words, bytes, sizeof bytes);
        printf(": %d\n", circmon_request(image, sizeof image, bytes, sizeof bytes));
    }
    hex("bytes 64 to 71 of the image\n", image + 64, 8);
    show_object(image, 1);
    show_object(image, 2);
    show_page(image, 1);
    compare_loads(10000);
    return 0;
}
