/* The stack that each function of the header needs: it is called by a thread on a stack of known content, and the deepest byte
 * that was changed is looked for. What lies above the call is taken off. The end of the thread needs some tens of bytes in
 * the same place, so a function that needs fewer is measured with these. A delete goes down from parent to child: where a request
 * may be one, that of a chain of all objects is measured by itself. Prints one line for each, its parts with a tab between. */
#include "circmon.h"
#include <pthread.h>
#include <stdio.h>
#include <stdlib.h>
#include <string.h>

enum { STACK = 1 << 20, OBJECTS = 64, SUBJECTS = 16, PIECES = 4096, FULL = 4 * OBJECTS, MARK = 0xA5 };

static uint8_t table[CIRCMON_TABLE_BYTES];
static circmon_unit unit;
static uint8_t image[CIRCMON_IMAGE_BYTES];
static uint8_t other[CIRCMON_IMAGE_BYTES];
static uint8_t written[CIRCMON_IMAGE_BYTES];
static uint8_t requests[PIECES][CIRCMON_REQUEST_BYTES];
static uint8_t replies[PIECES];
static uint8_t told[CIRCMON_DISTINGUISH_BYTES];
static uint8_t text[CIRCMON_PAGE_BYTES];
static uint8_t made[PIECES * CIRCMON_REQUEST_BYTES];
static uint8_t wanted[PIECES][CIRCMON_REQUEST_BYTES];
static uint8_t chain[OBJECTS + 1][CIRCMON_REQUEST_BYTES];
static circmon_unit linked;
static uint8_t linked_image[CIRCMON_IMAGE_BYTES];
static volatile uint8_t answer;

/* The six bytes of a request: kind 4 bits, actor 5, other 5, object 7, mode 3, class 4, needs 16, spare 4. */
static void request(uint8_t *to, uint64_t kind, uint64_t actor, uint64_t other, uint64_t object, uint64_t mode, uint64_t level) {
    uint64_t word = kind << 44 | actor << 39 | other << 34 | object << 27 | mode << 24 | level << 4;
    for (int i = 0; i < CIRCMON_REQUEST_BYTES; i++) {
        to[i] = (uint8_t)(word >> (40 - 8 * i));
    }
}

/* All kinds in turn on every object: the first four times all objects become live, labelled, those of four companies, and written
 * by their owner. Every other object is under the one before it; in the end these go first, so that no delete takes a child. */
static void draw(void) {
    for (int i = 0; i < PIECES; i++) {
        int step = i / OBJECTS % 10;
        uint64_t object = (uint64_t)(step == 9 ? OBJECTS - 1 - i % OBJECTS : i % OBJECTS);
        uint64_t actor = object % SUBJECTS, last = (actor + 1) % SUBJECTS;
        switch (step) {
        case 0: request(requests[i], 5, actor, 0, object, 4, object % 2 ? object : 0); break;
        case 1: request(requests[i], 7, actor, 0, object, 0, 0x30001); break;
        case 2: request(requests[i], 8, actor, 0, object, 0, 0x1234); break;
        case 3: request(requests[i], 1, actor, 0, object, 2, 0); break;
        case 4: request(requests[i], 7, actor, 0, object, 0, 0x40001); break;
        case 5: request(requests[i], 8, actor, 0, object, 0, 0x1235); break;
        case 6: request(requests[i], 3, actor, last, object, 1, 0); break;
        case 7: request(requests[i], 4, actor, last, object, 1, 0); break;
        case 8: request(requests[i], 2, actor, 0, object, 2, 0); break;
        default: request(requests[i], 6, actor, 0, object, 0, 0); break;
        }
    }
}

/* Creates that put each object under the one before it, the field of the parent being its number plus one, and behind them a delete of
 * the first, which takes all. */
static void draw_chain(void) {
    for (int i = 0; i < OBJECTS; i++) {
        request(chain[i], 5, 0, 0, (uint64_t)i, 4, (uint64_t)i);
    }
    request(chain[OBJECTS], 6, 0, 0, 0, 0, 0);
    circmon_start(&linked, table, sizeof table);
    for (int i = 0; i < OBJECTS; i++) {
        circmon_ask(&linked, chain[i], CIRCMON_REQUEST_BYTES);
    }
    circmon_save(&linked, linked_image, sizeof linked_image);
}

/* Gets of one subject on objects that it writes, which are granted alone and agree: so every pair is looked at. */
static void draw_gets(void) {
    for (int i = 0; i < PIECES; i++) {
        request(wanted[i], 1, SUBJECTS - 1, 0, (uint64_t)(SUBJECTS - 1 + SUBJECTS * (i % 4)), 2, 0);
    }
}

/* All subjects enrolled with class 15 and all needs, and a full state in the unit and in the images, the two of which differ. */
static void fill(void) {
    memset(table, 0xFF, sizeof table);
    draw();
    draw_gets();
    draw_chain();
    circmon_start(&unit, table, sizeof table);
    for (int i = 0; i < FULL; i++) {
        circmon_ask(&unit, requests[i], CIRCMON_REQUEST_BYTES);
    }
    circmon_save(&unit, image, sizeof image);
    memcpy(other, image, sizeof other);
    request(told, 2, 15, 0, 63, 2, 0);
    circmon_request(other, sizeof other, told, CIRCMON_REQUEST_BYTES);
}

/* Where every thread begins its work. */
static uint8_t *begun;
static void *nothing(void *unused) { begun = (uint8_t *)__builtin_frame_address(0); return unused; }
static void *open_unit(void *unused) { answer = circmon_open(&unit, image, sizeof image); return unused; }
static void *start(void *unused) { answer = circmon_start(&unit, table, sizeof table); return unused; }
static void *open_in(void *unused) { answer = circmon_open_in(&unit, SUBJECTS, OBJECTS, 15, 0xFFFF, image, sizeof image); return unused; }
static void *start_in(void *unused) { answer = circmon_start_in(&unit, SUBJECTS, OBJECTS, 15, 0xFFFF, table, sizeof table); return unused; }
static void *take_back(void *unused) { answer = circmon_take_back(&unit); return unused; }
static void *save(void *unused) { answer = circmon_save(&unit, written, sizeof written); return unused; }
static void *page(void *unused) { answer = circmon_page(&unit, OBJECTS - 1, text, sizeof text); return unused; }
static void *clash(void *unused) { answer = (uint8_t)circmon_clash(&unit, wanted[0], sizeof wanted); return unused; }
static void *begin(void *unused) { answer = circmon_begin(table, sizeof table, written, sizeof written); return unused; }
static void *reading(void *unused) { answer = circmon_read(image, sizeof image); return unused; }
/* A change of level and companies, which look at all subjects. */
static void *on_image(void *unused) {
    answer = circmon_request(image, sizeof image, requests[FULL], CIRCMON_REQUEST_BYTES);
    answer = circmon_request(image, sizeof image, requests[FULL + OBJECTS], CIRCMON_REQUEST_BYTES);
    return unused;
}
static void *replay(void *unused) { answer = circmon_replay(table, sizeof table, requests[0], sizeof requests, replies, sizeof replies); return unused; }
static void *distinguish(void *unused) { answer = circmon_distinguish(image, sizeof image, other, sizeof other, told, sizeof told); return unused; }
static void *distinguish_in(void *unused) { answer = circmon_distinguish_in(SUBJECTS, OBJECTS, 15, 0xFFFF, image, sizeof image, other, sizeof other, told, sizeof told); return unused; }
static void *chain_asked(void *unused) { answer = circmon_ask(&linked, chain[OBJECTS], CIRCMON_REQUEST_BYTES); return unused; }
static void *chain_requested(void *unused) { answer = circmon_request(linked_image, sizeof linked_image, chain[OBJECTS], CIRCMON_REQUEST_BYTES); return unused; }
static void *chain_replayed(void *unused) { answer = circmon_replay(table, sizeof table, chain[0], sizeof chain, replies, sizeof replies); return unused; }
static void *compare(void *unused) { answer = circmon_compare(2, 0x0001, 1, 0x0003); return unused; }
static void *load(void *unused) { answer = (uint8_t)circmon_load(1, made, sizeof made); return unused; }

/* Every kind, from the full state on: what the deepest of them needs. */
static void *ask(void *unused) {
    for (int i = FULL; i < PIECES; i++) {
        answer = circmon_ask(&unit, requests[i], CIRCMON_REQUEST_BYTES);
    }
    return unused;
}

/* How many bytes of the stack are changed below the place where the work begins. */
static size_t depth(void *(*work)(void *)) {
    static uint8_t *stack;
    pthread_attr_t attributes;
    pthread_t thread;
    size_t left = 0;
    if (!stack && posix_memalign((void **)&stack, 4096, STACK)) {
        abort();
    }
    memset(stack, MARK, STACK);
    pthread_attr_init(&attributes);
    if (pthread_attr_setstack(&attributes, stack, STACK) || pthread_create(&thread, &attributes, work, NULL) || pthread_join(thread, NULL)) {
        abort();
    }
    while (stack[left] == MARK) {
        left++;
    }
    return (size_t)(begun - (stack + left));
}

int main(void) {
    const struct { const char *name; void *(*work)(void *); } rows[] = {
        {"circmon_open", open_unit}, {"circmon_start", start}, {"circmon_open_in", open_in}, {"circmon_start_in", start_in}, {"circmon_ask", ask},
        {"circmon_ask, a delete of 64 objects in a chain", chain_asked}, {"circmon_take_back", take_back},
        {"circmon_save", save},
        {"circmon_page", page}, {"circmon_clash", clash}, {"circmon_begin", begin}, {"circmon_read", reading},
        {"circmon_request", on_image}, {"circmon_request, a delete of 64 objects in a chain", chain_requested},
        {"circmon_replay", replay}, {"circmon_replay, a delete of 64 objects in a chain", chain_replayed}, {"circmon_distinguish", distinguish},
        {"circmon_distinguish_in", distinguish_in}, {"circmon_compare", compare}, {"circmon_load", load}};
    depth(nothing);
    for (size_t i = 0; i < sizeof rows / sizeof *rows; i++) {
        fill();
        printf("%s\t%zu", rows[i].name, depth(rows[i].work));
        printf("\t%d\n", answer);
    }
    return 0;
}
