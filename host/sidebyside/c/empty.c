/* Empty buffers with a null pointer: prints what each function returns. */
#include "circmon.h"
#include <stdio.h>

int main(void) {
    const uint8_t table[CIRCMON_TABLE_BYTES] = {0x88, 0x00, 0x0C, 0xC0, 0x00, 0xE0};
    const uint8_t create[CIRCMON_REQUEST_BYTES] = {0x50, 0x80};
    uint8_t image[CIRCMON_IMAGE_BYTES];
    circmon_unit unit;
    printf("open %d\n", circmon_open(&unit, NULL, 0));
    printf("start %d", circmon_start(&unit, NULL, 0));
    printf(" %d\n", circmon_start(&unit, table, sizeof table));
    printf("open_in %d", circmon_open_in(&unit, 1, 1, 0, 0, NULL, 0));
    printf(" %d\n", circmon_open_in(&unit, 0, 1, 0, 0, NULL, 0));
    printf("start_in %d", circmon_start_in(&unit, 1, 1, 0, 0, NULL, 0));
    printf(" %d\n", circmon_start_in(&unit, 1, 65, 0, 0, NULL, 0));
    circmon_start(&unit, table, sizeof table);
    printf("ask %d\n", circmon_ask(&unit, NULL, 0));
    printf("take_back %d\n", circmon_take_back(&unit));
    printf("save %d\n", circmon_save(&unit, NULL, 0));
    printf("page %d", circmon_page(&unit, 64, NULL, 0));
    printf(" %d", circmon_page(&unit, 0, NULL, 0));
    circmon_ask(&unit, create, sizeof create);
    printf(" %d\n", circmon_page(&unit, 0, NULL, 0));
    printf("clash %d\n", (int)circmon_clash(&unit, NULL, 0));
    printf("begin %d", circmon_begin(NULL, 0, image, sizeof image));
    printf(" %d", circmon_begin(table, sizeof table, NULL, 0));
    printf(" %d\n", circmon_begin(table, sizeof table, image, sizeof image));
    printf("read %d\n", circmon_read(NULL, 0));
    printf("request %d", circmon_request(NULL, 0, table, CIRCMON_REQUEST_BYTES));
    printf(" %d\n", circmon_request(image, sizeof image, NULL, 0));
    printf("replay %d", circmon_replay(NULL, 0, NULL, 0, NULL, 0));
    printf(" %d", circmon_replay(table, sizeof table, NULL, 0, NULL, 0));
    printf(" %d\n", circmon_replay(table, sizeof table, table, 1, NULL, 0));
    printf("distinguish %d", circmon_distinguish(NULL, 0, image, sizeof image, NULL, 0));
    printf(" %d", circmon_distinguish(image, sizeof image, NULL, 0, NULL, 0));
    printf(" %d\n", circmon_distinguish(image, sizeof image, image, sizeof image, NULL, 0));
    printf("distinguish_in %d", circmon_distinguish_in(16, 64, 15, 0xFFFF, NULL, 0, image, sizeof image, NULL, 0));
    printf(" %d", circmon_distinguish_in(16, 64, 15, 0xFFFF, image, sizeof image, NULL, 0, NULL, 0));
    printf(" %d", circmon_distinguish_in(16, 64, 16, 0xFFFF, NULL, 0, NULL, 0, NULL, 0));
    printf(" %d\n", circmon_distinguish_in(16, 64, 15, 0xFFFF, image, sizeof image, image, sizeof image, NULL, 0));
    printf("load %d", (int)circmon_load(1, NULL, 0));
    printf(" %d\n", (int)circmon_load(0, NULL, 0));
    return 0;
}
