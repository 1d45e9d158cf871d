/* Begins units and tells images apart under any four numbers of a profile, in their ranges or not. Cases come from standard input: a
 * byte that says which function, the numbers of subjects and objects, the class, two bytes of needs, then two buffers, each behind
 * two bytes with its length. Of each the number that is returned is written, with every byte of the unit or of the requests. */
#include "circmon.h"
#include <stdio.h>
#include <string.h>

enum { START = 0, OPEN = 1, LEFT = 0xEE };

static int number(void) {
    int high = getchar();
    return high << 8 | getchar();
}

/* A buffer, and how long it is. */
static circmon_size buffer(uint8_t *bytes) {
    size_t length = (size_t)number();
    return fread(bytes, 1, length, stdin);
}

int main(void) {
    static uint8_t one[1 << 16], other[1 << 16];
    int function;
    while ((function = getchar()) != EOF) {
        uint8_t subjects = (uint8_t)getchar(), objects = (uint8_t)getchar(), class_ = (uint8_t)getchar();
        uint16_t needs = (uint16_t)number();
        circmon_size one_len = buffer(one), other_len = buffer(other);
        circmon_unit unit;
        uint8_t requests[CIRCMON_DISTINGUISH_BYTES];
        memset(&unit, LEFT, sizeof unit);
        memset(requests, LEFT, sizeof requests);
        if (function == START) {
            putchar(circmon_start_in(&unit, subjects, objects, class_, needs, one, one_len));
        } else if (function == OPEN) {
            putchar(circmon_open_in(&unit, subjects, objects, class_, needs, one, one_len));
        } else {
            putchar(circmon_distinguish_in(subjects, objects, class_, needs, one, one_len, other, other_len, requests, sizeof requests));
        }
        fwrite(function <= OPEN ? (const void *)&unit : requests, 1, function <= OPEN ? sizeof unit : sizeof requests, stdout);
    }
    return 0;
}
