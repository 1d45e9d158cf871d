/* circmon: a Bell-LaPadula reference monitor, for C11 and C++11. Link with libcapi.a, which `tools/library` writes to
 * target/staticlib.
 *
 * Each function is proved to meet its contract for every content of every buffer, where a pointer comes with the length of
 * what it points to, and the pointer to a unit points to a whole one. A buffer or unit that a call may write must not
 * overlap another one of that call; two that it only reads may be the same. An empty buffer may have any pointer, also
 * NULL, with length 0. No function keeps a pointer, allocates, or has a state of its own: calls that share nothing
 * that one of them writes may run at once.
 *
 * Numbers: 0 granted and changed, or accepted, or written, or taken back; 1 granted and so already; 2 malformed or outside the
 * profile, of a page: the object is above 63; 3 not enrolled; 4 object not live; 5 create on a live object; 6 right or
 * ownership missing, of an image: an access is held without the right; 7 no label, of an image: r, w or a is held on an object
 * without one; 8 the simple property would break, of an image: is broken; 9 the star property would break, of an image: is
 * broken; 10 another length; 11 a stray bit in what is absent; 12 an absent subject owns, has a right or holds; 13 the buffer
 * is too short; 14 the new label does not dominate the one that the object has; 15 the seed of a load is 0; 16 a profile
 * outside its ranges, or a clearance or label outside the profile; 17 the journal is empty: nothing to take back; 18 the wall of
 * competing companies would break, of an image: is broken; 19 the parent is not live, of an image also: parent bits above 64 or a
 * chain of parents that does not end; 20 the label would break the rule toward parent or child, of an image: breaks it.
 * circmon_compare has four numbers of its own, and circmon_clash has four codes of its own. docs/FORMATS.md has the bytes.
 *
 * A function that returns a number with a count beside it returns both in 64 bits: the number in the low byte and the count,
 * cut to 56 bits, above it. Of what it returns, CIRCMON_NUMBER is the number and CIRCMON_COUNT the count. */
#ifndef CIRCMON_H
#define CIRCMON_H

#include <stdint.h>

#ifdef __cplusplus
extern "C" {
#endif

#define CIRCMON_TABLE_BYTES 42
#define CIRCMON_IMAGE_BYTES 1458
#define CIRCMON_REQUEST_BYTES 6
#define CIRCMON_DISTINGUISH_BYTES 24
#define CIRCMON_UNIT_BYTES 4928
/* The first bytes of a unit, which are the monitor; behind them is the journal. */
#define CIRCMON_MONITOR_BYTES 3344
#define CIRCMON_PAGE_BYTES 258

/* The two parts of a number with a count beside it. */
#define CIRCMON_NUMBER(answer) ((uint8_t)((answer) & 0xFF))
#define CIRCMON_COUNT(answer) ((uint64_t)(answer) >> 8)

/* The codes of circmon_clash, which are no replies, and the parts of what it returns: the code and the places named. */
#define CIRCMON_ORDERS_AGREE 0
#define CIRCMON_ORDERS_CLASH 1
#define CIRCMON_ORDERS_NO_GET 2
#define CIRCMON_ORDERS_TOO_MANY 3
#define CIRCMON_ORDERS_CODE(answer) ((uint8_t)((answer) & 0xFF))
#define CIRCMON_ORDERS_FIRST(answer) ((uint32_t)((uint64_t)(answer) >> 8 & 0xFFFFFF))
#define CIRCMON_ORDERS_SECOND(answer) ((uint32_t)((uint64_t)(answer) >> 32 & 0xFFFFFF))

/* ---- Objects under objects
 *
 * An object may have a parent, another live object: a flat stands under its riser. A create carries the parent's number plus one in
 * its needs field, 0 for none. There it is no set of needs, and no needs of a profile bound it: it is malformed where it is above
 * the number of objects in use. An object keeps its parent as long as it is live. A labelled child has a labelled parent, and its
 * label dominates that of the parent. A delete of an object deletes everything below it too, down to the last, whoever owns what
 * is below, and asks only for the owner of the object itself. */

/* The length of a buffer, in bytes. It has 64 bits on every machine, so that this header need not change with one. */
typedef uint64_t circmon_size;

/* ---- The profile of a site: how much of the tables is in use
 *
 * A profile is four numbers: subjects, 1 to 16, and objects, 1 to 64, that are in use, from 0 on; highest_class, 0 to 15;
 * and needs, a set in which need k weighs 2^k, every one of which will do. A number that does not fit its type is cut
 * before the call: 272 subjects arrive as 16. A subject, object, class or need outside it in a request is malformed and
 * gets 2. Tables and images keep their size and do not say their profile: whoever reads one says under which. A bit in the
 * record of a subject or of an object beyond the profile gets 11, and a clearance or label outside it 16. The widest
 * profile is 16 subjects, 64 objects, class 15 and needs 0xFFFF: under it nothing is outside.
 * A unit has the profile under which it was begun, and every function on it follows that. Functions on images alone run
 * under the widest, all but circmon_distinguish_in. */

/* ---- A unit: one monitor with its journal, which stays in memory that the caller owns */

/* 308 rows of sixteen bytes. Rows 0 to 208 are the monitor: rows 0 to 63 the rights of the objects, 64 to 127 the accesses held,
 * 128 to 191 the rest of each object's record, 192 to 207 the clearances of the subjects, 208 the profile. Rows 209 to 307 are
 * the journal, from which up to 32 requests can be taken back: rows 209 to 304 the records as they were, three rows for each
 * entry, 305 and 306 the objects that they are of, 307 where the next entry goes and how many there are. docs/FORMATS.md says
 * what each byte is. Two units are the same monitor where their first CIRCMON_MONITOR_BYTES bytes are the same.
 * There is no pointer and no padding in it, and its alignment is 1: it may be copied as it stands, also between machines.
 * Every content of these bytes is a state and a journal, and what the functions below do with it is defined and proved: no
 * content makes them do anything undefined, read or write elsewhere, or not end. Where all bytes are 0, no subject is in use,
 * every request gets 2, and there is nothing to take back. That a unit is secure is proved where it was opened or started with 0
 * and then only asked and taken back; so keep it where nobody else writes. */
typedef struct {
    uint8_t row[308][16];
} circmon_unit;

#ifdef __cplusplus
static_assert(sizeof(circmon_unit) == CIRCMON_UNIT_BYTES, "a unit has no padding");
#else
_Static_assert(sizeof(circmon_unit) == CIRCMON_UNIT_BYTES, "a unit has no padding");
#endif

/* Begins from an image under the widest profile.
 * Returns 0, and the unit is the monitor of the image; or the first refusal of 10, 11, 12, 6, 7, 8, 9, 18, 19, 20, and the unit
 * is the empty monitor, nobody enrolled. Of this and of the three below: the journal is empty, also where the image was saved from a
 * unit that had entries. Every byte of the unit is written; what was in it before does not matter. */
uint8_t circmon_open(circmon_unit *unit, const uint8_t *image, circmon_size image_len);

/* Begins from an enrolment table, with no live object, under the widest profile.
 * Returns 0, and the unit is the monitor of the table; or 10 or 11, and the unit is the empty monitor, nobody enrolled.
 * Every byte of the unit is written; what was in it before does not matter. */
uint8_t circmon_start(circmon_unit *unit, const uint8_t *table, circmon_size table_len);

/* Begins from an image under a profile.
 * Returns 16 where the profile is outside its ranges, before the image is looked at; else 0, and the unit is the monitor of the
 * image with this profile; or the first refusal of 10, 11, 16, 12, 6, 7, 8, 9, 18, 19, 20. Of this order 16 is a clearance or
 * label outside the profile. Where it is not 0, the unit is the empty monitor, nobody enrolled, which has the widest profile.
 * Every byte of the unit is written; what was in it before does not matter. */
uint8_t circmon_open_in(circmon_unit *unit, uint8_t subjects, uint8_t objects, uint8_t highest_class, uint16_t needs,
                        const uint8_t *image, circmon_size image_len);

/* Begins from an enrolment table, with no live object, under a profile.
 * Returns 16 where the profile is outside its ranges, before the table is looked at; else 0, and the unit is the monitor of the
 * table with this profile; or the first refusal of 10, 11, and 16, a clearance outside the profile. Where it is not 0, the unit
 * is the empty monitor, nobody enrolled, which has the widest profile.
 * Every byte of the unit is written; what was in it before does not matter. */
uint8_t circmon_start_in(circmon_unit *unit, uint8_t subjects, uint8_t objects, uint8_t highest_class, uint16_t needs,
                         const uint8_t *table, circmon_size table_len);

/* Carries out a request: bytes of any length and content; what is no request, or is outside the profile of the unit, gets 2.
 * Returns the reply. Below 2 it is granted: 0 and the state changed, 1 and it was so already. 2 to 9, 14 or 18 to 20 is the
 * first check that refuses, and every byte of the unit is left. With reply 0 the record of the object as it was is entered in the
 * journal; where that has 32 entries, the oldest gives way. But a delete that took children, at least one object below its own,
 * empties the journal and is not entered: it cannot be taken back, nor can what came before it. With any other reply no byte of
 * the journal changes. A delete uses stack for each object on the way down: docs/EMBEDDING.md, "Memory". */
uint8_t circmon_ask(circmon_unit *unit, const uint8_t *request, circmon_size request_len);

/* Takes back the latest request that is in the journal.
 * Returns 0, and the object of the latest entry has the record that the entry keeps: rights, accesses held, owner, label,
 * companies and parent, or that it was not live; the entry is gone. Or 17 where the journal is empty, and every byte of the unit is left.
 * Of a unit that was opened or started with 0 and then only asked and taken back, 0 restores exactly the state before the latest
 * request still in the journal, and n calls after n requests with reply 0, n at most 32, no taking-back and no delete that took
 * children among them, the state before them all.
 * It is no request: it has no bytes and enters nothing, and it may lower a label or leave an object without the one that it had,
 * which no request does. It restores records, and not the data of an object. */
uint8_t circmon_take_back(circmon_unit *unit);

/* Writes the image of the state into the first 1,458 bytes of the buffer and leaves any later byte.
 * Returns 0; or 13 where the buffer has under 1,458 bytes, and leaves every byte of it. The unit is only read. The image does
 * not say the profile: it is opened again under the profile of this unit. Nor is the journal in it. */
uint8_t circmon_save(const circmon_unit *unit, uint8_t *image, circmon_size image_len);

/* Writes the access page of an object into the first 258 bytes of the buffer and leaves any later byte: a line for each
 * subject with its rights and the accesses that it holds, and a last line with the numbers of holders; text, with a newline
 * behind each line and no 0 behind the last.
 * Returns 2 where the object is above 63; then 4 where it is not live; then 13 where the buffer has under 258 bytes; else 0.
 * A refusal leaves every byte of the buffer. The unit is only read. In a unit that was begun and only asked and taken back no
 * object beyond the profile is live. */
uint8_t circmon_page(const circmon_unit *unit, uint8_t object, uint8_t *page, circmon_size page_len);

/* ---- Start order: whether it matters in which order tasks take their accesses */

/* Looks at a list of gets, cut into pieces of six bytes, a short last piece counted: do all orders of the list leave equal
 * states, carried out on this unit? The same get may stand in it twice. Replies may differ between orders and do not count.
 * Returns a code in the low byte, with the places of pieces above it, which count from 0:
 * 3 CIRCMON_ORDERS_TOO_MANY: there are more than 4,096 pieces; no piece is looked at.
 * 2 CIRCMON_ORDERS_NO_GET: the piece at place FIRST is no well-formed get inside the profile of the unit, and every one before
 *   it is.
 * 1 CIRCMON_ORDERS_CLASH: the gets at the places FIRST and SECOND are each granted if it came alone, and would together break
 *   the star property or the wall: no order grants both, and not all orders leave equal states. FIRST is the lower place, the
 *   least that there is, and SECOND the least for it.
 * 0 CIRCMON_ORDERS_AGREE: none of these; all orders of the list leave equal states, and each get is granted in all of them, with
 *   0 or 1, or refused in all.
 * What 0 and 1 say of orders is proved of a unit that was opened or started with 0 and then only asked and taken back; which code
 * is returned is proved of every unit. The unit is only read. */
uint64_t circmon_clash(const circmon_unit *unit, const uint8_t *requests, circmon_size requests_len);

/* ---- Calls without a unit: on tables, images and lists of requests, under the widest profile but for circmon_distinguish_in.
 * None of these keeps a journal. */

/* Begins a monitor from an enrolment table and writes its image.
 * Returns 10 or 11 where the table is refused; then 13 where the buffer has under 1,458 bytes; else 0.
 * A refusal leaves every byte of the buffer. 0 fills its first 1,458 bytes and leaves any later byte. */
uint8_t circmon_begin(const uint8_t *table, circmon_size table_len, uint8_t *image, circmon_size image_len);

/* Reads an image. Returns 0 where it is accepted, else the first refusal of 10, 11, 12, 6, 7, 8, 9, 18, 19, 20. */
uint8_t circmon_read(const uint8_t *image, circmon_size image_len);

/* Carries out a request on the state in the buffer, which is exactly an image.
 * Where the image is refused with n, returns 128 + n and leaves every byte.
 * Else returns the reply, 0 to 9, 14 or 18 to 20, and writes the image of the state after the request in place. */
uint8_t circmon_request(uint8_t *image, circmon_size image_len, const uint8_t *request, circmon_size request_len);

/* Runs requests of six bytes in a row, from a monitor begun from a table; a short last piece counts and gets 2.
 * Returns 10 or 11 where the table is refused; then 13 where replies is shorter than the number of pieces; else 0.
 * A refusal leaves every byte of replies. 0 writes one reply byte for each piece and leaves any later byte. */
uint8_t circmon_replay(const uint8_t *table, circmon_size table_len, const uint8_t *requests, circmon_size requests_len,
                       uint8_t *replies, circmon_size replies_len);

/* Writes requests on which the states of two images reply differently.
 * Returns 128 + n where image a is refused with n; then 192 + n where image b is refused with n; then 13 where requests has
 * under 24 bytes. Each of these leaves every byte of requests.
 * Else returns the number of requests: 0 where the images are equal, and 1 to 4 where they differ. They stand at the front of
 * requests, six bytes for each, and any later byte is left. Carried out in this order from a and from b, they get different
 * replies at some place. Where the images differ in the parent of an object, they are deletes and creates alone, at most two. */
uint8_t circmon_distinguish(const uint8_t *a, circmon_size a_len, const uint8_t *b, circmon_size b_len,
                            uint8_t *requests, circmon_size requests_len);

/* The same under a profile: both images are read under it, and the requests that tell them apart are inside it.
 * Returns 16 where the profile is outside its ranges, before an image is looked at, and leaves every byte of requests; else as
 * circmon_distinguish. The refusals n of an image are then those of circmon_open_in. */
uint8_t circmon_distinguish_in(uint8_t subjects, uint8_t objects, uint8_t highest_class, uint16_t needs,
                               const uint8_t *a, circmon_size a_len, const uint8_t *b, circmon_size b_len,
                               uint8_t *requests, circmon_size requests_len);

/* ---- Levels: the clearance of a subject and the label of an object */

/* Compares level a with level b, each as its class and its set of needs, in which need k weighs 2^k. One level dominates
 * another where its class is at least as high and every need of the other is in its set.
 * Returns 0 equal: class and needs are the same; 1 above: only a dominates; 2 below: only b does; 3 apart: neither does. So a
 * dominates b where it returns 0 or 1. An absent label or clearance is no level and is none of the four: do not compare it. A
 * class above 15, which no table, image or request has, is compared as the number that it is. */
uint8_t circmon_compare(uint8_t class_a, uint16_t needs_a, uint8_t class_b, uint16_t needs_b);

/* ---- Test loads: the same requests in every laboratory */

/* Writes requests of six bytes from a seed, as many whole ones as fit. The same seed gives the same requests on every machine;
 * docs/FORMATS.md says how they are drawn. Each of them is well formed for a monitor of the widest profile: none of these
 * replies 2 to it. One of a narrower profile replies 2 where a field is outside.
 * Returns a number with a count beside it: 0 and how many requests there are, which is requests_len / 6, and any later byte is
 * left; or 15 and 0 where the seed is 0, and every byte is left. */
uint64_t circmon_load(uint32_t seed, uint8_t *requests, circmon_size requests_len);

#ifdef __cplusplus
}
#endif
#endif
