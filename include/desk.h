/*
 * The groups of a plant at one rate, for the planning desk.
 *
 * Build the archive with `rt lib` in crates/desk and link crates/desk/out/libdesk.a (x86-64 Linux). It needs no library but C's own memcpy
 * and memset. examples/groups.c is a whole program over it.
 */
#ifndef DESK_H
#define DESK_H

#include <stddef.h>
#include <stdint.h>

#ifdef __cplusplus
extern "C" {
#endif

/*
 * What a call answers: 0 where it is done, and otherwise the first cause in the order 14, 15, 1, 2, 4, the lines from the lowest (5, 6, 7,
 * 8 within a line), 9, 12. The project has one list of numbers; those marked (-) are of other calls, and desk_groups never gives them.
 */
enum desk_refusal {
    DESK_DONE = 0,              /* the labels are filled */
    DESK_NO_DEVICE = 1,         /* n is 0 */
    DESK_MANY_DEVICES = 2,      /* n over 128 */
    DESK_LIST_LENGTHS = 3,      /* the three lists differ in length (-) */
    DESK_MANY_LINES = 4,        /* over 1,024 lines */
    DESK_END_NOT_BELOW_N = 5,   /* an end is not below n */
    DESK_ENDS_NOT_IN_ORDER = 6, /* first end not below second */
    DESK_LINE_NOT_ABOVE = 7,    /* line not above the one before */
    DESK_SIGNALS_RANGE = 8,     /* signals outside 1 to 65,535 */
    DESK_RATE_RANGE = 9,        /* p or q out of range */
    DESK_DEVICE_NOT_BELOW = 10, /* a named device is not below n (-) */
    DESK_DEVICE_TWICE = 11,     /* joining rate of a device with itself (-) */
    DESK_LIST_SHORT = 12,       /* a list to be filled or shown is too short */
    DESK_NEVER_JOIN = 13,       /* the two devices never join (-) */
    DESK_TEXT_LONG = 14,        /* text over 32,768 bytes */
    DESK_TEXT_FORM = 15,        /* text line of wrong form */
    DESK_LEVEL = 16             /* level number not below the level count, or the count over n (-) */
};

/* The most devices of a plant: labels of this length have room for every plant. */
#define DESK_MOST_DEVICES 128

/* The most bytes of a plant text. */
#define DESK_MOST_TEXT 32768

/*
 * Groups the devices of a plant text at the rate p/q, and answers a number of enum desk_refusal.
 *
 *   text        the bytes of the plant text. Only read. Not NULL, not even where text_len is 0.
 *   text_len    how many bytes there are. More than 32,768 are refused with 14.
 *   p           the rate is p/q: p from 1 to 100,000,000,
 *   q           and q from 1 to 1,000. 10/2 is the same rate as 5/1.
 *   labels      is filled with a byte for each device, from device 0 on: the lowest device of its group. Bytes past those of the devices
 *               stay as they are, and all of them after a refusal. Not NULL, not even where labels_len is 0.
 *   labels_len  how many bytes labels has. With fewer than the plant has devices the call is refused with 12.
 *   place       is set to the place of a refusal: for 5 to 8 the line of the plant, from 0; for 15 the line of the text, from 1; else 0,
 *               and 0 where the call is done. Not NULL.
 *   groups      is set to the number of groups, and to 0 after a refusal. Not NULL.
 *
 * text, labels, *place and *groups must not overlap. Whatever the bytes and numbers are, the call ends and stays inside them: that is
 * proved, with every answer and every label.
 *
 * Threads: the function has no state of its own. It may be called from any thread, and from several at once if each has its own labels,
 * place and groups.
 *
 * Stack: a call takes 83,384 bytes of the caller's stack, and no heap; the first call in a program may take some 3,000 more, where the
 * loader looks up memcpy and memset in it. Measured with the archive of this repository: a thread's stack was filled with one byte before
 * the call, and after it the lowest byte that had changed was looked for, with plants of 128 devices and 1,024 lines, the example plant
 * and refused calls. No call went deeper. Give a thread that calls it 128 KiB.
 */
size_t desk_groups(const uint8_t *text, size_t text_len, size_t p, size_t q, uint8_t *labels, size_t labels_len, size_t *place,
                   size_t *groups);

#ifdef __cplusplus
}
#endif

#endif
