/* A second program, written from the rules (document 01) alone: what its parts share. */
#ifndef SECOND_H
#define SECOND_H
#include <stddef.h>
#include <stdint.h>

enum {
	MAX_N = 128,        /* devices of a plant */
	MAX_LINES = 1024,   /* lines of a plant */
	MAX_TEXT = 32768,   /* bytes of a plant text */
	MAX_ROWS = 4096,    /* rows that a text of MAX_TEXT bytes can hold: a row has at least 11 bytes */
	MAX_LISTING = 1 << 19,
};

struct line { uint32_t first, second, signals; };
struct plant { uint32_t n, lines; struct line line[MAX_ROWS]; };
struct rate { int64_t p, q; };
struct refusal { uint32_t number, place; };
struct grouping { uint32_t groups; uint8_t label[MAX_N]; };
struct levels { uint32_t count; struct rate low[MAX_N]; struct grouping level[MAX_N + 1]; };
struct buffer { size_t len; char at[MAX_LISTING]; };

/* judge.c: communities, groups and levels of one plant at a time, the one last judged. */
enum way {
	USUAL,          /* whichever way suits the plant */
	EVERY_PAIR,     /* every set, and levels from the rates of every two sets */
	EVERY_SET,      /* every set, and levels from each device's rates */
	CONNECTED,      /* connected sets only */
	STRONG,         /* strong lines, for stars and for complete parts with equal signals */
};
int judge(const struct plant *plant, enum way asked);   /* 1 where the plant can be judged so, else 0 */
void community_at(struct rate r, uint32_t device, uint8_t *marks, uint32_t *size, int64_t *out);
void groups_at(struct rate r, struct grouping *answer);
void levels_of(struct levels *answer);
int joining_rate(const struct levels *levels, uint32_t a, uint32_t b, struct rate *answer);
extern uint64_t broken;                     /* how often a claim of the rules failed on a plant */

/* text.c: plant texts and the listing. */
struct refusal read_text(const uint8_t *text, size_t len, struct plant *answer);
void write_text(const struct plant *plant, struct buffer *to);
void write_listing(uint32_t n, const struct levels *levels, struct buffer *to);
void write_refusal(struct refusal why, struct buffer *to);
void put(struct buffer *to, const char *form, ...);

/* plants.c: plants by rule and by chance. */
void seed(uint64_t from);
uint64_t below(uint64_t bound);             /* 0 to bound - 1 */
void numbered_plant(struct plant *plant, uint32_t n, uint32_t number);  /* its pairs' signals are the digits to base 4 */
void random_plant(struct plant *plant, uint32_t most);
enum { SHAPES = 9 };
void shaped_plant(struct plant *plant, uint32_t shape, uint32_t n, uint32_t signals);
enum { LARGE = 8 };
void large_plant(struct plant *plant, uint32_t kind);

/* self.c: the figures of the rules, and texts with their numbers and places. */
void self_checks(void);

/* second.c */
void compared(int right, const char *what);
#endif
