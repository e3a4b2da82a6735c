/* The figures of the rules and texts with their numbers and places, so that this program is itself compared. */
#include "second.h"
#include <string.h>

static const struct plant one_device = { 1, 0, { { 0 } } };
static const struct plant no_line = { 2, 0, { { 0 } } };
static const struct plant pair = { 2, 1, { { 0, 1, 5 } } };
static const struct plant chain = { 3, 2, { { 0, 1, 3 }, { 1, 2, 2 } } };
static const struct plant square = { 4, 4, { { 0, 1, 1 }, { 0, 3, 1 }, { 1, 2, 1 }, { 2, 3, 1 } } };
static const struct plant two_pairs = { 4, 3, { { 0, 1, 4 }, { 1, 2, 1 }, { 2, 3, 4 } } };
static const struct plant apart = { 3, 1, { { 0, 1, 1 } } };

/* K1 to K12, and K2 at 10/2. */
static const struct { const struct plant *plant; struct rate rate; uint32_t groups; uint8_t label[4]; } figures[] = {
	{ &one_device, { 1, 1 }, 1, { 0 } },
	{ &pair, { 5, 1 }, 2, { 0, 1 } },
	{ &pair, { 499, 100 }, 1, { 0, 0 } },
	{ &no_line, { 1, 1000 }, 2, { 0, 1 } },
	{ &chain, { 3, 1 }, 3, { 0, 1, 2 } },
	{ &chain, { 2, 1 }, 2, { 0, 0, 2 } },
	{ &chain, { 199, 100 }, 1, { 0, 0, 0 } },
	{ &square, { 2, 3 }, 4, { 0, 1, 2, 3 } },
	{ &square, { 33, 50 }, 1, { 0, 0, 0, 0 } },
	{ &two_pairs, { 4, 1 }, 4, { 0, 1, 2, 3 } },
	{ &two_pairs, { 1, 2 }, 2, { 0, 0, 2, 2 } },
	{ &two_pairs, { 49, 100 }, 1, { 0, 0, 0, 0 } },
	{ &pair, { 10, 2 }, 2, { 0, 1 } },
};

static const char listing[] = "hierarchy=1\ndevices=3\nlevels=3\n"
	"level=0\nlow=3/1\ngroups=3\ngroup=0:0\ngroup=1:1\ngroup=2:2\n"
	"level=1\nlow=2/1\ngroups=2\ngroup=0:0,1\ngroup=2:2\n"
	"level=2\nlow=none\ngroups=1\ngroup=0:0,1,2\nend=hierarchy\n";

#define HEAD "plant=1\ndevices=3\nlines=2\n"
#define ROW "line=0,1,3\n"
#define ROWS ROW "line=1,2,2\n"
#define END "end=plant\n"

/* Texts, with number and place by the rules. */
static const struct { const char *text; uint32_t number, place; } texts[] = {
	{ HEAD ROWS END, 0, 0 },
	{ "", 15, 1 }, { "\n", 15, 1 }, { "plant=1", 15, 1 }, { "plant=2\n", 15, 1 }, { " plant=1\n", 15, 1 },
	{ "plant=1\r\n", 15, 1 }, { "plant=1\n", 15, 2 }, { "plant=1\ndevices=3\n", 15, 3 }, { HEAD, 15, 4 },
	{ HEAD ROW, 15, 5 }, { HEAD ROWS, 15, 6 }, { HEAD ROWS "end=plant", 15, 6 }, { HEAD ROWS END "\n", 15, 7 },
	{ HEAD ROWS END END, 15, 7 }, { HEAD ROWS END "x", 15, 7 }, { HEAD ROW END, 15, 5 }, { HEAD ROWS ROW END, 15, 6 },
	{ "devices=3\nplant=1\nlines=0\n" END, 15, 1 }, { "plant=1\nlines=0\ndevices=3\n" END, 15, 2 },
	{ "plant=1\ndevices=03\nlines=0\n" END, 15, 2 }, { "plant=1\ndevices=\nlines=0\n" END, 15, 2 },
	{ "plant=1\ndevices=1000000000\nlines=0\n" END, 15, 2 }, { "plant=1\ndevices=999999999\nlines=0\n" END, 2, 0 },
	{ "plant=1\ndevices=+3\nlines=0\n" END, 15, 2 }, { "plant=1\ndevices=3\nlines=00\n" END, 15, 3 },
	{ "plant=1\ndevices=3\nlines=999999999\n" ROWS END, 15, 6 }, { "plant=1\ndevices=3\nlines=0\n" ROW END, 15, 4 },
	{ HEAD ROW "line=1,2\n" END, 15, 5 }, { HEAD ROW "line=1,2,2,\n" END, 15, 5 }, { HEAD "line=0,1,\n" ROW END, 15, 4 },
	{ HEAD "line=0, 1,3\n" ROW END, 15, 4 }, { HEAD "line=0,1,03\n" ROW END, 15, 4 },
	{ "plant=1\ndevices=0\nlines=0\n" END, 1, 0 }, { "plant=1\ndevices=0\nlines=0\nend=\n", 15, 4 },
	{ "plant=1\ndevices=0\nlines=1\nline=9,9,0\n" END, 1, 0 }, { "plant=1\ndevices=128\nlines=0\n" END, 0, 0 },
	{ "plant=1\ndevices=129\nlines=1\nline=9,9,0\n" END, 2, 0 },
	{ HEAD ROW "line=1,3,2\n" END, 5, 1 }, { HEAD ROW "line=3,1,0\n" END, 5, 1 }, { HEAD "line=0,3,2\n" ROW END, 5, 0 },
	{ HEAD ROW "line=2,2,0\n" END, 6, 1 }, { HEAD ROW "line=1,0,0\n" END, 6, 1 }, { HEAD "line=1,0,2\n" ROW END, 6, 0 },
	{ HEAD ROW "line=0,1,0\n" END, 7, 1 }, { HEAD "line=1,2,2\n" ROW END, 7, 1 }, { HEAD "line=0,2,2\n" ROW END, 7, 1 },
	{ HEAD ROW "line=1,2,0\n" END, 8, 1 }, { HEAD ROW "line=1,2,65536\n" END, 8, 1 }, { HEAD ROW "line=1,2,65535\n" END, 0, 0 },
	{ HEAD "line=0,1,0\nline=5,5,0\n" END, 8, 0 }, { HEAD "line=1,2,999999999\n" ROW END, 8, 0 },
};

static void check_figures(void)
{
	for (size_t i = 0; i < sizeof figures / sizeof *figures; i++) {
		struct grouping got;
		judge(figures[i].plant, USUAL);
		groups_at(figures[i].rate, &got);
		compared(got.groups == figures[i].groups && memcmp(got.label, figures[i].label, figures[i].plant->n) == 0, "a figure");
	}
}

static void check_texts(void)
{
	static struct plant plant;
	for (size_t i = 0; i < sizeof texts / sizeof *texts; i++) {
		struct refusal got = read_text((const uint8_t *)texts[i].text, strlen(texts[i].text), &plant);
		compared(got.number == texts[i].number && got.place == texts[i].place, texts[i].text);
	}
}

static int is(struct rate r, int64_t p, int64_t q) { return r.p == p && r.q == q; }

/* The communities and joining rates of K5's plant, and its listing. */
static void check_chain(void)
{
	static struct buffer to;
	struct levels levels;
	struct rate r;
	uint8_t marks[3];
	uint32_t size;
	int64_t out;
	judge(&chain, USUAL);
	community_at((struct rate){ 5, 2 }, 0, marks, &size, &out);
	compared(memcmp(marks, "\1\0\0", 3) == 0 && size == 1 && out == 3, "the community of 0");
	community_at((struct rate){ 5, 2 }, 1, marks, &size, &out);
	compared(memcmp(marks, "\1\1\0", 3) == 0 && size == 2 && out == 2, "the community of 1");
	levels_of(&levels);
	compared(joining_rate(&levels, 0, 1, &r) && is(r, 3, 1), "the joining rate of 0 and 1");
	compared(joining_rate(&levels, 0, 2, &r) && is(r, 2, 1), "the joining rate of 0 and 2");
	write_listing(3, &levels, &to);
	compared(to.len == strlen(listing) && memcmp(to.at, listing, to.len) == 0, "the listing");
	to.len = 0;
	write_text(&chain, &to);
	compared(to.len == strlen(texts[0].text) && memcmp(to.at, texts[0].text, to.len) == 0, "the plant text");
}

static void check_apart(void)
{
	struct levels levels;
	struct rate r;
	judge(&apart, USUAL);
	levels_of(&levels);
	compared(levels.count == 2 && is(levels.low[0], 1, 1) && memcmp(levels.level[1].label, "\0\0\2", 3) == 0, "two levels");
	compared(!joining_rate(&levels, 0, 2, &r), "two devices that never join");
}

static int same_levels(uint32_t n, const struct levels *a, const struct levels *b)
{
	int right = a->count == b->count;
	for (uint32_t i = 0; i < a->count && right; i++) {
		right = a->level[i].groups == b->level[i].groups && memcmp(a->level[i].label, b->level[i].label, n) == 0;
		if (right && i + 1 < a->count)
			right = is(a->low[i], b->low[i].p, b->low[i].q);
	}
	return right;
}

/* Where two ways can judge a plant, they find the same levels. */
static void check_ways(const struct plant *plant)
{
	struct levels first, other;
	judge(plant, EVERY_PAIR);
	levels_of(&first);
	for (enum way way = EVERY_SET; way <= STRONG; way++)
		if (judge(plant, way)) {
			levels_of(&other);
			compared(same_levels(plant->n, &first, &other), "levels found in two ways");
		}
}

static void check_random_ways(uint32_t plants)
{
	static struct plant plant;
	for (uint32_t i = 0; i < plants; i++) {
		random_plant(&plant, 7);
		check_ways(&plant);
		shaped_plant(&plant, i % SHAPES, 1 + i % 7, 1 + i);
		check_ways(&plant);
	}
}

void self_checks(void)
{
	check_figures();
	check_texts();
	check_chain();
	check_apart();
	check_random_ways(100);
}
