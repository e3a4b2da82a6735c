/* Communities, groups and levels by trying every set of devices. Whole numbers throughout: no cost here reaches 2^60. */
#include "second.h"
#include <stdlib.h>
#include <string.h>

enum {
	SMALLEST = 5,           /* usual way: up to here EVERY_PAIR */
	SMALL = 9,              /* up to here EVERY_SET, above it CONNECTED, or STRONG where those are too many */
	MAX_SETS = 40000,
	MAX_RATES = 300000,
};
typedef unsigned __int128 set;
struct tried { set members; uint32_t size; int64_t out; };

static const struct plant *plant;
static struct tried sets[MAX_SETS];
static uint32_t set_count;
static int full;                /* more than MAX_SETS sets */
static enum way way;
static set beside[MAX_N];       /* the devices joined to each by a line */
static struct rate rates[MAX_RATES];
static uint32_t rate_count;
uint64_t broken;

static set one(uint32_t device) { return (set)1 << device; }

static uint32_t lowest(set s)
{
	return (uint64_t)s ? (uint32_t)__builtin_ctzll((uint64_t)s) : 64 + (uint32_t)__builtin_ctzll((uint64_t)(s >> 64));
}

static uint32_t size_of(set s)
{
	return (uint32_t)(__builtin_popcountll((uint64_t)s) + __builtin_popcountll((uint64_t)(s >> 64)));
}

/* out(S): the signals on lines with exactly one end in S. */
static int64_t out_of(set s)
{
	int64_t sum = 0;
	for (uint32_t i = 0; i < plant->lines; i++) {
		const struct line *l = &plant->line[i];
		if ((s >> l->first & 1) != (s >> l->second & 1))
			sum += l->signals;
	}
	return sum;
}

static void try_set(set s)
{
	if (set_count == MAX_SETS) {
		full = 1;
		return;
	}
	sets[set_count++] = (struct tried){ s, size_of(s), out_of(s) };
}

/* Every connected set that has `s`, and beyond it only devices that are not in `closed`; `edge` are those beside `s`. */
static void grow(set s, set edge, set closed)
{
	try_set(s);
	while (edge && !full) {
		uint32_t d = lowest(edge);
		edge ^= one(d);
		closed |= one(d);
		grow(s | one(d), edge | (beside[d] & ~closed), closed);
	}
}

static void part_of(uint32_t device, set *part)
{
	set todo = one(device);
	*part = 0;
	while (todo) {
		uint32_t d = lowest(todo);
		*part |= one(d);
		todo = (todo | beside[d]) & ~*part;
	}
}

/* A star, or a complete part whose lines all carry the same. */
static int strong_part(set part)
{
	uint32_t m = size_of(part), lines = 0, hub = 0;
	int64_t least = INT64_MAX, most = 0;
	for (uint32_t i = 0; i < plant->lines; i++) {
		const struct line *l = &plant->line[i];
		if (!(part >> l->first & 1))
			continue;
		lines++;
		least = l->signals < least ? l->signals : least;
		most = l->signals > most ? l->signals : most;
		hub |= size_of(beside[l->first]) == m - 1 || size_of(beside[l->second]) == m - 1;
	}
	return m == 1 || (hub && lines == m - 1) || (lines == m * (m - 1) / 2 && least == most);
}

/* Where each part is a star or complete with equal signals, the groups are the parts by the lines with
   q * signals > p. Star: a leaf adds p to its hub's set and takes q * signals away; another leaf costs at most 2 * p
   alone. Complete, signals w, m devices: k of them have out w * k * (m - k), so the least cost is at k = 1 or k = m. */
static int strong_plant(void)
{
	for (uint32_t d = 0; d < plant->n; d++) {
		set part;
		part_of(d, &part);
		if (!strong_part(part))
			return 0;
	}
	return 1;
}

static void set_beside(void)
{
	memset(beside, 0, sizeof beside);
	for (uint32_t i = 0; i < plant->lines; i++) {
		beside[plant->line[i].first] |= one(plant->line[i].second);
		beside[plant->line[i].second] |= one(plant->line[i].first);
	}
}

/* A community is connected: of a set in pieces, the piece with the device has no larger out and fewer devices. */
static void try_connected(void)
{
	for (uint32_t d = 0; d < plant->n && !full; d++) {
		set closed = (one(d) << 1) - 1;
		grow(one(d), beside[d] & ~closed, closed);
	}
}

static void try_every(void)
{
	for (uint32_t s = 1; s < 1u << plant->n; s++)
		try_set(s);
}

int judge(const struct plant *given, enum way asked)
{
	plant = given;
	way = asked;
	set_count = 0;
	full = 0;
	set_beside();
	if (way == USUAL)
		way = plant->n <= SMALLEST ? EVERY_PAIR : plant->n <= SMALL ? EVERY_SET : CONNECTED;
	if (way == EVERY_PAIR || way == EVERY_SET)
		try_every();
	if (way == CONNECTED)
		try_connected();
	if (way == STRONG || (full && asked == USUAL)) {
		way = STRONG;
		full = !strong_plant();
	}
	return !full;
}

/* The community of each device: least cost, then fewest devices; there is exactly one. */
static void communities_at(struct rate r, const struct tried **best)
{
	int64_t least[MAX_N];
	uint8_t shared[MAX_N] = { 0 };
	for (uint32_t d = 0; d < plant->n; d++)
		best[d] = NULL;
	for (const struct tried *t = sets; t < sets + set_count; t++) {
		int64_t cost = r.q * t->out + r.p * t->size;
		for (set left = t->members; left; left &= left - 1) {
			uint32_t d = lowest(left);
			if (best[d] && cost == least[d] && t->size == best[d]->size)
				shared[d] = 1;
			if (best[d] && (cost > least[d] || (cost == least[d] && t->size >= best[d]->size)))
				continue;
			best[d] = t;
			least[d] = cost;
			shared[d] = 0;
		}
	}
	for (uint32_t d = 0; d < plant->n; d++)
		broken += shared[d];
}

void community_at(struct rate r, uint32_t device, uint8_t *marks, uint32_t *size, int64_t *out)
{
	const struct tried *best[MAX_N];
	communities_at(r, best);
	for (uint32_t d = 0; d < plant->n; d++)
		marks[d] = best[device]->members >> d & 1;
	*size = best[device]->size;
	*out = best[device]->out;
}

static void count_groups(struct grouping *g)
{
	g->groups = 0;
	for (uint32_t d = 0; d < plant->n; d++)
		g->groups += g->label[d] == d;
}

/* The parts of the plant by the lines with q * signals > p. */
static void strong_groups(struct rate r, struct grouping *answer)
{
	set kept[MAX_N];
	memcpy(kept, beside, sizeof kept);
	memset(beside, 0, sizeof beside);
	for (uint32_t i = 0; i < plant->lines; i++) {
		const struct line *l = &plant->line[i];
		if (r.q * l->signals <= r.p)
			continue;
		beside[l->first] |= one(l->second);
		beside[l->second] |= one(l->first);
	}
	for (uint32_t d = 0; d < plant->n; d++) {
		set part;
		part_of(d, &part);
		answer->label[d] = (uint8_t)lowest(part);
	}
	memcpy(beside, kept, sizeof kept);
	count_groups(answer);
}

/* The groups: the communities contained in no larger one. Two communities are nested or share nothing. */
void groups_at(struct rate r, struct grouping *answer)
{
	const struct tried *best[MAX_N];
	if (way == STRONG) {
		strong_groups(r, answer);
		return;
	}
	communities_at(r, best);
	for (uint32_t d = 0; d < plant->n; d++) {
		set group = best[d]->members;
		for (uint32_t e = 0; e < plant->n; e++) {
			set other = best[e]->members, both = other & best[d]->members;
			broken += both && both != other && both != best[d]->members;
			if ((other & group) == group)
				group = other;
		}
		answer->label[d] = (uint8_t)lowest(group);
	}
	count_groups(answer);
}

static int64_t common(int64_t a, int64_t b)
{
	while (b) {
		int64_t c = a % b;
		a = b;
		b = c;
	}
	return a;
}

static int falling(const void *a, const void *b)
{
	const struct rate *x = a, *y = b;
	int64_t left = x->p * y->q, right = y->p * x->q;
	return (left < right) - (left > right);
}

/* Sorted, falling, each once. */
static void sort_rates(void)
{
	uint32_t kept = 0;
	qsort(rates, rate_count, sizeof *rates, falling);
	for (uint32_t i = 0; i < rate_count; i++)
		if (kept == 0 || falling(&rates[kept - 1], &rates[i]) != 0)
			rates[kept++] = rates[i];
	rate_count = kept;
}

/* The rate at which two sets cost the same, in lowest terms: (out S - out T) / (|T| - |S|). */
static void add_rate(int64_t out_s, int64_t devices_s, int64_t out_t, int64_t devices_t)
{
	int64_t p = out_s - out_t, q = devices_t - devices_s, c;
	if (p <= 0 || q <= 0)
		return;
	if (rate_count == MAX_RATES)
		sort_rates();
	if (rate_count == MAX_RATES)
		abort();
	c = common(p, q);
	rates[rate_count++] = (struct rate){ p / c, q / c };
}

static int64_t cost_of(struct rate r, const int64_t *least, uint32_t size) { return r.q * least[size] + r.p * size; }

/* Is no size cheaper than this one at this rate? Sizes that no set has are marked by -1. */
static int cheapest(struct rate r, const int64_t *least, uint32_t size)
{
	for (uint32_t k = 1; k <= plant->n; k++)
		if (least[k] >= 0 && cost_of(r, least, k) < cost_of(r, least, size))
			return 0;
	return 1;
}

/* The rates for one device, from the least out of its sets of each size: only such a set can be its community. Where
   there may be many, only the rates at which the two sizes are its cheapest. */
static void device_rates(uint32_t device)
{
	int64_t least[MAX_N + 1];
	memset(least, -1, sizeof least);
	for (const struct tried *t = sets; t < sets + set_count; t++)
		if ((t->members >> device & 1) && (least[t->size] < 0 || t->out < least[t->size]))
			least[t->size] = t->out;
	for (uint32_t j = 1; j < plant->n; j++)
		for (uint32_t k = j + 1; k <= plant->n; k++) {
			struct rate r = { least[j] - least[k], k - j };
			if (least[j] < 0 || least[k] < 0 || r.p <= 0)
				continue;
			if (way == EVERY_SET || cheapest(r, least, j))
				add_rate(least[j], j, least[k], k);
		}
}

static void every_rate(void)
{
	rate_count = 0;
	if (way == STRONG)
		for (uint32_t i = 0; i < plant->lines; i++)
			add_rate(plant->line[i].signals, 0, 0, 1);
	else if (way == EVERY_PAIR)
		for (uint32_t i = 0; i < set_count; i++)
			for (uint32_t j = 0; j < set_count; j++)
				add_rate(sets[i].out, sets[i].size, sets[j].out, sets[j].size);
	else
		for (uint32_t d = 0; d < plant->n; d++)
			device_rates(d);
	sort_rates();
}

/* A rate between this one and the next lower one, or below all. */
static struct rate under(uint32_t i)
{
	struct rate r = rates[i], s;
	if (i + 1 == rate_count)
		return (struct rate){ r.p, 2 * r.q };
	s = rates[i + 1];
	return (struct rate){ r.p * s.q + s.p * r.q, 2 * r.q * s.q };
}

static int same(const struct grouping *a, const struct grouping *b) { return memcmp(a->label, b->label, plant->n) == 0; }

/* One group of `coarse` has all of each group of `fine`. */
static int nested(const struct grouping *fine, const struct grouping *coarse)
{
	for (uint32_t d = 0; d < plant->n; d++)
		if (coarse->label[d] != coarse->label[fine->label[d]])
			return 0;
	return 1;
}

/* The ends: every device alone, and the connected parts of the plant. */
static int right_ends(const struct levels *levels)
{
	for (uint32_t d = 0; d < plant->n; d++) {
		set part;
		part_of(d, &part);
		if (levels->level[0].label[d] != d || levels->level[levels->count - 1].label[d] != lowest(part))
			return 0;
	}
	return 1;
}

/* From a rate above all others downward: a level ends at a rate under which the grouping is another one. */
void levels_of(struct levels *answer)
{
	struct rate above = { 1, 1 };
	every_rate();
	if (rate_count)
		above = (struct rate){ rates[0].p + rates[0].q, rates[0].q };
	answer->count = 1;
	groups_at(above, &answer->level[0]);
	for (uint32_t i = 0; i < rate_count; i++) {
		struct grouping *last = &answer->level[answer->count - 1], at, next;
		groups_at(rates[i], &at);
		groups_at(under(i), &next);
		broken += !same(last, &at) || !nested(last, &next);
		if (same(last, &next))
			continue;
		broken += rates[i].q >= plant->n;
		answer->low[answer->count - 1] = rates[i];
		answer->level[answer->count++] = next;
		if (answer->count > plant->n)
			abort();
	}
	broken += !right_ends(answer);
}

/* The low rate of the last level that has the two apart; 0 where they never join. */
int joining_rate(const struct levels *levels, uint32_t a, uint32_t b, struct rate *answer)
{
	for (uint32_t i = 1; i < levels->count; i++)
		if (levels->level[i].label[a] == levels->level[i].label[b]) {
			*answer = levels->low[i - 1];
			return 1;
		}
	return 0;
}
