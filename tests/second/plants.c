/* Plants by rule and by chance. */
#include "second.h"
#include <stdlib.h>

static uint64_t state;

void seed(uint64_t from) { state = from; }

/* splitmix64 */
static uint64_t draw(void)
{
	uint64_t z = state += 0x9e3779b97f4a7c15u;
	z = (z ^ z >> 30) * 0xbf58476d1ce4e5b9u;
	z = (z ^ z >> 27) * 0x94d049bb133111ebu;
	return z ^ z >> 31;
}

uint64_t below(uint64_t bound) { return draw() % bound; }

static void empty_plant(struct plant *plant, uint32_t n)
{
	plant->n = n;
	plant->lines = 0;
}

static void join(struct plant *plant, uint32_t a, uint32_t b, uint32_t signals)
{
	plant->line[plant->lines++] = (struct line){ a < b ? a : b, a < b ? b : a, signals };
}

static int rising(const void *a, const void *b)
{
	const struct line *x = a, *y = b;
	uint32_t left = x->first * MAX_N + x->second, right = y->first * MAX_N + y->second;
	return (left > right) - (left < right);
}

static void sort_lines(struct plant *plant) { qsort(plant->line, plant->lines, sizeof *plant->line, rising); }

void numbered_plant(struct plant *plant, uint32_t n, uint32_t number)
{
	empty_plant(plant, n);
	for (uint32_t a = 0; a < n; a++)
		for (uint32_t b = a + 1; b < n; b++, number /= 4)
			if (number % 4)
				join(plant, a, b, number % 4);
}

static uint32_t random_signals(uint32_t kind)
{
	static const uint32_t most[] = { 1, 2, 3, 9, 100, 65535 };
	if (kind == 6)
		return 65535 - (uint32_t)below(3);
	return 1 + (uint32_t)below(most[kind]);
}

/* Sparse to complete, signals of several sizes, in one to three colours that no line joins. */
void random_plant(struct plant *plant, uint32_t most)
{
	uint32_t n = 1 + (uint32_t)below(most), kind = (uint32_t)below(7), dense = 1 + (uint32_t)below(4);
	uint32_t colours = below(3) ? 1 : 1 + (uint32_t)below(3), colour[MAX_N];
	empty_plant(plant, n);
	for (uint32_t d = 0; d < n; d++)
		colour[d] = (uint32_t)below(colours);
	for (uint32_t a = 0; a < n; a++)
		for (uint32_t b = a + 1; b < n; b++)
			if (colour[a] == colour[b] && below(4) < dense)
				join(plant, a, b, random_signals(kind));
}

static void ring(struct plant *plant, uint32_t from, uint32_t n, uint32_t signals)
{
	for (uint32_t d = 0; d + 1 < n; d++)
		join(plant, from + d, from + d + 1, signals);
	if (n > 2)
		join(plant, from, from + n - 1, signals);
}

static void complete(struct plant *plant, uint32_t from, uint32_t n, uint32_t signals)
{
	for (uint32_t a = 0; a < n; a++)
		for (uint32_t b = a + 1; b < n; b++)
			join(plant, from + a, from + b, signals);
}

static void grid(struct plant *plant, uint32_t n, uint32_t wide, uint32_t signals)
{
	for (uint32_t d = 0; d < n; d++) {
		if (d % wide + 1 < wide && d + 1 < n)
			join(plant, d, d + 1, signals);
		if (d + wide < n)
			join(plant, d, d + wide, signals);
	}
}

static void sides(struct plant *plant, uint32_t n, uint32_t left, uint32_t signals)
{
	for (uint32_t a = 0; a < left; a++)
		for (uint32_t b = left; b < n; b++)
			join(plant, a, b, signals);
}

/* Equal signals, so that many sets cost the same. */
void shaped_plant(struct plant *plant, uint32_t shape, uint32_t n, uint32_t signals)
{
	empty_plant(plant, n);
	switch (shape) {
	case 0: ring(plant, 0, n, signals); break;
	case 1: sides(plant, n, 1, signals); break;
	case 2: complete(plant, 0, n, signals); break;
	case 3: grid(plant, n, 2, signals); break;
	case 4: grid(plant, n, 3, signals); break;
	case 5: grid(plant, n, n, signals); break;
	case 6: sides(plant, n, n / 2, signals); break;
	case 7: ring(plant, 0, n / 2, signals), ring(plant, n / 2, n - n / 2, signals); break;
	default:
		complete(plant, 0, n / 2, signals), complete(plant, n / 2, n - n / 2, signals);
		if (n > 1)
			join(plant, 0, n - 1, signals);
	}
	sort_lines(plant);
}

/* Each device another number, by chance. */
static void shuffle(struct plant *plant)
{
	uint32_t to[MAX_N];
	for (uint32_t d = 0; d < plant->n; d++) {
		uint32_t e = (uint32_t)below(d + 1);
		to[d] = to[e];
		to[e] = d;
	}
	for (uint32_t i = 0; i < plant->lines; i++) {
		struct line *l = &plant->line[i];
		uint32_t a = to[l->first], b = to[l->second];
		l->first = a < b ? a : b;
		l->second = a < b ? b : a;
	}
}

/* Small parts, one beside the other. */
static void many_parts(struct plant *plant)
{
	static struct plant part;
	for (uint32_t from = 0; from + 7 <= plant->n; from += part.n) {
		random_plant(&part, 7);
		for (uint32_t i = 0; i < part.lines; i++)
			join(plant, from + part.line[i].first, from + part.line[i].second, part.line[i].signals);
	}
}

/* Complete parts with equal signals, 1,024 lines in all. */
static void most_lines(struct plant *plant)
{
	static const uint32_t size[] = { 45, 8, 4 };
	uint32_t from = 0;
	for (uint32_t i = 0; i < 3; i++) {
		complete(plant, from, size[i], random_signals(5));
		from += size[i];
	}
}

/* Up to the largest plants, in shapes that have few connected sets or are known by an argument. */
void large_plant(struct plant *plant, uint32_t kind)
{
	uint32_t few = 10 + (uint32_t)below(20), signals = (uint32_t)below(7);
	empty_plant(plant, kind % 2 ? few : MAX_N);
	switch (kind) {
	case 0: case 1: ring(plant, 0, plant->n, 1); break;
	case 2: case 3: grid(plant, plant->n, plant->n, 1); break;
	case 4: case 5: sides(plant, plant->n, 1, 1); break;
	case 6: most_lines(plant); break;
	default: plant->n = MAX_N;
	}
	for (uint32_t i = 0; i < plant->lines && kind < 6; i++)
		plant->line[i].signals = random_signals(signals);
	if (kind == 7)
		many_parts(plant);
	shuffle(plant);
	sort_lines(plant);
}
