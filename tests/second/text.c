/* Plant texts, read and written, and the listing. */
#include "second.h"
#include <stdarg.h>
#include <stdio.h>
#include <stdlib.h>
#include <string.h>

void put(struct buffer *to, const char *form, ...)
{
	va_list rest;
	va_start(rest, form);
	int more = vsnprintf(to->at + to->len, sizeof to->at - to->len, form, rest);
	va_end(rest);
	if (more < 0 || to->len + (size_t)more >= sizeof to->at)
		abort();
	to->len += (size_t)more;
}

/* One text line, without its newline byte; `from` has the next one. */
struct row { const uint8_t *at; size_t len; };

/* 0 where the text stops before a newline byte. */
static int next_row(const uint8_t **from, const uint8_t *end, struct row *row)
{
	const uint8_t *at = *from;
	while (at < end && *at != '\n')
		at++;
	if (at == end)
		return 0;
	*row = (struct row){ *from, (size_t)(at - *from) };
	*from = at + 1;
	return 1;
}

/* 1 to 9 digits and no leading zero, except 0 itself. */
static int number_at(struct row *row, uint32_t *value)
{
	size_t digits = 0;
	*value = 0;
	while (digits < row->len && row->at[digits] >= '0' && row->at[digits] <= '9')
		digits++;
	if (digits == 0 || digits > 9 || (digits > 1 && row->at[0] == '0'))
		return 0;
	for (size_t i = 0; i < digits; i++)
		*value = *value * 10 + (row->at[i] - '0');
	row->at += digits;
	row->len -= digits;
	return 1;
}

static int word_at(struct row *row, const char *word)
{
	size_t len = strlen(word);
	if (row->len < len || memcmp(row->at, word, len) != 0)
		return 0;
	row->at += len;
	row->len -= len;
	return 1;
}

/* Is it the text line that should come here, the `index`-th from 1? Its values go to the plant. */
static int as_expected(struct row row, uint32_t index, struct plant *plant)
{
	struct line *l;
	if (index == 1)
		return word_at(&row, "plant=1") && row.len == 0;
	if (index == 2)
		return word_at(&row, "devices=") && number_at(&row, &plant->n) && row.len == 0;
	if (index == 3)
		return word_at(&row, "lines=") && number_at(&row, &plant->lines) && row.len == 0;
	if (index - 4 == plant->lines)
		return word_at(&row, "end=plant") && row.len == 0;
	l = &plant->line[index - 4];
	return word_at(&row, "line=") && number_at(&row, &l->first) && word_at(&row, ",") && number_at(&row, &l->second)
		&& word_at(&row, ",") && number_at(&row, &l->signals) && row.len == 0;
}

/* 0, or the first text line that is not as expected. */
static uint32_t wrong_row(const uint8_t *text, size_t len, struct plant *plant)
{
	const uint8_t *at = text, *end = text + len;
	uint32_t index = 1;
	struct row row;
	plant->lines = 1;
	while (index <= 3 || index - 4 <= plant->lines) {
		if (!next_row(&at, end, &row) || !as_expected(row, index, plant))
			return index;
		index++;
	}
	return at == end ? 0 : index;
}

static uint32_t line_fault(const struct plant *plant, uint32_t i)
{
	const struct line *l = &plant->line[i], *before = &plant->line[i ? i - 1 : 0];
	if (l->first >= plant->n || l->second >= plant->n)
		return 5;
	if (l->first >= l->second)
		return 6;
	if (i > 0 && (before->first > l->first || (before->first == l->first && before->second >= l->second)))
		return 7;
	if (l->signals < 1 || l->signals > 65535)
		return 8;
	return 0;
}

struct refusal read_text(const uint8_t *text, size_t len, struct plant *answer)
{
	uint32_t at, fault;
	if (len > MAX_TEXT)
		return (struct refusal){ 14, 0 };
	at = wrong_row(text, len, answer);
	if (at)
		return (struct refusal){ 15, at };
	if (answer->n == 0)
		return (struct refusal){ 1, 0 };
	if (answer->n > MAX_N)
		return (struct refusal){ 2, 0 };
	if (answer->lines > MAX_LINES)
		return (struct refusal){ 4, 0 };
	for (uint32_t i = 0; i < answer->lines; i++)
		if ((fault = line_fault(answer, i)))
			return (struct refusal){ fault, i };
	return (struct refusal){ 0, 0 };
}

void write_text(const struct plant *plant, struct buffer *to)
{
	put(to, "plant=1\ndevices=%u\nlines=%u\n", plant->n, plant->lines);
	for (uint32_t i = 0; i < plant->lines; i++)
		put(to, "line=%u,%u,%u\n", plant->line[i].first, plant->line[i].second, plant->line[i].signals);
	put(to, "end=plant\n");
}

void write_refusal(struct refusal why, struct buffer *to) { put(to, "refused=%u\nat=%u\n", why.number, why.place); }

static void write_group(uint32_t n, const struct grouping *level, uint32_t head, struct buffer *to)
{
	put(to, "group=%u:%u", head, head);
	for (uint32_t d = head + 1; d < n; d++)
		if (level->label[d] == head)
			put(to, ",%u", d);
	put(to, "\n");
}

void write_listing(uint32_t n, const struct levels *levels, struct buffer *to)
{
	put(to, "hierarchy=1\ndevices=%u\nlevels=%u\n", n, levels->count);
	for (uint32_t i = 0; i < levels->count; i++) {
		const struct grouping *level = &levels->level[i];
		put(to, "level=%u\n", i);
		if (i + 1 < levels->count)
			put(to, "low=%lld/%lld\n", (long long)levels->low[i].p, (long long)levels->low[i].q);
		else
			put(to, "low=none\n");
		put(to, "groups=%u\n", level->groups);
		for (uint32_t d = 0; d < n; d++)
			if (level->label[d] == d)
				write_group(n, level, d, to);
	}
	put(to, "end=hierarchy\n");
}
