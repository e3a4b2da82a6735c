/* Compares the desk's function and the hierarchy program with answers found by trying every set.

   second PROGRAM               the gate's run, fixed seeds
   second --long SEED PROGRAM   a longer one, by hand
   second --texts               damaged texts and the desk's function only

   PROGRAM is the hierarchy program. The last line has the number of comparisons and of wrong answers; status 1 where one
   is wrong. */
#include "second.h"
#include "desk.h"
#include <errno.h>
#include <fcntl.h>
#include <poll.h>
#include <signal.h>
#include <spawn.h>
#include <stdio.h>
#include <stdlib.h>
#include <string.h>
#include <sys/wait.h>
#include <unistd.h>

enum { P_MOST = 100000000, Q_MOST = 1000, UNTOUCHED = 0xa5, SHOWN = 20, PATIENCE = 60000 };

static uint64_t count, wrong, runs, calls, unjudged;
static const char *program;

/* The text at hand, in a block of its own length, and what is right for it. */
static struct {
	uint8_t *text;
	size_t len;
	struct refusal why;
	struct plant plant;
	int judged;
	struct levels levels;
} now;

void compared(int right, const char *what)
{
	count++;
	if (right)
		return;
	if (wrong++ < SHOWN)
		printf("wrong: %s\n", what);
}

static void show_text(void)
{
	for (size_t i = 0; i < now.len && i < 1000; i++)
		if (now.text[i] == '\n' || (now.text[i] >= ' ' && now.text[i] <= '~' && now.text[i] != '\\'))
			putchar(now.text[i]);
		else
			printf("\\x%02x", now.text[i]);
	printf("(%zu bytes)\n", now.len);
}

static void take_text(const void *text, size_t len)
{
	free(now.text);
	now.text = malloc(len);
	now.len = len;
	memcpy(now.text, text, len);
	now.why = read_text(now.text, len, &now.plant);
	now.judged = now.why.number == 0 && judge(&now.plant, USUAL);
	now.levels.count = 0;
	unjudged += now.why.number == 0 && !now.judged;
}

static void take_plant(const struct plant *plant)
{
	static struct buffer to;
	to.len = 0;
	write_text(plant, &to);
	take_text(to.at, to.len);
	compared(now.why.number == 0, "a plant that is made here");
	if (now.judged)
		levels_of(&now.levels);
}

/* The desk's function. */

static struct refusal expected(size_t p, size_t q, size_t room)
{
	if (now.why.number)
		return now.why;
	if (p < 1 || p > P_MOST || q < 1 || q > Q_MOST)
		return (struct refusal){ 9, 0 };
	if (room < now.plant.n)
		return (struct refusal){ 12, 0 };
	return (struct refusal){ 0, 0 };
}

static int untouched(const uint8_t *labels, size_t from, size_t room)
{
	for (size_t i = from; i < room; i++)
		if (labels[i] != UNTOUCHED)
			return 0;
	return 1;
}

static int right_labels(struct refusal why, size_t p, size_t q, const uint8_t *labels, size_t room, size_t groups)
{
	struct grouping want;
	if (why.number)
		return groups == 0 && untouched(labels, 0, room);
	if (!untouched(labels, now.plant.n, room))
		return 0;
	if (!now.judged)
		return 1;
	groups_at((struct rate){ (int64_t)p, (int64_t)q }, &want);
	return groups == want.groups && memcmp(labels, want.label, now.plant.n) == 0;
}

static void call_desk(size_t p, size_t q, size_t room)
{
	size_t place = 77, groups = 88, number;
	uint8_t *labels = malloc(room);
	struct refusal why = expected(p, q, room);
	char what[160];
	memset(labels, UNTOUCHED, room);
	number = desk_groups(now.text, now.len, p, q, labels, room, &place, &groups);
	snprintf(what, sizeof what, "desk at %zu/%zu, room %zu: %zu at %zu, %zu groups; expected %u at %u, for this text:",
		p, q, room, number, place, groups, why.number, why.place);
	int right = number == why.number && place == why.place && right_labels(why, p, q, labels, room, groups);
	compared(right, what);
	if (!right && wrong <= SHOWN)
		show_text();
	calls++;
	free(labels);
}

/* At the rate, in other terms, just above it and just below it. */
static void call_around(struct rate low)
{
	int64_t times = Q_MOST / low.q;
	if (low.p * times >= P_MOST)
		times = P_MOST / low.p;
	times = times ? times : 1;
	call_desk((size_t)low.p, (size_t)low.q, now.plant.n);
	call_desk((size_t)(low.p * times), (size_t)(low.q * times), MAX_N);
	call_desk((size_t)(low.p * times + 1), (size_t)(low.q * times), now.plant.n + 1);
	call_desk((size_t)(low.p * times - 1), (size_t)(low.q * times), now.plant.n);
}

static void call_by_chance(uint32_t times)
{
	uint64_t top = now.levels.count > 1 ? (uint64_t)(now.levels.low[0].p / now.levels.low[0].q) + 2 : 5;
	for (uint32_t i = 0; i < times; i++) {
		uint64_t q = 1 + below(below(2) ? 10 : Q_MOST), p = 1 + below(top * q);
		call_desk(p > P_MOST ? P_MOST : p, q, now.plant.n);
	}
}

/* Each limit of p, q and the room, and values whose low halves would be taken. */
static void call_at_limits(void)
{
	static const size_t p[] = { 0, 1, P_MOST, P_MOST + 1, (size_t)1 << 32, ((size_t)1 << 32) + 1, SIZE_MAX };
	static const size_t q[] = { 0, 1, Q_MOST, Q_MOST + 1, (size_t)1 << 32, ((size_t)1 << 32) + 1, SIZE_MAX };
	for (uint32_t i = 0; i < 49; i++)
		call_desk(p[i / 7], q[i % 7], now.plant.n);
	call_desk(1, 1, now.plant.n - 1);
	call_desk(0, 1, now.plant.n - 1);
	call_desk(1, 1, 0);
}

static void call_at_rates(uint32_t by_chance)
{
	for (uint32_t i = 0; i + 1 < now.levels.count; i++)
		call_around(now.levels.low[i]);
	call_by_chance(by_chance);
	call_desk(below(2) ? 1 : 0, below(2) ? Q_MOST + 1 : 1, now.plant.n - below(2));
}

/* The program. */

/* In pieces, with a pause after each of the first three, so that the program gets a part of the text at a time. */
static void send_all(int to, size_t piece)
{
	uint32_t pauses = 3;
	for (size_t at = 0; at < now.len;) {
		size_t left = now.len - at;
		ssize_t done = write(to, now.text + at, left < piece ? left : piece);
		if (done < 0 && errno != EINTR)
			break;
		at += done > 0 ? (size_t)done : 0;
		if (at < now.len && pauses && pauses--)
			usleep(3000);
	}
	close(to);
}

static void receive_all(int from, pid_t child, struct buffer *got)
{
	struct pollfd ready = { from, POLLIN, 0 };
	got->len = 0;
	while (got->len < sizeof got->at) {
		if (poll(&ready, 1, PATIENCE) == 0)
			kill(child, SIGKILL);
		ssize_t done = read(from, got->at + got->len, sizeof got->at - got->len);
		if (done == 0 || (done < 0 && errno != EINTR))
			break;
		got->len += done > 0 ? (size_t)done : 0;
	}
	close(from);
}

/* 0 where it did not end by itself with status 0. */
static int run_program(size_t piece, struct buffer *got)
{
	extern char **environ;
	int in[2], out[2], status;
	pid_t child;
	char *arguments[] = { (char *)program, NULL };
	posix_spawn_file_actions_t actions;
	posix_spawnattr_t attributes;
	sigset_t usual;
	if (pipe2(in, O_CLOEXEC) != 0 || pipe2(out, O_CLOEXEC) != 0)
		return 0;
	sigemptyset(&usual);
	sigaddset(&usual, SIGPIPE);
	posix_spawnattr_init(&attributes);
	posix_spawnattr_setflags(&attributes, POSIX_SPAWN_SETSIGDEF);
	posix_spawnattr_setsigdefault(&attributes, &usual);
	posix_spawn_file_actions_init(&actions);
	posix_spawn_file_actions_adddup2(&actions, in[0], 0);
	posix_spawn_file_actions_adddup2(&actions, out[1], 1);
	status = posix_spawn(&child, program, &actions, &attributes, arguments, environ);
	posix_spawn_file_actions_destroy(&actions);
	posix_spawnattr_destroy(&attributes);
	close(in[0]);
	close(out[1]);
	if (status != 0)
		return close(in[1]), close(out[0]), 0;
	send_all(in[1], piece);
	receive_all(out[0], child, got);
	return waitpid(child, &status, 0) == child && status == 0;
}

static void call_program(size_t piece)
{
	static struct buffer got, want;
	if (!program || (now.why.number == 0 && !now.judged))
		return;
	if (now.why.number == 0 && now.levels.count == 0)
		levels_of(&now.levels);
	want.len = 0;
	if (now.why.number)
		write_refusal(now.why, &want);
	else
		write_listing(now.plant.n, &now.levels, &want);
	int right = run_program(piece, &got) && got.len == want.len && memcmp(got.at, want.at, got.len) == 0;
	compared(right, "the program, for this text:");
	if (!right && wrong <= SHOWN) {
		show_text();
		printf("it printed:\n%.*s\nexpected:\n%.*s\n", (int)(got.len < 3000 ? got.len : 3000), got.at,
			(int)(want.len < 3000 ? want.len : 3000), want.at);
	}
	runs++;
}

/* Plants. */

static struct plant plant;

static void numbered_plants(void)
{
	for (uint32_t n = 1; n <= 4; n++)
		for (uint32_t i = 0; i < 1u << n * (n - 1); i++) {
			numbered_plant(&plant, n, i);
			take_plant(&plant);
			call_at_rates(n < 4 ? 6 : 1);
			if (n == 4 && i % 16 != 0)
				continue;
			call_at_limits();
			call_program(MAX_TEXT);
		}
}

static void shaped_plants(void)
{
	static const uint32_t signals[] = { 1, 2, 7, 65535 };
	for (uint32_t i = 0; i < SHAPES * 8 * 4; i++) {
		shaped_plant(&plant, i / 32, 2 + i / 4 % 8, signals[i % 4]);
		take_plant(&plant);
		call_at_rates(4);
		call_program(MAX_TEXT);
	}
}

static void random_plants(uint32_t times, uint32_t most)
{
	for (uint32_t i = 0; i < times; i++) {
		random_plant(&plant, most);
		take_plant(&plant);
		call_at_rates(8);
		call_program(i % 16 ? MAX_TEXT : 1 + below(40));
	}
}

static void large_plants(uint32_t times)
{
	for (uint32_t i = 0; i < times * LARGE; i++) {
		large_plant(&plant, i % LARGE);
		take_plant(&plant);
		call_by_chance(4);
		if (now.levels.count > 1)
			call_around(now.levels.low[below(now.levels.count - 1)]);
		call_program(i < LARGE ? 1000 : MAX_TEXT);
	}
}

/* Texts. */

static const char *const texts[] = {
	"plant=1\ndevices=1\nlines=0\nend=plant\n",
	"plant=1\ndevices=3\nlines=2\nline=0,1,3\nline=1,2,2\nend=plant\n",
	"plant=1\ndevices=12\nlines=3\nline=0,10,65535\nline=2,3,1\nline=10,11,20\nend=plant\n",
};
static const char *const numbers[] = {
	"", "0", "00", "01", "1", "2", "3", "4", "11", "12", "127", "128", "129", "65535", "65536", "1024", "1025", "999999999",
	"1000000000", "4294967296", "4294967297", "18446744073709551617", "-1", "+1", "1a", " 1", "1 ",
};
enum { NUMBERS = sizeof numbers / sizeof *numbers };

struct text { size_t len; uint8_t at[60000]; };

/* The bytes from `from` to `to` become `middle`. */
static void edit(struct text *text, size_t from, size_t to, const void *middle, size_t len)
{
	static uint8_t rest[sizeof text->at];
	size_t more = text->len - to;
	memcpy(rest, text->at + to, more);
	memmove(text->at + from, middle, len);
	memcpy(text->at + from + len, rest, more);
	text->len = from + len + more;
}

static void compare_text(const struct text *text, int run)
{
	take_text(text->at, text->len);
	call_desk(1 + below(9), 1 + below(4), MAX_N);
	if (below(16) == 0)
		call_desk(below(2), below(2), below(4));
	if (run)
		call_program(below(16) ? MAX_TEXT : 1 + below(20));
}

static void compare_edit(const struct text *base, size_t from, size_t to, const void *middle, size_t len, int run)
{
	static struct text text;
	text = *base;
	edit(&text, from, to, middle, len);
	compare_text(&text, run);
}

static void each_byte(const struct text *base, uint32_t step)
{
	for (size_t i = 0; i < base->len; i++) {
		uint8_t twice[] = { base->at[i], base->at[i] };
		compare_edit(base, i, i + 1, "", 0, 1);
		compare_edit(base, i, i + 1, twice, 2, 1);
		compare_edit(base, i, base->len, "", 0, 1);
		for (uint32_t b = (uint32_t)below(step); b < 256; b += step) {
			uint8_t byte = (uint8_t)b;
			compare_edit(base, i, i + 1, &byte, 1, b < step && step > 1);
			compare_edit(base, i, i, &byte, 1, 0);
		}
		for (const char *s = "0123456789,=\n linedvcspt"; *s; s++) {
			compare_edit(base, i, i + 1, s, 1, 0);
			compare_edit(base, i, i, s, 1, 0);
		}
	}
}

static int is_digit(uint8_t byte) { return byte >= '0' && byte <= '9'; }

static void each_number(const struct text *base, int run)
{
	for (size_t i = 0; i < base->len; i++) {
		size_t end = i;
		if (i > 0 && is_digit(base->at[i - 1]))
			continue;
		while (end < base->len && is_digit(base->at[end]))
			end++;
		for (uint32_t k = 0; k < NUMBERS && end > i; k++)
			compare_edit(base, i, end, numbers[k], strlen(numbers[k]), run);
	}
}

static size_t row_end(const struct text *text, size_t from)
{
	while (from < text->len && text->at[from] != '\n')
		from++;
	return from < text->len ? from + 1 : from;
}

/* Each text line missing, doubled, changed for the next; other lines before and after it. */
static void each_row(const struct text *base)
{
	static const char *const rows[] = { "\n", "x\n", "end=plant\n", "plant=1\n", "lines=2\n", "devices=3\n", "line=0,1,3\n" };
	static struct text text;
	for (size_t i = 0, j, k; i < base->len; i = j) {
		j = row_end(base, i);
		k = row_end(base, j);
		compare_edit(base, i, j, "", 0, 1);
		compare_edit(base, i, i, base->at + i, j - i, 1);
		text = *base;
		edit(&text, i, k, base->at + j, k - j);
		compare_edit(&text, i + k - j, i + k - j, base->at + i, j - i, 1);
		for (uint32_t r = 0; r < sizeof rows / sizeof *rows; r++) {
			compare_edit(base, i, i, rows[r], strlen(rows[r]), 1);
			compare_edit(base, i, j, rows[r], strlen(rows[r]), 1);
			compare_edit(base, base->len, base->len, rows[r], strlen(rows[r]), 1);
		}
	}
}

static void set_text(struct text *text, const struct buffer *from)
{
	text->len = from->len;
	memcpy(text->at, from->at, from->len);
}

/* One to three faults by chance. */
static void some_faults(struct text *text)
{
	for (uint64_t left = 1 + below(3); left && text->len; left--) {
		size_t i = below(text->len), j = i;
		const char *number = numbers[below(NUMBERS)];
		uint8_t byte = (uint8_t)below(256);
		while (i > 0 && is_digit(text->at[i - 1]))
			i--;
		while (j < text->len && is_digit(text->at[j]))
			j++;
		if (j > i && below(8))
			edit(text, i, j, number, strlen(number));
		else if (below(3) == 0)
			edit(text, i, row_end(text, i), "", 0);
		else if (below(4) == 0)
			edit(text, i, i + 1, &byte, 1);
	}
}

static void faults_by_chance(uint32_t times)
{
	static struct buffer to;
	static struct text text;
	for (uint32_t i = 0; i < times; i++) {
		random_plant(&plant, 6);
		for (uint64_t k = below(3); k && plant.lines; k--)
			plant.line[below(plant.lines)] = (struct line){ (uint32_t)below(7), (uint32_t)below(7), (uint32_t)below(4) };
		to.len = 0;
		write_text(&plant, &to);
		set_text(&text, &to);
		if (below(2))
			some_faults(&text);
		compare_text(&text, i % 8 == 0);
	}
}

static void put_row(struct buffer *to, size_t len)
{
	static const char digits[] = "111111111";
	int more = (int)len - 11, first = more < 8 ? more : 8, second = more - first < 8 ? more - first : 8;
	put(to, "line=%.*s,%.*s,%.*s\n", 1 + first, digits, 1 + second, digits, 1 + more - first - second, digits);
}

/* A text of right form with so many bytes, in rows of so many. */
static void sized_text(struct text *text, size_t size, size_t row)
{
	static struct buffer head, to;
	uint32_t rows = 0;
	size_t left = size - strlen("plant=1\ndevices=100\nlines=1000\nend=plant\n"), take;
	to.len = head.len = 0;
	left += row > 32;   /* three digits */
	for (; left; left -= take, rows++) {
		take = left >= row + 11 ? row : left > 35 ? 11 : left;
		put_row(&to, take);
	}
	put(&head, "plant=1\ndevices=100\nlines=%u\n%send=plant\n", rows, to.at);
	set_text(text, &head);
	compared(text->len == size, "a text's size");
}

static void limits(void)
{
	static struct text text;
	for (size_t row = 11; row <= 35; row += 24)
		for (size_t size = MAX_TEXT - 1; size <= MAX_TEXT + 2; size++) {
			sized_text(&text, size, row);
			compare_text(&text, 1);
			compare_edit(&text, size - 1, size, "", 0, 1);
			compare_edit(&text, size, size, "x", 1, 1);
			compare_edit(&text, size / 2, size / 2 + 1, "x", 1, 1);
		}
	text.len = sizeof text.at;
	memset(text.at, '\n', text.len);
	compare_text(&text, 1);
	memset(text.at, 0, text.len);
	compare_text(&text, 1);
}

/* 1,024 lines, then one more. */
static void most_rows(void)
{
	large_plant(&plant, 6);
	take_plant(&plant);
	call_by_chance(2);
	call_program(MAX_TEXT);
	plant.line[plant.lines++] = (struct line){ 126, 127, 1 };
	static struct buffer to;
	write_text(&plant, &to);
	take_text(to.at, to.len);
	call_desk(1, 1, MAX_N);
	call_program(MAX_TEXT);
}

static void damaged_texts(uint32_t step, uint32_t times)
{
	static struct text base;
	for (uint32_t i = 0; i < sizeof texts / sizeof *texts; i++) {
		base.len = strlen(texts[i]);
		memcpy(base.at, texts[i], base.len);
		compare_text(&base, 1);
		each_byte(&base, step);
		each_number(&base, 1);
		each_row(&base);
	}
	limits();
	most_rows();
	faults_by_chance(times);
}

int main(int many, char **words)
{
	int lengthy = many == 4 && strcmp(words[1], "--long") == 0, only = many == 2 && strcmp(words[1], "--texts") == 0;
	if (!lengthy && many != 2) {
		fputs("usage: second PROGRAM | second --long SEED PROGRAM | second --texts\n", stderr);
		return 2;
	}
	program = only ? NULL : words[many - 1];
	if (program && access(program, X_OK) != 0) {
		perror(program);
		return 2;
	}
	signal(SIGPIPE, SIG_IGN);
	seed(lengthy ? strtoull(words[2], NULL, 10) : 1);
	self_checks();
	if (!only) {
		numbered_plants();
		shaped_plants();
		random_plants(lengthy ? 20000 : 1500, lengthy ? 11 : 9);
		large_plants(lengthy ? 10 : 1);
	}
	damaged_texts(lengthy ? 1 : 64, lengthy ? 50000 : 3000);
	compared(broken == 0, "a claim of the rules about sets, communities or levels");
	printf("second: %llu calls of the desk's function, %llu runs of the program, %llu plants not judged\n",
		(unsigned long long)calls, (unsigned long long)runs, (unsigned long long)unjudged);
	printf("second: %llu compared, %llu wrong\n", (unsigned long long)count, (unsigned long long)wrong);
	return wrong > 0;
}
