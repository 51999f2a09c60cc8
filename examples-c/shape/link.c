/*
 * link.c: the link's time, and how rates and times are written.
 */
#include "link.h"

#include <string.h>

/* Reads digits from *text on, and leaves *text after them. Answers whether there were some, of a number up to most. */
static bool read_digits(const char **text, uint64_t most, uint64_t *number)
{
	const char *at = *text;

	*number = 0;
	while (*at >= '0' && *at <= '9') {
		uint64_t digit = (uint64_t)(*at - '0');

		if (*number > (most - digit) / 10)
			return false;
		*number = *number * 10 + digit;
		at++;
	}
	if (at == *text)
		return false;
	*text = at;
	return true;
}

struct unit {
	const char *name;
	uint64_t times;
};

/* Reads a number and one of the units. Answers whether the product is at least `least` and at most `most`. */
static bool read_amount(const char *text, const struct unit *units, uint64_t least, uint64_t most, uint64_t *amount)
{
	uint64_t number;

	if (!read_digits(&text, most, &number))
		return false;
	for (; units->name != NULL; units++) {
		if (strcmp(text, units->name) != 0)
			continue;
		if (number > most / units->times || number * units->times < least)
			return false;
		*amount = number * units->times;
		return true;
	}
	return false;
}

bool link_read_rate(const char *text, uint64_t *rate)
{
	static const struct unit units[] = {
		{ "", 1 },           { "bit", 1 },
		{ "kbit", 1000 },    { "mbit", 1000000 },
		{ "gbit", 1000000000 }, { "tbit", 1000000000000 },
		{ "kibit", 1 << 10 }, { "mibit", 1 << 20 },
		{ "gibit", 1 << 30 }, { "bps", 8 },
		{ "kbps", 8000 },    { "mbps", 8000000 },
		{ "gbps", 8000000000 }, { "kibps", 8 << 10 },
		{ "mibps", 8 << 20 }, { "gibps", 8ull << 30 },
		{ NULL, 0 },
	};

	return read_amount(text, units, 1000, 1000000000000, rate);
}

bool link_read_time(const char *text, uint64_t *nanoseconds)
{
	static const struct unit units[] = {
		{ "", 1000 }, { "us", 1000 }, { "ms", 1000000 }, { "s", 1000000000 }, { NULL, 0 },
	};

	return read_amount(text, units, 0, 1000000000000, nanoseconds);
}

void link_open(struct link *link, uint64_t rate)
{
	*link = (struct link){ .rate = rate, .is_idle = true };
}

void link_wake(struct link *link, uint64_t now)
{
	link->is_idle = false;
	link->free_at = now;
	link->rest = 0;
}

void link_send(struct link *link, uint32_t len)
{
	/* 65,535 bytes are 5 * 10^14 units of 1/rate nanoseconds */
	uint64_t units = link->rest + (uint64_t)len * 8 * 1000000000;

	link->free_at += units / link->rate;
	link->rest = units % link->rate;
}

size_t link_room(const struct link *link, uint64_t now, uint32_t longest)
{
	uint64_t each;

	if (link->is_idle || link->free_at > now)
		return 0;
	each = (uint64_t)longest * 8 * 1000000000 / link->rate + 1;
	return 1 + (size_t)((now - link->free_at) / each);
}
