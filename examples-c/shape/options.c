/*
 * options.c: reads the command line.
 */
#include "options.h"

#include <stdio.h>
#include <stdlib.h>
#include <string.h>

#include "link.h"

enum { STANDARD_BUFFERS = 16384, MOST_BUFFERS = 4194304 };

/* Reads 32 hexadecimal digits. */
static bool read_seed(const char *text, uint8_t seed[16])
{
	if (strlen(text) != 32 || strspn(text, "0123456789abcdefABCDEF") != 32)
		return false;
	for (size_t i = 0; i < 16; i++) {
		char pair[3] = { text[2 * i], text[2 * i + 1], 0 };

		seed[i] = (uint8_t)strtoul(pair, NULL, 16);
	}
	return true;
}

static bool read_count(const char *text, size_t *count)
{
	char *end;

	if (*text < '0' || *text > '9')
		return false;
	*count = strtoul(text, &end, 10);
	return *end == 0 && *count >= 2 && *count <= MOST_BUFFERS;
}

/* Takes the value of an option. Answers whether it is one: *known says whether there is such an option. */
static bool take_value(struct options *options, const char *name, const char *value, bool *known)
{
	*known = true;
	if (strcmp(name, "--in") == 0) {
		options->in = value;
		return true;
	}
	if (strcmp(name, "--out") == 0) {
		options->out = value;
		return true;
	}
	if (strcmp(name, "--rate") == 0)
		return link_read_rate(value, &options->rate);
	if (strcmp(name, "--delay") == 0)
		return link_read_time(value, &options->delay);
	if (strcmp(name, "--queue") == 0)
		return (options->kind = queue_kind_of(value)) != NULL;
	if (strcmp(name, "--buffers") == 0)
		return read_count(value, &options->buffers);
	if (strcmp(name, "--seed") == 0)
		return options->has_seed = read_seed(value, options->seed);
	*known = false;
	return false;
}

/* Puts a word after the words of tc's. Answers whether there was room. */
static bool append_word(struct options *options, const char *word)
{
	size_t used = strlen(options->words), length = strlen(word);

	if (used + length + 2 > sizeof options->words)
		return false;
	if (used > 0)
		options->words[used++] = ' ';
	memcpy(options->words + used, word, length + 1);
	return true;
}

/* Reads the option at words[*at], and leaves *at at its last word. */
static bool read_option(struct options *options, int count, char **words, int *at, char *fault, size_t fault_size)
{
	const char *name = words[*at];
	bool known;

	if (strcmp(name, "--help") == 0)
		return options->wants_help = true;
	if (*at + 1 >= count) {
		snprintf(fault, fault_size, "%s: no value stands after it", name);
		return false;
	}
	if (take_value(options, name, words[*at + 1], &known)) {
		(*at)++;
		return true;
	}
	if (known)
		snprintf(fault, fault_size, "%s: '%s' is no value for it", name, words[*at + 1]);
	else
		snprintf(fault, fault_size, "%s: there is no such option", name);
	return false;
}

bool options_read(struct options *options, int count, char **words, char *fault, size_t fault_size)
{
	*options = (struct options){ .kind = &maltcove_kind, .buffers = STANDARD_BUFFERS };
	for (int at = 0; at < count; at++) {
		if (strncmp(words[at], "--", 2) == 0) {
			if (!read_option(options, count, words, &at, fault, fault_size))
				return false;
		} else if (!append_word(options, words[at])) {
			snprintf(fault, fault_size, "the words of the parameters are too long");
			return false;
		}
	}
	return true;
}
