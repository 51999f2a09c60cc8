/*
 * options.h: the words of the command line.
 */
#ifndef SHAPE_OPTIONS_H
#define SHAPE_OPTIONS_H

#include <stdbool.h>
#include <stddef.h>
#include <stdint.h>

#include "queue.h"

/* So many bytes of tc's words there are room for. */
#define WORDS_BYTES 1024

struct options {
	const char *in, *out;          /* the devices' names; NULL where none is said */
	uint64_t rate;                 /* bits a second; 0 where none is said */
	uint64_t delay;                /* nanoseconds */
	const struct queue_kind *kind; /* Maltcove where none is said */
	size_t buffers;                /* in the pool */
	uint8_t seed[16];
	bool has_seed, wants_help;
	char words[WORDS_BYTES];       /* tc's, joined by blanks */
};

/* Reads the words after the program's name. Where one is wrong, writes why into fault and answers false. */
bool options_read(struct options *options, int count, char **words, char *fault, size_t fault_size);

#endif
