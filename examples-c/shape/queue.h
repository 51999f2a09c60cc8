/*
 * queue.h: what packets wait in before the link. There are several kinds, to be compared with one another.
 */
#ifndef SHAPE_QUEUE_H
#define SHAPE_QUEUE_H

#include <stdbool.h>
#include <stddef.h>
#include <stdint.h>
#include <stdio.h>

#include "pool.h"

/* What becomes of a packet that came to a queue. */
enum fate { FATE_SENT, FATE_CODEL, FATE_OVERFLOW, FATE_FLUSHED, FATE_REFUSED };

/* Who is told of each fate, while the buffer is still out of the pool. A program that wants none leaves it NULL. */
struct watcher {
	void (*tell)(void *context, const struct buffer *buffer, enum fate fate, uint64_t now);
	void *context;
};

/* What became of all packets. accepted = sent + dropped_codel + dropped_overflow + flushed + queued. */
struct queue_totals {
	uint64_t accepted, sent, sent_bytes;
	uint64_t dropped_codel, dropped_overflow, flushed, refused;
	uint64_t marked, threshold_marked;
	uint64_t queued, queued_bytes;
};

/* A queue of some kind. State is the kind's own. */
struct queue {
	const struct queue_kind *kind;
	struct pool *pool;             /* which buffers are given back to */
	const struct watcher *watcher; /* or NULL */
	void *state;
};

struct queue_kind {
	const char *name;
	/* Makes the state by words of tc's, for buffers of queue->pool. Where a word is wrong, or memory is missing, it
	 * writes why into fault and answers false. */
	bool (*open)(struct queue *queue, const char *words, const uint8_t seed[16], char *fault, size_t fault_size);
	/* Takes a buffer whose headers were read, at that moment in nanoseconds. From here on it is the queue's. */
	void (*put)(struct queue *queue, uint64_t now, struct buffer *buffer);
	/* Gives up to n buffers that are sent at that moment, with their ECN field written. Answers how many. */
	size_t (*take)(struct queue *queue, uint64_t now, struct buffer **buffers, size_t n);
	/* Gives all buffers that wait back to the pool. */
	void (*flush)(struct queue *queue, uint64_t now);
	void (*totals)(const struct queue *queue, struct queue_totals *totals);
	/* Writes the parameters, as tc prints them, without a line end. */
	void (*describe)(const struct queue *queue, FILE *file);
	/* Frees the state. Nothing waits any more. */
	void (*close)(struct queue *queue);
};

extern const struct queue_kind maltcove_kind, fifo_kind, linux_kind;

/* The kind of that name, or NULL. */
const struct queue_kind *queue_kind_of(const char *name);

/* Tells the watcher of the fate, and gives the buffer back unless it is sent. Counting is the kind's. */
void queue_settle(struct queue *queue, struct buffer *buffer, enum fate fate, uint64_t now);

#endif
