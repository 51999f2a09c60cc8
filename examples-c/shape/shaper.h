/*
 * shaper.h: the core of the program, without devices and without a clock: packets come, wait in a queue, are sent by a
 * link of some rate, and leave after a delay. Moments are nanoseconds, which the caller says and which never fall.
 */
#ifndef SHAPE_SHAPER_H
#define SHAPE_SHAPER_H

#include "link.h"
#include "pool.h"
#include "queue.h"

/* No moment: nothing is to be done until a packet comes. */
#define NEVER UINT64_MAX

/* What is wrong with a packet that is let go. */
enum bad {
	BAD_SHORT,   /* fewer bytes than the header of its version has */
	BAD_NO_IP,   /* the version is neither 4 nor 6 */
	BAD_LENGTHS, /* a length in a header says more bytes than there are, or fewer than the header has */
	BAD_KINDS    /* how many there are */
};

struct shaper {
	struct pool *pool;
	struct queue *queue;
	struct link link;
	uint64_t delay;              /* nanoseconds from the end of a packet on the link to its leaving */
	struct line underway;        /* packets that were sent and haven't left */
	uint64_t bad[BAD_KINDS];     /* packets that were let go, by what was wrong with them */
	uint64_t waited, most_wait;  /* nanoseconds in the queue, of all packets sent and of one */
	uint64_t most_late;          /* nanoseconds that the link was served late at most */
};

void shaper_open(struct shaper *shaper, struct pool *pool, struct queue *queue, uint64_t rate, uint64_t delay);

/* A packet comes, of buffer->count bytes. A bad one is counted, and its buffer given back. */
void shaper_come(struct shaper *shaper, uint64_t now, struct buffer *buffer);

/* The link sends what it can have started by now. */
void shaper_serve(struct shaper *shaper, uint64_t now);

/* A packet that leaves now, or NULL. The buffer is the caller's then. */
struct buffer *shaper_leave(struct shaper *shaper, uint64_t now);

/* When the link gets free, or a packet leaves, whichever is sooner; or NEVER. */
uint64_t shaper_next(const struct shaper *shaper);

/* Gives back all buffers that wait or are underway. */
void shaper_flush(struct shaper *shaper, uint64_t now);

/* Writes the statistics, in the form of `tc -s qdisc show` with lines of the program's own after it. */
void shaper_print(const struct shaper *shaper, const char *device, FILE *file);

#endif
