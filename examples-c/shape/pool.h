/*
 * pool.h: the buffers that packets lie in: a fixed number of them, taken at the start.
 */
#ifndef SHAPE_POOL_H
#define SHAPE_POOL_H

#include <stdbool.h>
#include <stddef.h>
#include <stdint.h>

#include <maltcove.h>

/* Bytes in a buffer. A packet that is longer is read in part, and its length field is found to lie then. */
#define BUFFER_BYTES 2048

struct buffer {
	struct buffer *next;     /* of the line that it stands in */
	uint64_t came, due;      /* nanoseconds: when it came, and when it leaves */
	uint64_t number;         /* of the caller's own */
	maltcove_packet packet;  /* what its headers say; the tag is the address of the buffer, where the queue is Maltcove */
	maltcove_where where;
	uint32_t count;          /* bytes that were read */
	uint32_t flow;           /* where the queue has flows */
	uint8_t ecn, mark;       /* as it was sent: see maltcove.h */
	bool is_out;             /* of the pool */
	uint8_t bytes[BUFFER_BYTES];
};

struct pool {
	struct buffer *buffers, *spare;
	size_t size, out, most;     /* how many there are, how many are out, and how many were out at most */
	uint64_t taken, given;      /* how often a buffer was taken, and given back */
	uint64_t none_left;         /* how often none was left to take */
	uint64_t twice;             /* how often one was given back that wasn't out: a bug, and nothing is done */
};

/* Makes a pool of so many buffers. Answers whether there was memory. */
bool pool_open(struct pool *pool, size_t size);

/* A buffer, or NULL where none is left. */
struct buffer *pool_take(struct pool *pool);

/* Takes a buffer back. */
void pool_give(struct pool *pool, struct buffer *buffer);

/* Whether every buffer was given back, and each once. */
bool pool_is_whole(const struct pool *pool);

void pool_close(struct pool *pool);

/* Buffers one after another, as they leave. All 0 is an empty line. */
struct line {
	struct buffer *first, *last;
};

void line_put(struct line *line, struct buffer *buffer);

/* The first one, or NULL. */
struct buffer *line_take(struct line *line);

#endif
