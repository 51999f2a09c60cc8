/*
 * pool.c: buffers and lines of them.
 */
#include "pool.h"

#include <stdlib.h>

bool pool_open(struct pool *pool, size_t size)
{
	*pool = (struct pool){ .size = size };
	pool->buffers = calloc(size, sizeof *pool->buffers);
	if (pool->buffers == NULL)
		return false;
	for (size_t i = size; i > 0; i--) {
		pool->buffers[i - 1].next = pool->spare;
		pool->spare = &pool->buffers[i - 1];
	}
	return true;
}

struct buffer *pool_take(struct pool *pool)
{
	struct buffer *buffer = pool->spare;

	if (buffer == NULL) {
		pool->none_left++;
		return NULL;
	}
	pool->spare = buffer->next;
	buffer->next = NULL;
	buffer->is_out = true;
	pool->taken++;
	pool->out++;
	if (pool->out > pool->most)
		pool->most = pool->out;
	return buffer;
}

void pool_give(struct pool *pool, struct buffer *buffer)
{
	if (!buffer->is_out) {
		pool->twice++;
		return;
	}
	buffer->is_out = false;
	buffer->next = pool->spare;
	pool->spare = buffer;
	pool->given++;
	pool->out--;
}

bool pool_is_whole(const struct pool *pool)
{
	size_t spare = 0;

	for (const struct buffer *buffer = pool->spare; buffer != NULL; buffer = buffer->next)
		spare++;
	return spare == pool->size && pool->out == 0 && pool->taken == pool->given && pool->twice == 0;
}

void pool_close(struct pool *pool)
{
	free(pool->buffers);
	*pool = (struct pool){ 0 };
}

void line_put(struct line *line, struct buffer *buffer)
{
	buffer->next = NULL;
	if (line->first == NULL)
		line->first = buffer;
	else
		line->last->next = buffer;
	line->last = buffer;
}

struct buffer *line_take(struct line *line)
{
	struct buffer *buffer = line->first;

	if (buffer != NULL) {
		line->first = buffer->next;
		buffer->next = NULL;
	}
	return buffer;
}
