/*
 * queue.c: what the kinds of queue share, and the plainest of them: first in, first out, with a limit of packets.
 */
#include "queue.h"

#include <stdlib.h>
#include <string.h>

const struct queue_kind *queue_kind_of(const char *name)
{
	static const struct queue_kind *const kinds[] = {
		&maltcove_kind,
		&fifo_kind,
#ifdef HAVE_LINUX
		&linux_kind,
#endif
	};

	for (size_t i = 0; i < sizeof kinds / sizeof *kinds; i++)
		if (strcmp(kinds[i]->name, name) == 0)
			return kinds[i];
	return NULL;
}

void queue_settle(struct queue *queue, struct buffer *buffer, enum fate fate, uint64_t now)
{
	if (queue->watcher != NULL)
		queue->watcher->tell(queue->watcher->context, buffer, fate, now);
	if (fate != FATE_SENT)
		pool_give(queue->pool, buffer);
}

enum { STANDARD_FIFO_LIMIT = 1000, MOST_FIFO_LIMIT = 1048576 };

struct fifo {
	struct line line;
	unsigned long limit;
	struct queue_totals totals;
};

/* Reads `limit N`, and answers whether the words are that or nothing. */
static bool read_limit(const char *words, unsigned long *limit)
{
	int end = 0;

	if (words[strspn(words, " ")] == 0)
		return true;
	if (sscanf(words, " limit %lu %n", limit, &end) != 1 || end == 0 || words[end] != 0)
		return false;
	return *limit >= 1 && *limit <= MOST_FIFO_LIMIT;
}

static bool fifo_open(struct queue *queue, const char *words, const uint8_t seed[16], char *fault, size_t fault_size)
{
	struct fifo *fifo = calloc(1, sizeof *fifo);

	(void)seed;
	if (fifo == NULL) {
		snprintf(fault, fault_size, "no memory");
		return false;
	}
	fifo->limit = STANDARD_FIFO_LIMIT;
	if (!read_limit(words, &fifo->limit)) {
		snprintf(fault, fault_size, "a fifo has the words 'limit N', of 1 to %d packets", MOST_FIFO_LIMIT);
		free(fifo);
		return false;
	}
	queue->state = fifo;
	return true;
}

static void fifo_put(struct queue *queue, uint64_t now, struct buffer *buffer)
{
	struct fifo *fifo = queue->state;

	fifo->totals.accepted++;
	if (fifo->totals.queued >= fifo->limit) {
		fifo->totals.dropped_overflow++;
		queue_settle(queue, buffer, FATE_OVERFLOW, now);
		return;
	}
	fifo->totals.queued++;
	fifo->totals.queued_bytes += buffer->packet.len;
	line_put(&fifo->line, buffer);
}

/* The first buffer, out of the counts, or NULL. */
static struct buffer *fifo_next(struct fifo *fifo)
{
	struct buffer *buffer = line_take(&fifo->line);

	if (buffer != NULL) {
		fifo->totals.queued--;
		fifo->totals.queued_bytes -= buffer->packet.len;
	}
	return buffer;
}

static size_t fifo_take(struct queue *queue, uint64_t now, struct buffer **buffers, size_t n)
{
	struct fifo *fifo = queue->state;
	size_t count = 0;

	while (count < n && (buffers[count] = fifo_next(fifo)) != NULL) {
		struct buffer *buffer = buffers[count++];

		buffer->ecn = buffer->packet.ecn;
		buffer->mark = 0;
		fifo->totals.sent++;
		fifo->totals.sent_bytes += buffer->packet.len;
		queue_settle(queue, buffer, FATE_SENT, now);
	}
	return count;
}

static void fifo_flush(struct queue *queue, uint64_t now)
{
	struct fifo *fifo = queue->state;
	struct buffer *buffer;

	while ((buffer = fifo_next(fifo)) != NULL) {
		fifo->totals.flushed++;
		queue_settle(queue, buffer, FATE_FLUSHED, now);
	}
}

static void fifo_totals(const struct queue *queue, struct queue_totals *totals)
{
	*totals = ((const struct fifo *)queue->state)->totals;
}

static void fifo_describe(const struct queue *queue, FILE *file)
{
	fprintf(file, "limit %lup", ((const struct fifo *)queue->state)->limit);
}

static void fifo_close(struct queue *queue)
{
	free(queue->state);
	queue->state = NULL;
}

const struct queue_kind fifo_kind = {
	.name = "fifo",
	.open = fifo_open,
	.put = fifo_put,
	.take = fifo_take,
	.flush = fifo_flush,
	.totals = fifo_totals,
	.describe = fifo_describe,
	.close = fifo_close,
};
