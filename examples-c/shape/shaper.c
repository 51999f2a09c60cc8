/*
 * shaper.c: the core of the program.
 */
#include "shaper.h"

/* So many packets leave the queue at one moment at most; the rest is asked for after them. */
enum { BURST = 64 };

void shaper_open(struct shaper *shaper, struct pool *pool, struct queue *queue, uint64_t rate, uint64_t delay)
{
	*shaper = (struct shaper){ .pool = pool, .queue = queue, .delay = delay };
	link_open(&shaper->link, rate);
}

/* What is wrong with a packet of which maltcove_parse answers that. */
static enum bad bad_of(int verdict)
{
	switch (verdict) {
	case MALTCOVE_SHORT:
		return BAD_SHORT;
	case MALTCOVE_NOT_IP:
		return BAD_NO_IP;
	default:
		return BAD_LENGTHS;
	}
}

void shaper_come(struct shaper *shaper, uint64_t now, struct buffer *buffer)
{
	/* a device of raw IP names no ethertype */
	int verdict = maltcove_parse(buffer->bytes, buffer->count, buffer->count, 0, &buffer->packet, &buffer->where);

	if (verdict != MALTCOVE_FINE) {
		shaper->bad[bad_of(verdict)]++;
		pool_give(shaper->pool, buffer);
		return;
	}
	buffer->came = now;
	shaper->queue->kind->put(shaper->queue, now, buffer);
	if (shaper->link.is_idle) {
		link_wake(&shaper->link, now);
		shaper_serve(shaper, now);
	}
}

/* The link sends the packet, which leaves after the delay. */
static void send(struct shaper *shaper, uint64_t now, struct buffer *buffer)
{
	uint64_t wait = now - buffer->came;

	shaper->waited += wait;
	if (wait > shaper->most_wait)
		shaper->most_wait = wait;
	link_send(&shaper->link, buffer->packet.len);
	buffer->due = shaper->link.free_at + shaper->delay;
	line_put(&shaper->underway, buffer);
}

void shaper_serve(struct shaper *shaper, uint64_t now)
{
	struct buffer *buffers[BURST];
	size_t room;

	if (!shaper->link.is_idle && shaper->link.free_at <= now && now - shaper->link.free_at > shaper->most_late)
		shaper->most_late = now - shaper->link.free_at;
	while ((room = link_room(&shaper->link, now, BUFFER_BYTES)) > 0) {
		size_t asked = room < BURST ? room : BURST;
		size_t count = shaper->queue->kind->take(shaper->queue, now, buffers, asked);

		for (size_t i = 0; i < count; i++)
			send(shaper, now, buffers[i]);
		if (count < asked && shaper->link.free_at <= now)
			shaper->link.is_idle = true;
	}
}

struct buffer *shaper_leave(struct shaper *shaper, uint64_t now)
{
	if (shaper->underway.first == NULL || shaper->underway.first->due > now)
		return NULL;
	return line_take(&shaper->underway);
}

uint64_t shaper_next(const struct shaper *shaper)
{
	uint64_t next = shaper->link.is_idle ? NEVER : shaper->link.free_at;

	if (shaper->underway.first != NULL && shaper->underway.first->due < next)
		next = shaper->underway.first->due;
	return next;
}

void shaper_flush(struct shaper *shaper, uint64_t now)
{
	struct buffer *buffer;

	shaper->queue->kind->flush(shaper->queue, now);
	while ((buffer = line_take(&shaper->underway)) != NULL)
		pool_give(shaper->pool, buffer);
}

static unsigned long long plain(uint64_t number)
{
	return number;
}

void shaper_print(const struct shaper *shaper, const char *device, FILE *file)
{
	const struct pool *pool = shaper->pool;
	struct queue_totals totals;

	shaper->queue->kind->totals(shaper->queue, &totals);
	fprintf(file, "qdisc %s dev %s ", shaper->queue->kind->name, device);
	shaper->queue->kind->describe(shaper->queue, file);
	fprintf(file, "\n Sent %llu bytes %llu pkt (dropped %llu, overlimits 0 requeues 0)\n", plain(totals.sent_bytes),
		plain(totals.sent), plain(totals.dropped_codel + totals.dropped_overflow));
	fprintf(file, " backlog %llub %llup requeues 0\n", plain(totals.queued_bytes), plain(totals.queued));
	fprintf(file, "  drop_codel %llu drop_overlimit %llu ecn_mark %llu ce_mark %llu flushed %llu refused %llu\n",
		plain(totals.dropped_codel), plain(totals.dropped_overflow), plain(totals.marked),
		plain(totals.threshold_marked), plain(totals.flushed), plain(totals.refused));
	fprintf(file, " link rate %llubit delay %lluus wait_mean %.3fms wait_most %.3fms late_most %.3fms\n",
		plain(shaper->link.rate), plain(shaper->delay / 1000),
		totals.sent > 0 ? (double)shaper->waited / 1e6 / (double)totals.sent : 0, (double)shaper->most_wait / 1e6,
		(double)shaper->most_late / 1e6);
	fprintf(file, " bad short %llu no_ip %llu lengths %llu\n", plain(shaper->bad[BAD_SHORT]),
		plain(shaper->bad[BAD_NO_IP]), plain(shaper->bad[BAD_LENGTHS]));
	fprintf(file, " buffers %zu out %zu most %zu taken %llu given %llu twice %llu none_left %llu\n", pool->size, pool->out,
		pool->most, plain(pool->taken), plain(pool->given), plain(pool->twice), plain(pool->none_left));
}
