/*
 * load.c: ten minutes of the clock under more packets than the link and the buffers can hold: bad ones, drops of both
 * kinds, marks, and times with no buffer left. At the end each buffer is back, and came back once.
 *
 *   load [SECONDS]
 */
#include <string.h>

#include "../shaper.h"
#include "check.h"

struct load {
	const char *name, *words;
	const struct queue_kind *kind;
	uint64_t delay;
	size_t buffers;
};

/* What came, and what was seen of it. */
struct counts {
	uint64_t came, bad, left, marks, fates[FATE_REFUSED + 1];
};

static void count_fate(void *context, const struct buffer *buffer, enum fate fate, uint64_t now)
{
	struct counts *counts = context;

	(void)now;
	CHECK(buffer->is_out);
	counts->fates[fate]++;
	if (fate == FATE_SENT) {
		maltcove_packet view;

		/* what leaves says what the queue answered */
		CHECK(parse(buffer->bytes, buffer->count, &view) == MALTCOVE_FINE && view.ecn == buffer->ecn);
		CHECK(view.version == 6 || header_sum(buffer->bytes) == 0xffff);
		CHECK(buffer->mark == 0 || (buffer->packet.ecn != 0 && view.ecn == 3));
		counts->marks += buffer->mark != 0;
	}
}

/* A packet of one of 40 flows: a few of them send most of the packets. One in a hundred is cut off. */
static uint32_t random_packet(uint64_t *state, uint8_t *bytes)
{
	uint32_t flow = random_below(state, 3) ? random_below(state, 4) : random_below(state, 40);
	maltcove_packet view = { .version = flow % 2 ? 6 : 4, .proto = flow % 5 ? 6 : 17, .ecn = flow % 3 ? 0 : 2 };
	uint32_t lengths[] = { 64, 300, 1500, 1500 };

	view.len = lengths[random_below(state, 4)];
	view.src[1] = (uint8_t)flow;
	view.dst[0] = 9;
	view.sport = (uint16_t)(1000 + flow);
	view.dport = 443;
	CHECK(build_packet(bytes, &view, random_below(state, 4)));
	return random_below(state, 100) ? view.len : random_below(state, view.len);
}

/* The link and the output do what they do up to a moment. */
static void run_until(struct shaper *shaper, uint64_t moment, struct counts *counts)
{
	uint64_t next;

	while ((next = shaper_next(shaper)) < moment) {
		struct buffer *buffer;

		shaper_serve(shaper, next);
		while ((buffer = shaper_leave(shaper, next)) != NULL) {
			counts->left++;
			pool_give(shaper->pool, buffer);
		}
	}
}

/* Packets come for so long: in bursts, with rests in which the queue empties now and then. */
static void send_packets(struct shaper *shaper, uint64_t seconds, struct counts *counts)
{
	uint64_t state = 11, now = 0;

	while (now < seconds * 1000000000) {
		uint32_t burst = 1 + random_below(&state, 80);

		now += random_below(&state, 100) ? random_below(&state, 40000000) : 3000000000;
		/* now and then the program wakes late, and the link starts many packets at once */
		if (random_below(&state, 10))
			run_until(shaper, now, counts);
		shaper_serve(shaper, now);
		for (; burst > 0; burst--) {
			struct buffer *buffer = pool_take(shaper->pool);

			if (buffer == NULL)
				continue;
			buffer->count = random_packet(&state, buffer->bytes);
			counts->came++;
			shaper_come(shaper, now, buffer);
		}
	}
	shaper_flush(shaper, now);
}

static void check_counts(const struct shaper *shaper, const struct counts *counts, bool has_codel)
{
	const struct pool *pool = shaper->pool;
	struct queue_totals totals;

	shaper->queue->kind->totals(shaper->queue, &totals);
	CHECK(pool_is_whole(pool));
	CHECK(pool->taken == counts->came);
	CHECK(totals.accepted + counts->bad == counts->came && totals.refused == 0);
	CHECK(totals.accepted == totals.sent + totals.dropped_codel + totals.dropped_overflow + totals.flushed);
	CHECK(totals.queued == 0 && totals.queued_bytes == 0);
	CHECK(counts->fates[FATE_SENT] == totals.sent && counts->fates[FATE_FLUSHED] == totals.flushed);
	CHECK(counts->fates[FATE_CODEL] == totals.dropped_codel);
	CHECK(counts->marks == totals.marked + totals.threshold_marked);
	CHECK(counts->fates[FATE_OVERFLOW] == totals.dropped_overflow);
	/* the load was one: all that can happen has happened */
	CHECK(counts->bad > 0 && totals.dropped_overflow > 0 && totals.flushed > 0 && counts->left > 0);
	CHECK(!has_codel || (totals.dropped_codel > 0 && totals.marked > 0));
}

static void run_load(const struct load *load, uint64_t seconds)
{
	struct pool pool;
	struct counts counts = { 0 };
	struct watcher watcher = { count_fate, &counts };
	struct queue queue = { .kind = load->kind, .pool = &pool, .watcher = &watcher };
	struct shaper shaper;
	char fault[160];

	CHECK(pool_open(&pool, load->buffers));
	CHECK(load->kind->open(&queue, load->words, (const uint8_t[16]){ 5 }, fault, sizeof fault));
	shaper_open(&shaper, &pool, &queue, 10000000, load->delay);
	send_packets(&shaper, seconds, &counts);
	counts.bad = shaper.bad[BAD_SHORT] + shaper.bad[BAD_NO_IP] + shaper.bad[BAD_LENGTHS];
	check_counts(&shaper, &counts, load->kind != &fifo_kind);
	printf("load: %s: %llu packets, %llu without a buffer; dropped %llu by CoDel, %llu at a limit; all %zu buffers back\n",
	       load->name, (unsigned long long)counts.came, (unsigned long long)pool.none_left,
	       (unsigned long long)counts.fates[FATE_CODEL], (unsigned long long)counts.fates[FATE_OVERFLOW], pool.size);
	queue.kind->close(&queue);
	pool_close(&pool);
}

int main(int argc, char **argv)
{
	static const struct load loads[] = {
		{ "maltcove", "limit 600", &maltcove_kind, 10000000, 1000 },
		{ "maltcove with few buffers", "limit 100 drop_batch 3 memory_limit 60000", &maltcove_kind, 50000000, 150 },
		{ "fifo", "limit 200", &fifo_kind, 10000000, 1000 },
	};
	uint64_t seconds = argc > 1 ? strtoull(argv[1], NULL, 10) : 600;

	for (size_t i = 0; i < sizeof loads / sizeof *loads; i++)
		run_load(&loads[i], seconds);
	return 0;
}
