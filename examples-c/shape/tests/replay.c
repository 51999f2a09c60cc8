/*
 * replay.c: the core of the program over a file of packets, at a clock that goes from one event to the next. It prints
 * what became of each packet, as `maltlink --write packets` does.
 *
 *   replay --rate 10mbit [--seed HEX32] [--queue fifo] [PARAMETER]... < packets.pcap
 *
 * The status is 1 where a buffer wasn't given back once. Nothing is printed of bad packets but how many there were, on
 * standard error.
 */
#include <stdlib.h>
#include <string.h>

#include "../options.h"
#include "../shaper.h"
#include "check.h"
#include "pcap.h"

struct row {
	maltcove_packet view;
	uint64_t arrived, at, tuple, place;
	uint32_t flow;
	enum fate fate;
	uint8_t ecn, mark;
};

struct table {
	struct row *rows;
	size_t count, room;
	uint64_t tuples, sent;
};

/* Notes the fate of a packet. What leaves has to have the ECN field that the queue answered. */
static void note_fate(void *context, const struct buffer *buffer, enum fate fate, uint64_t now)
{
	struct table *table = context;
	struct row *row = &table->rows[buffer->number];
	maltcove_packet view;

	row->fate = fate;
	row->at = now / 1000;
	row->flow = buffer->flow;
	if (fate != FATE_SENT)
		return;
	row->ecn = buffer->ecn;
	row->mark = buffer->mark;
	row->place = table->sent++;
	CHECK(parse(buffer->bytes, buffer->count, &view) == MALTCOVE_FINE && view.ecn == buffer->ecn);
	CHECK(view.version == 6 || header_sum(buffer->bytes) == 0xffff);
}

static int is_same_tuple(const maltcove_packet *a, const maltcove_packet *b)
{
	return a->version == b->version && a->proto == b->proto && a->sport == b->sport && a->dport == b->dport &&
	       memcmp(a->src, b->src, 16) == 0 && memcmp(a->dst, b->dst, 16) == 0;
}

/* The number of the packet's five-tuple, in the order of first arrival. */
static uint64_t tuple_of(struct table *table, const maltcove_packet *view)
{
	for (size_t i = 0; i < table->count; i++)
		if (is_same_tuple(&table->rows[i].view, view))
			return table->rows[i].tuple;
	return table->tuples++;
}

/* Appends a row for a packet, if it is fine, and gives the buffer its number. */
static void note_arrival(struct table *table, uint64_t moment, struct buffer *buffer)
{
	struct row row = { .arrived = moment };

	if (parse(buffer->bytes, buffer->count, &row.view) != MALTCOVE_FINE)
		return;
	row.tuple = tuple_of(table, &row.view);
	if (table->count == table->room) {
		table->room = table->room * 2 + 64;
		table->rows = realloc(table->rows, table->room * sizeof *table->rows);
		CHECK(table->rows != NULL);
	}
	buffer->number = table->count;
	table->rows[table->count++] = row;
}

static void print_table(const struct table *table, const char *queue)
{
	static const char *const fates[] = { "sent", "codel", "overflow", "flushed", "refused" };
	static const char *const marks[] = { "", "codel", "threshold" };

	printf("queue,id,tuple,flow,len,ecn,arrived,fate,at,delay,ecn_sent,mark,place\n");
	for (size_t id = 0; id < table->count; id++) {
		const struct row *row = &table->rows[id];

		printf("%s,%zu,%llu,%lu,%lu,%u,%llu,%s,%llu,%llu,", queue, id, (unsigned long long)row->tuple,
		       (unsigned long)row->flow, (unsigned long)row->view.len, row->view.ecn,
		       (unsigned long long)row->arrived, fates[row->fate], (unsigned long long)row->at,
		       (unsigned long long)(row->at - row->arrived));
		if (row->fate == FATE_SENT)
			printf("%u,%s,%llu\n", row->ecn, marks[row->mark], (unsigned long long)row->place);
		else
			printf(",,\n");
	}
}

/* The link does all that it does up to a moment, each thing at its own; packets that left go back to the pool. */
static void run_until(struct shaper *shaper, uint64_t moment)
{
	uint64_t next;

	while ((next = shaper_next(shaper)) < moment) {
		struct buffer *buffer;

		shaper_serve(shaper, next);
		while ((buffer = shaper_leave(shaper, next)) != NULL)
			pool_give(shaper->pool, buffer);
	}
}

static void read_packets(struct shaper *shaper, struct table *table)
{
	struct buffer *buffer;
	uint64_t moment;
	int got = 1;

	while (got > 0 && (buffer = pool_take(shaper->pool)) != NULL) {
		got = pcap_read_packet(stdin, &moment, buffer->bytes, sizeof buffer->bytes, &buffer->count);
		CHECK(got >= 0);
		if (got == 0) {
			pool_give(shaper->pool, buffer);
			break;
		}
		/* packets of the microsecond in which the link gets free come in before it asks */
		run_until(shaper, moment * 1000);
		note_arrival(table, moment, buffer);
		shaper_come(shaper, moment * 1000, buffer);
	}
	CHECK(got == 0);
	run_until(shaper, NEVER);
}

int main(int argc, char **argv)
{
	struct options options;
	struct pool pool;
	struct table table = { 0 };
	struct watcher watcher = { note_fate, &table };
	struct queue queue = { .pool = &pool, .watcher = &watcher };
	struct shaper shaper;
	char fault[160] = "";

	if (!options_read(&options, argc - 1, argv + 1, fault, sizeof fault) || options.rate == 0 || !pcap_read_head(stdin)) {
		fprintf(stderr, "replay: %s\n", fault[0] ? fault : "no rate, or no file of packets");
		return 2;
	}
	queue.kind = options.kind;
	CHECK(pool_open(&pool, options.buffers));
	if (!queue.kind->open(&queue, options.words, options.seed, fault, sizeof fault)) {
		fprintf(stderr, "replay: %s\n", fault);
		return 2;
	}
	shaper_open(&shaper, &pool, &queue, options.rate, options.delay);
	read_packets(&shaper, &table);
	print_table(&table, options.kind == &fifo_kind ? "fifo" : "fq_codel");
	fprintf(stderr, "replay: bad packets: %llu\n", (unsigned long long)(shaper.bad[BAD_SHORT] +
		shaper.bad[BAD_NO_IP] + shaper.bad[BAD_LENGTHS]));
	CHECK(pool_is_whole(&pool));
	queue.kind->close(&queue);
	pool_close(&pool);
	free(table.rows);
	return 0;
}
