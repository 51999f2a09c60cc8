/*
 * queue_maltcove.c: packets wait in Maltcove. A packet's tag is the address of its buffer, and each tag comes back
 * once: sent, dropped or flushed.
 */
#include "queue.h"

#include <stdlib.h>
#include <string.h>

/* So many drops or packets are read at once. */
enum { READ_AT_ONCE = 64 };

struct scheduler {
	maltcove handle;
	uint64_t refused;
};

static uint64_t tag_of(struct buffer *buffer)
{
	return (uint64_t)(uintptr_t)buffer;
}

static struct buffer *buffer_of(uint64_t tag)
{
	return (struct buffer *)(uintptr_t)tag;
}

/* The library's moments are whole microseconds. */
static uint64_t moment_of(uint64_t nanoseconds)
{
	return nanoseconds / 1000;
}

static bool maltcove_kind_open(struct queue *queue, const char *words, const uint8_t seed[16], char *fault,
			       size_t fault_size)
{
	struct scheduler *scheduler = calloc(1, sizeof *scheduler);
	maltcove_fault wrong = { 0 };
	int answer;

	if (scheduler == NULL) {
		snprintf(fault, fault_size, "no memory");
		return false;
	}
	answer = maltcove_open(&scheduler->handle, words, strlen(words), seed, 16, &wrong);
	if (answer == MALTCOVE_OK) {
		queue->state = scheduler;
		return true;
	}
	if (answer == MALTCOVE_BAD_WORDS)
		snprintf(fault, fault_size, "word %llu of the parameters: %s", (unsigned long long)wrong.place,
			 maltcove_fault_text(wrong.kind));
	else
		snprintf(fault, fault_size, "%s", maltcove_strerror(answer));
	free(scheduler);
	return false;
}

/* Gives the buffers of all packets back that were dropped by the last call. */
static void settle_drops(struct queue *queue, uint64_t now)
{
	struct scheduler *scheduler = queue->state;
	maltcove_dropped dropped[READ_AT_ONCE];
	int64_t count;

	while ((count = maltcove_drops(&scheduler->handle, dropped, READ_AT_ONCE)) > 0)
		for (int64_t i = 0; i < count; i++)
			queue_settle(queue, buffer_of(dropped[i].tag),
				     dropped[i].cause == MALTCOVE_BY_CODEL ? FATE_CODEL : FATE_OVERFLOW, now);
}

static void maltcove_kind_put(struct queue *queue, uint64_t now, struct buffer *buffer)
{
	struct scheduler *scheduler = queue->state;
	maltcove_admitted admitted;

	buffer->packet.tag = tag_of(buffer);
	if (maltcove_enqueue(&scheduler->handle, moment_of(now), &buffer->packet, &admitted) != MALTCOVE_OK) {
		scheduler->refused++;
		queue_settle(queue, buffer, FATE_REFUSED, now);
		return;
	}
	buffer->flow = admitted.flow;
	if (admitted.drops > 0)
		settle_drops(queue, now);
}

/* What is done with a packet that is sent. */
static struct buffer *leave(struct queue *queue, uint64_t now, const maltcove_sent *sent)
{
	struct buffer *buffer = buffer_of(sent->tag);

	buffer->ecn = sent->ecn;
	buffer->mark = sent->mark;
	if (sent->mark != MALTCOVE_NO_MARK)
		maltcove_mark(buffer->bytes, buffer->count, &buffer->where);
	queue_settle(queue, buffer, FATE_SENT, now);
	return buffer;
}

static size_t maltcove_kind_take(struct queue *queue, uint64_t now, struct buffer **buffers, size_t n)
{
	struct scheduler *scheduler = queue->state;
	maltcove_sent sent[READ_AT_ONCE];
	int64_t count = maltcove_dequeue_burst(&scheduler->handle, moment_of(now), sent, n < READ_AT_ONCE ? n : READ_AT_ONCE);

	/* drops before an idle answer are reported by no packet */
	settle_drops(queue, now);
	for (int64_t i = 0; i < count; i++)
		buffers[i] = leave(queue, now, &sent[i]);
	return count > 0 ? (size_t)count : 0;
}

static void maltcove_kind_flush(struct queue *queue, uint64_t now)
{
	struct scheduler *scheduler = queue->state;
	maltcove_flushed flushed[READ_AT_ONCE];
	int64_t count;

	while ((count = maltcove_flush(&scheduler->handle, flushed, READ_AT_ONCE)) > 0)
		for (int64_t i = 0; i < count; i++)
			queue_settle(queue, buffer_of(flushed[i].tag), FATE_FLUSHED, now);
}

static void maltcove_kind_totals(const struct queue *queue, struct queue_totals *totals)
{
	struct scheduler *scheduler = queue->state;
	maltcove_totals_t all;

	memset(totals, 0, sizeof *totals);
	if (maltcove_totals(&scheduler->handle, &all) != MALTCOVE_OK)
		return;
	*totals = (struct queue_totals){
		.accepted = all.accepted,
		.sent = all.sent,
		.sent_bytes = all.sent_bytes,
		.dropped_codel = all.dropped_codel,
		.dropped_overflow = all.dropped_overflow,
		.flushed = all.flushed,
		.refused = scheduler->refused,
		.marked = all.marked,
		.threshold_marked = all.threshold_marked,
		.queued = all.queued,
		.queued_bytes = all.queued_bytes,
	};
}

/* A time as tc prints it: in seconds, milliseconds or microseconds, whichever is exact. */
static void print_time(FILE *file, const char *name, uint64_t microseconds)
{
	if (microseconds != 0 && microseconds % 1000000 == 0)
		fprintf(file, " %s %llus", name, (unsigned long long)(microseconds / 1000000));
	else if (microseconds != 0 && microseconds % 1000 == 0)
		fprintf(file, " %s %llums", name, (unsigned long long)(microseconds / 1000));
	else
		fprintf(file, " %s %lluus", name, (unsigned long long)microseconds);
}

static void maltcove_kind_describe(const struct queue *queue, FILE *file)
{
	struct scheduler *scheduler = queue->state;
	maltcove_params_t params;

	if (maltcove_params(&scheduler->handle, &params) != MALTCOVE_OK)
		return;
	fprintf(file, "limit %lup flows %lu quantum %lu mtu %lu", (unsigned long)params.limit,
		(unsigned long)params.flows, (unsigned long)params.quantum, (unsigned long)params.mtu);
	print_time(file, "target", params.target);
	if (params.has_ce_threshold)
		print_time(file, "ce_threshold", params.ce_threshold);
	print_time(file, "interval", params.interval);
	if (params.has_memory_limit)
		fprintf(file, " memory_limit %llub", (unsigned long long)params.memory_limit);
	fprintf(file, "%s drop_batch %lu%s", params.ecn ? " ecn" : "", (unsigned long)params.drop_batch,
		params.hash ? "" : " classify dport");
}

static void maltcove_kind_close(struct queue *queue)
{
	struct scheduler *scheduler = queue->state;

	maltcove_free(&scheduler->handle);
	free(scheduler);
	queue->state = NULL;
}

const struct queue_kind maltcove_kind = {
	.name = "maltcove",
	.open = maltcove_kind_open,
	.put = maltcove_kind_put,
	.take = maltcove_kind_take,
	.flush = maltcove_kind_flush,
	.totals = maltcove_kind_totals,
	.describe = maltcove_kind_describe,
	.close = maltcove_kind_close,
};
