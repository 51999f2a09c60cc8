/*
 * queue_linux.c: packets wait in Linux's own sch_fq_codel, built in user space, to be compared with Maltcove. The
 * kernel's files aren't kept here: setup.h of the harness includes them.
 */
#include "setup.h"

#include "queue.h"

/* Each buffer of the pool has a packet of Linux's, at the same place. */
struct linux_state {
	struct Qdisc *qdisc;
	struct sk_buff *packets;
	struct queue_totals totals;
	bool flushes;
	uint64_t key;
};

/* The kernel frees packets without saying for which queue, so that is noted here at each call. */
static struct queue *current;

static struct buffer *buffer_of(const struct sk_buff *packet)
{
	return (struct buffer *)(uintptr_t)packet->id;
}

static void lose(struct sk_buff *packet, enum fate fate)
{
	struct linux_state *state = current->state;

	if (fate == FATE_OVERFLOW)
		state->totals.dropped_overflow++;
	else if (fate == FATE_CODEL)
		state->totals.dropped_codel++;
	else
		state->totals.flushed++;
	queue_settle(current, buffer_of(packet), fate, shim_clock_ns);
}

/* The kernel frees a packet itself where CoDel drops it, and at a reset. */
static void shim_kfree_skb(struct sk_buff *packet)
{
	lose(packet, ((struct linux_state *)current->state)->flushes ? FATE_FLUSHED : FATE_CODEL);
}

static void read_words(struct setup *setup, char *words)
{
	char *list[128];
	int count = 0;

	for (char *word = strtok(words, " "); word != NULL && count < 128; word = strtok(NULL, " "))
		list[count++] = word;
	for (int at = 0; at < count;) {
		int next = setup_word(setup, count, list, at);

		if (next == at)
			die("unknown word %s", list[at]);
		at = next;
	}
}

static bool linux_open(struct queue *queue, const char *words, const uint8_t seed[16], char *fault, size_t fault_size)
{
	struct linux_state *state = calloc(1, sizeof *state);
	size_t bytes = queue->pool->size * sizeof(struct sk_buff);
	struct setup setup;
	char copy[1024];

	setup_init(&setup);
	snprintf(copy, sizeof copy, "%s", words);
	read_words(&setup, copy);
	state->packets = aligned_alloc(64, bytes);
	if (state->packets == NULL) {
		snprintf(fault, fault_size, "no memory");
		return false;
	}
	memset(state->packets, 0, bytes);
	memcpy(&state->key, seed, sizeof state->key);
	state->qdisc = qdisc_make(&setup, true);
	queue->state = state;
	return true;
}

/* A hash of the five-tuple. The kernel's is SipHash; any that spreads does for a comparison of few flows. */
static u32 hash_of(const maltcove_packet *view, uint64_t key)
{
	const uint8_t rest[] = { view->proto, view->sport >> 8, view->sport & 255, view->dport >> 8, view->dport & 255 };
	uint64_t hash = key ^ 0xcbf29ce484222325;

	for (int i = 0; i < 16; i++)
		hash = ((hash ^ view->src[i]) * 0x100000001b3 ^ view->dst[i]) * 0x100000001b3;
	for (size_t i = 0; i < sizeof rest; i++)
		hash = (hash ^ rest[i]) * 0x100000001b3;
	hash = (hash ^ hash >> 33) * 0xff51afd7ed558ccd;
	return (u32)(hash >> 32);
}

static void linux_put(struct queue *queue, uint64_t now, struct buffer *buffer)
{
	struct linux_state *state = queue->state;
	struct sk_buff *packet = &state->packets[buffer - queue->pool->buffers], *lost = NULL;

	memset(packet, 0, sizeof *packet);
	packet->id = (uintptr_t)buffer;
	packet->len = buffer->packet.len;
	packet->truesize = buffer->packet.len;
	qdisc_skb_cb(packet)->pkt_len = buffer->packet.len;
	packet->ecn = buffer->packet.ecn;
	packet->hash = hash_of(&buffer->packet, state->key);
	current = queue;
	shim_clock_ns = now;
	state->totals.accepted++;
	state->qdisc->enqueue(packet, state->qdisc, &lost);
	while (lost != NULL) {
		struct sk_buff *next = lost->next;

		lose(lost, FATE_OVERFLOW);
		lost = next;
	}
}

static struct buffer *take_one(struct queue *queue)
{
	struct linux_state *state = queue->state;
	struct fq_codel_sched_data *sched = qdisc_priv(state->qdisc);
	u32 marks = sched->cstats.ecn_mark;
	struct sk_buff *packet = state->qdisc->dequeue(state->qdisc);
	struct buffer *buffer;

	if (packet == NULL)
		return NULL;
	buffer = buffer_of(packet);
	buffer->ecn = packet->ecn;
	buffer->mark = 0;
	if (packet->ecn != buffer->packet.ecn) {
		maltcove_mark(buffer->bytes, buffer->count, &buffer->where);
		buffer->mark = sched->cstats.ecn_mark != marks ? 1 : 2;
	}
	state->totals.marked += sched->cstats.ecn_mark - marks;
	state->totals.threshold_marked += buffer->mark == 2;
	state->totals.sent++;
	state->totals.sent_bytes += buffer->packet.len;
	return buffer;
}

static size_t linux_take(struct queue *queue, uint64_t now, struct buffer **buffers, size_t n)
{
	size_t count = 0;

	current = queue;
	shim_clock_ns = now;
	while (count < n && (buffers[count] = take_one(queue)) != NULL)
		queue_settle(queue, buffers[count++], FATE_SENT, now);
	return count;
}

static void linux_flush(struct queue *queue, uint64_t now)
{
	struct linux_state *state = queue->state;

	current = queue;
	shim_clock_ns = now;
	state->flushes = true;
	shim_ops->reset(state->qdisc);
	state->flushes = false;
}

static void linux_totals(const struct queue *queue, struct queue_totals *totals)
{
	const struct linux_state *state = queue->state;

	*totals = state->totals;
	totals->queued = state->qdisc->q.qlen;
	totals->queued_bytes = state->qdisc->qstats.backlog;
}

static void linux_describe(const struct queue *queue, FILE *file)
{
	struct fq_codel_sched_data *sched = qdisc_priv(((struct linux_state *)queue->state)->qdisc);

	fprintf(file, "limit %up flows %u quantum %u mtu %u", ((struct linux_state *)queue->state)->qdisc->limit,
		sched->flows_cnt, sched->quantum, sched->cparams.mtu);
	fprintf(file, " target %uus interval %uus%s drop_batch %u", (u32)((u64)sched->cparams.target * 1024 / 1000),
		(u32)((u64)sched->cparams.interval * 1024 / 1000), sched->cparams.ecn ? " ecn" : "", sched->drop_batch_size);
}

static void linux_close(struct queue *queue)
{
	struct linux_state *state = queue->state;

	qdisc_free(state->qdisc);
	free(state->packets);
	free(state);
	queue->state = NULL;
}

const struct queue_kind linux_kind = {
	.name = "linux",
	.open = linux_open,
	.put = linux_put,
	.take = linux_take,
	.flush = linux_flush,
	.totals = linux_totals,
	.describe = linux_describe,
	.close = linux_close,
};
