/*
 * Nanoseconds of a round through the calls of maltcove.h, and through Linux's own FQ-CoDel in the same loop where
 * WITH_LINUX is defined: setup.h of the harness then brings the kernel's sch_fq_codel.c, unedited. See beside-linux.
 *
 *     bench [REPETITIONS]
 *     bench WORKLOAD KIND ROUNDS      one run of linux, flow or tuple, which prints nothing
 *
 * Each repetition of a workload fills a fresh scheduler and then times its rounds, by each scheduler in turn; the least
 * of all repetitions counts. A packet is a record of 64 bytes or so in a pool, the last one freed first reused; its
 * address is its tag. Drops are read after each call that says that there are any.
 *
 *     pair    a round is one enqueue and one dequeue
 *     hold    enqueues until flows * each + 1 packets wait, so one and one for each drop, and one dequeue
 *     fill    one enqueue
 */
#if WITH_LINUX
#include "setup.h"
#else
#include <stdarg.h>
#include <stdint.h>
#include <stdio.h>
#include <stdlib.h>
#include <string.h>
typedef uint64_t u64;
typedef uint32_t u32;
struct sk_buff {
	struct sk_buff *next;
	char fields[56];
};
#define likely(x) __builtin_expect(!!(x), 1)
#define unlikely(x) __builtin_expect(!!(x), 0)

static void die(const char *what, ...)
{
	fprintf(stderr, "bench: %s\n", what);
	exit(2);
}
#endif
#include "maltcove.h"

#include <time.h>

#define INLINE static inline __attribute__((always_inline))

static struct sk_buff *pool_top;
static u64 freed;

INLINE void pool_put(struct sk_buff *skb)
{
	skb->next = pool_top;
	pool_top = skb;
}

INLINE struct sk_buff *pool_get(void)
{
	struct sk_buff *skb = pool_top;

	pool_top = skb->next;
	return skb;
}

enum pattern { PAIR, HOLD, FILL, NONE };
enum kind { LINUX, BY_FLOW, BY_TUPLE, KINDS };

struct workload {
	const char *name;
	enum pattern pattern;
	bool random;
	u32 flows, each, ecn;
	u64 step_ns, rounds;
	const char *words;
};

#define WORDS "target 5ms interval 100ms flows 1024 quantum 1514 "
static const struct workload workloads[] = {
	{ "loop", NONE, false, 16, 64, 0, 1000, 2000000, WORDS "limit 10240 noecn" },
	{ "one", PAIR, false, 1, 10, 0, 1000, 2000000, WORDS "limit 10240 noecn" },
	{ "few", PAIR, false, 16, 64, 0, 1000, 2000000, WORDS "limit 10240 noecn" },
	{ "many", PAIR, false, 1024, 8, 0, 1000, 2000000, WORDS "limit 10240 noecn" },
	{ "many_random", PAIR, true, 1024, 8, 0, 1000, 2000000, WORDS "limit 10240 noecn" },
	{ "overflow", FILL, false, 16, 62, 0, 1000, 200000, WORDS "limit 1000 drop_batch 1 noecn" },
	{ "overflow_64", FILL, false, 16, 62, 0, 1000, 2000000, WORDS "limit 1000 noecn" },
	{ "codel", HOLD, false, 16, 64, 0, 10000, 2000000, WORDS "limit 10240 noecn" },
	{ "codel_marks", HOLD, false, 16, 64, 2, 10000, 2000000, WORDS "limit 10240 ecn" },
};
enum { WORKLOADS = sizeof workloads / sizeof *workloads, LEN = 1000, PACKETS = 100000 };

static u64 random_state;

INLINE u32 random_below(u32 n)
{
	random_state ^= random_state >> 12;
	random_state ^= random_state << 25;
	random_state ^= random_state >> 27;
	return (u32)((random_state * 0x2545F4914F6CDD1Dull >> 32) * n >> 32);
}

static u64 wall_ns(void)
{
	struct timespec t;

	clock_gettime(CLOCK_MONOTONIC, &t);
	return (u64)t.tv_sec * 1000000000ull + (u64)t.tv_nsec;
}

struct result {
	double ns;
	u64 sent, dropped, marked;
};

/* A run: a scheduler, the packets in it, and what became of them. */
struct run {
	const struct workload *w;
	maltcove m;
	maltcove_packet packet;
	u64 clock, sent, dropped, marked, queued;
	u32 flow;
#if WITH_LINUX
	struct Qdisc *linux_side;
	struct setup setup;
	u32 linux_flows;
#endif
};

#if WITH_LINUX
static void shim_kfree_skb(struct sk_buff *skb)
{
	freed++;
	pool_put(skb);
}

static void open_linux(struct run *r)
{
	char words[512], *argv[64];
	int argc = 0;

	setup_init(&r->setup);
	snprintf(words, sizeof words, "%s memory_limit 1000000000", r->w->words);
	for (char *word = strtok(words, " "); word != NULL; word = strtok(NULL, " "))
		argv[argc++] = word;
	for (int i = 0, next; i < argc; i = next) {
		next = setup_word(&r->setup, argc, argv, i);
		if (next == i)
			die("word %s", argv[i]);
	}
	r->linux_side = qdisc_make(&r->setup, false);
	r->linux_flows = ((struct fq_codel_sched_data *)qdisc_priv(r->linux_side))->flows_cnt;
}
#endif

static void open_run(struct run *r, const struct workload *w, enum kind kind)
{
	static const uint8_t seed[16] = { 1, 2, 3 };
	char words[512];

	memset(r, 0, sizeof *r);
	r->w = w;
	r->clock = 10000000000ull;
	r->packet.len = LEN, r->packet.ecn = (uint8_t)w->ecn, r->packet.proto = 17, r->packet.version = 4;
	r->packet.src[0] = 10, r->packet.dst[0] = 10, r->packet.sport = 5000;
#if WITH_LINUX
	if (kind == LINUX) {
		open_linux(r);
		return;
	}
#endif
	snprintf(words, sizeof words, "%s classify %s", w->words, kind == BY_FLOW ? "dport" : "hash");
	if (maltcove_open(&r->m, words, strlen(words), seed, 16, NULL) != MALTCOVE_OK)
		die("no scheduler");
}

INLINE void lose(struct run *r, struct sk_buff *skb)
{
	pool_put(skb);
	r->dropped++;
	r->queued--;
}

/* Reads so many drops. */
static __attribute__((noinline)) void read_drops(struct run *r)
{
	maltcove_dropped drops[64];
	int64_t n;

	while ((n = maltcove_drops(&r->m, drops, 64)) > 0)
		for (int64_t i = 0; i < n; i++)
			lose(r, (struct sk_buff *)(uintptr_t)drops[i].tag);
}

INLINE void enqueue(struct run *r, enum kind kind, bool random)
{
	const struct workload *w = r->w;
	struct sk_buff *skb = pool_get();
	maltcove_admitted admitted = { 0, 0, 0 };
	u32 flow = random ? random_below(w->flows) : r->flow;
	int answer = MALTCOVE_OK;

	if (!random && ++r->flow == w->flows)
		r->flow = 0;
	r->queued++;
#if WITH_LINUX
	packet_fill(skb, flow, LEN, w->ecn, &r->setup, 1024);
	if (kind == LINUX) {
		struct sk_buff *to_free = NULL;

		shim_clock_ns = r->clock;
		r->linux_side->enqueue(skb, r->linux_side, &to_free);
		while (unlikely(to_free)) {
			skb = to_free;
			to_free = skb->next;
			lose(r, skb);
		}
		return;
	}
#else
	memset(skb->fields, (int)flow, sizeof skb->fields);
#endif
	if (kind == BY_FLOW) {
		answer = maltcove_enqueue_flow(&r->m, r->clock / 1000, flow, LEN, (uint8_t)w->ecn, (uintptr_t)skb,
					       &admitted);
	} else {
		r->packet.dport = (uint16_t)flow;
		r->packet.tag = (uintptr_t)skb;
		answer = maltcove_enqueue(&r->m, r->clock / 1000, &r->packet, &admitted);
	}
	if (unlikely(answer != MALTCOVE_OK))
		die(maltcove_strerror(answer));
	if (admitted.drops > 0)
		read_drops(r);
}

INLINE void dequeue(struct run *r, enum kind kind)
{
	maltcove_sent sent;
	int answer;

	(void)kind;
#if WITH_LINUX
	if (kind == LINUX) {
		u64 before = freed;
		struct sk_buff *skb;

		shim_clock_ns = r->clock;
		skb = r->linux_side->dequeue(r->linux_side);
		r->queued -= freed - before;
		r->dropped += freed - before;
		if (likely(skb)) {
			r->sent++;
			r->queued--;
			pool_put(skb);
		}
		return;
	}
#endif
	answer = maltcove_dequeue(&r->m, r->clock / 1000, &sent);
	if (unlikely(answer < 0))
		die(maltcove_strerror(answer));
	if (likely(answer == MALTCOVE_OK)) {
		r->sent++;
		r->queued--;
		r->marked += sent.mark != MALTCOVE_NO_MARK;
		pool_put((struct sk_buff *)(uintptr_t)sent.tag);
	}
	if (sent.drops > 0)
		read_drops(r);
}

INLINE void empty_round(struct run *r)
{
	struct sk_buff *skb = pool_get();

#if WITH_LINUX
	packet_fill(skb, r->flow, LEN, r->w->ecn, &r->setup, 1024);
#else
	memset(skb->fields, (int)r->flow, sizeof skb->fields);
#endif
	if (++r->flow == r->w->flows)
		r->flow = 0;
	__asm__ volatile("" : : "r"(skb) : "memory");
	pool_put(skb);
}

/* So many rounds, where a run of another length is asked for. */
static u64 rounds_asked;

INLINE struct result time_run(const struct workload *w, enum kind kind, enum pattern pattern, bool random)
{
	const u64 rounds = rounds_asked != 0 ? rounds_asked : w->rounds;
	struct run r;
	struct result result;
	const u64 hold = (u64)w->flows * w->each;
	u64 start;

	open_run(&r, w, kind);
	for (u64 i = 0; i < hold; i++)
		enqueue(&r, kind, random);
	while (pattern == FILL && r.queued < 1000)
		enqueue(&r, kind, random);
	r.sent = r.dropped = r.marked = 0;
	start = wall_ns();
	for (u64 i = 0; i < rounds; i++) {
		r.clock += w->step_ns;
		switch (pattern) {
		case PAIR:
			enqueue(&r, kind, random);
			dequeue(&r, kind);
			break;
		case HOLD:
			do
				enqueue(&r, kind, random);
			while (r.queued <= hold);
			dequeue(&r, kind);
			break;
		case FILL:
			enqueue(&r, kind, random);
			break;
		case NONE:
			empty_round(&r);
			break;
		}
	}
	result.ns = (double)(wall_ns() - start) / (double)rounds;
	result.sent = r.sent, result.dropped = r.dropped, result.marked = r.marked;
#if WITH_LINUX
	if (kind == LINUX) {
		result.marked = ((struct fq_codel_sched_data *)qdisc_priv(r.linux_side))->cstats.ecn_mark;
		qdisc_free(r.linux_side);
	}
#endif
	maltcove_free(&r.m);
	return result;
}

/* A run of its own code for each kind, pattern and order, as each program would have. */
static struct result time_any(const struct workload *w, enum kind kind)
{
#define RUNS(k, p) \
	if (kind == k && w->pattern == p) \
		return w->random ? time_run(w, k, p, true) : time_run(w, k, p, false);
#define EACH(k) RUNS(k, PAIR) RUNS(k, HOLD) RUNS(k, FILL) RUNS(k, NONE)
#if WITH_LINUX
	EACH(LINUX)
#endif
	EACH(BY_FLOW)
	EACH(BY_TUPLE)
	die("no such run");
	abort();
}

static void print_row(const struct workload *w, const struct result best[KINDS])
{
	const struct result *ours = &best[BY_FLOW], *theirs = &best[LINUX];

#if WITH_LINUX
	const double by_flow = ours->ns / theirs->ns, by_tuple = best[BY_TUPLE].ns / theirs->ns;

	printf("%-12s %9.1f %9.1f %9.1f %6.2f %6.2f  %llu/%llu/%llu", w->name, theirs->ns, ours->ns, best[BY_TUPLE].ns,
	       by_flow, by_tuple, (unsigned long long)theirs->sent, (unsigned long long)theirs->dropped,
	       (unsigned long long)theirs->marked);
	printf(" %llu/%llu/%llu\n", (unsigned long long)ours->sent, (unsigned long long)ours->dropped,
	       (unsigned long long)ours->marked);
#else
	(void)theirs;
	printf("%-12s %9.1f %9.1f  %llu/%llu/%llu\n", w->name, ours->ns, best[BY_TUPLE].ns,
	       (unsigned long long)ours->sent, (unsigned long long)ours->dropped, (unsigned long long)ours->marked);
#endif
}

/* All packets free, as before each run. */
static void fill_pool(struct sk_buff *pool)
{
	pool_top = NULL;
	for (size_t p = PACKETS; p-- > 0;)
		pool_put(&pool[p]);
	random_state = 0x9E3779B97F4A7C15ull;
	freed = 0;
}

static int run_one(const char *name, const char *kind_name, u64 rounds)
{
	static const char *const kinds[KINDS] = { "linux", "flow", "tuple" };

	rounds_asked = rounds;
	for (int k = 0; k < WORKLOADS; k++)
		for (int kind = WITH_LINUX ? LINUX : BY_FLOW; kind < KINDS; kind++)
			if (strcmp(workloads[k].name, name) == 0 && strcmp(kinds[kind], kind_name) == 0) {
				time_any(&workloads[k], (enum kind)kind);
				return 0;
			}
	die("no such run");
	return 2;
}

static void run_all(struct sk_buff *pool, int repetitions)
{
	static struct result best[WORKLOADS][KINDS];

	for (int i = 0; i < repetitions; i++)
		for (int k = 0; k < WORKLOADS; k++)
			for (int kind = WITH_LINUX ? LINUX : BY_FLOW; kind < KINDS; kind++) {
				struct result x;

				fill_pool(pool);
				x = time_any(&workloads[k], (enum kind)kind);
				if (i == 0 || x.ns < best[k][kind].ns)
					best[k][kind] = x;
			}
#if WITH_LINUX
	puts("workload         Linux   by flow  by tuple  ratio  ratio  sent/dropped/marked of Linux, by flow");
#else
	puts("workload       by flow  by tuple  sent/dropped/marked by flow");
#endif
	for (int k = 0; k < WORKLOADS; k++)
		print_row(&workloads[k], best[k]);
}

int main(int argc, char **argv)
{
	struct sk_buff *pool = aligned_alloc(64, PACKETS * 64 * ((sizeof *pool + 63) / 64));
	int repetitions = argc == 2 ? atoi(argv[1]) : 9;

	if (pool == NULL || repetitions < 1)
		die("no memory, or no repetition");
	memset(pool, 0, PACKETS * sizeof *pool);
	fill_pool(pool);
	if (argc == 4)
		return run_one(argv[1], argv[2], (u64)atoll(argv[3]));
	run_all(pool, repetitions);
	return 0;
}
