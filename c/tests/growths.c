/*
 * The heap of the library replaced by one that refuses growths: each growth of maltcove_open in turn, and then each
 * after it. No block may be lost, and no call but maltcove_open may ask for memory. The bytes of each scheduler are
 * counted too: one that takes an eighth more than it did is wrong.
 */
#include "layout.h"

#include <stdio.h>
#include <stdlib.h>
#include <string.h>

struct made {
	bool ok;
	void *block;
};

#ifdef __cplusplus
extern "C" {
#endif
struct made rattle_alloc(size_t bytes, size_t align);
struct made rattle_realloc(void *block, size_t kept, size_t bytes, size_t align);
void rattle_dealloc(void *block);
#ifdef __cplusplus
}
#endif

/* Growths until one is refused, blocks that are held, the most that were held, growths so far. */
static long left = -1, held, most_held, growths;
/* Bytes that are held. A block of the library begins after its size, at the next multiple of 16. */
static size_t held_bytes;
enum { BEFORE = 16 };
static char nothing[16];

static size_t size_of(const void *block)
{
	size_t size;

	memcpy(&size, (const char *)block - BEFORE, sizeof size);
	return size;
}

/* What the library gets of a block of so many bytes, or where there is none what stands for none. */
static struct made given(void *start, size_t bytes)
{
	struct made answer = { false, nothing };

	if (start == NULL)
		return answer;
	memcpy(start, &bytes, sizeof bytes);
	held_bytes += bytes;
	answer.ok = true;
	answer.block = (char *)start + BEFORE;
	return answer;
}

static bool refuses(void)
{
	growths++;
	if (left == 0)
		return true;
	left -= left > 0;
	return false;
}

struct made rattle_alloc(size_t bytes, size_t align)
{
	struct made answer = { false, nothing };

	(void)align;
	if (refuses())
		return answer;
	answer = given(malloc(BEFORE + bytes), bytes);
	held += answer.ok;
	if (held > most_held)
		most_held = held;
	return answer;
}

struct made rattle_realloc(void *block, size_t kept, size_t bytes, size_t align)
{
	struct made answer = { false, nothing };
	size_t before = size_of(block);

	(void)kept, (void)align;
	if (refuses())
		return answer;
	answer = given(realloc((char *)block - BEFORE, BEFORE + bytes), bytes);
	if (answer.ok)
		held_bytes -= before;
	return answer;
}

void rattle_dealloc(void *block)
{
	held--;
	held_bytes -= size_of(block);
	free((char *)block - BEFORE);
}

static void check(bool right, const char *what)
{
	if (!right) {
		fprintf(stderr, "growths: wrong: %s\n", what);
		exit(1);
	}
}

static const char words[] = "limit 100 flows 64 classify dport target 1ms interval 10ms";
static const uint8_t seed[16] = { 0 };
static maltcove m = MALTCOVE_INIT;

/* Each growth of an open refused in turn, and how many there are. */
static long refuse_each(void)
{
	maltcove_fault fault;
	int answer;

	for (long n = 0;; n++) {
		left = n;
		most_held = 0;
		answer = maltcove_open(&m, words, strlen(words), seed, 16, &fault);
		if (answer == MALTCOVE_OK) {
			check(most_held == held, "an open takes no block that it does not keep");
			return n;
		}
		check(answer == MALTCOVE_MEMORY, "a refused growth answers MALTCOVE_MEMORY");
		check(m.inner == NULL && !m.is_open, "a failed open leaves none");
		check(held == 0, "a failed open gives all blocks back");
	}
}

/* Reads all drops, and says how many. */
static uint64_t read_all(void)
{
	maltcove_dropped drops[16];
	uint64_t all = 0;
	int64_t n;

	while ((n = maltcove_drops(&m, drops, 16)) > 0)
		all += (uint64_t)n;
	check(n == 0, "drops can be read");
	return all;
}

/* Many calls with every growth refused. Packets come faster than they go, so that each call drops in turn. */
static void refuse_all(uint64_t rounds)
{
	maltcove_admitted admitted;
	maltcove_sent sent;
	uint64_t lost = 0, went = 0;
	long before = growths;

	left = 0;
	for (uint64_t i = 0; i < rounds; i++) {
		check(maltcove_enqueue_flow(&m, i * 100, (uint32_t)(i % 77), 1000, i & 3, i, &admitted) == MALTCOVE_OK,
		      "a packet is accepted where every growth is refused");
		check(admitted.id == i, "ids count the packets");
		lost += read_all();
		if (i % 3 != 0)
			continue;
		check(maltcove_dequeue(&m, i * 100, &sent) == MALTCOVE_OK, "a packet goes");
		went++;
		lost += read_all();
	}
	check(went + lost + (uint64_t)maltcove_queued(&m) == rounds, "each packet goes, is lost or waits");
	check(lost > rounds / 2, "packets were lost");
	check(growths == before, "no call asks for memory");
}

/* Parameters under which few packets wait, or one drives out many, or many may come before as many wait as may. */
static const char *const others[] = {
	"limit 1 classify dport",
	"limit 2 drop_batch 1 classify dport",
	"limit 3 flows 2 drop_batch 2 classify dport",
	"limit 4 memory_limit 1514 classify dport",
	"limit 100 memory_limit 20000 drop_batch 1 classify dport",
	"limit 500 memory_limit 4000 classify dport",
	"limit 1000 flows 16 classify dport",
};

/* Packets of 64 and of 1,514 bytes with every growth after the open refused: while none goes, and then while two go for
 * each that comes, in turn. */
static void refuse_under(const char *params, uint64_t rounds)
{
	maltcove_fault fault;
	maltcove_admitted admitted;
	maltcove_sent sent;
	long before;

	left = -1;
	check(maltcove_open(&m, params, strlen(params), seed, 16, &fault) == MALTCOVE_OK, "a scheduler is opened");
	before = growths;
	left = 0;
	for (uint64_t i = 0; i < rounds; i++) {
		uint32_t len = i % 10 == 9 ? 1514 : 64;

		check(maltcove_enqueue_flow(&m, i * 100, (uint32_t)(i % 2), len, i & 3, i, &admitted) == MALTCOVE_OK,
		      "a packet is accepted where every growth is refused");
		read_all();
		for (int gone = 0; i / 1500 % 2 == 1 && gone < 2; gone++) {
			int answer = maltcove_dequeue(&m, i * 100, &sent);

			check(answer == MALTCOVE_OK || answer == MALTCOVE_IDLE, "a packet goes, or none waits");
			read_all();
		}
	}
	check(growths == before, "no call asks for memory");
	left = -1;
	maltcove_free(&m);
	check(held == 0, "no block is left after maltcove_free");
}

/* A scheduler that is freed while packets wait and drops weren't read gives all back. */
static void free_in_use(void)
{
	static const char few[] = "limit 2 drop_batch 1 classify dport";
	maltcove_admitted admitted;

	left = -1;
	check(maltcove_open(&m, few, strlen(few), seed, 16, NULL) == MALTCOVE_OK, "a scheduler is opened");
	for (uint64_t i = 0; i < 3; i++)
		check(maltcove_enqueue_flow(&m, 0, 1, 100, 0, i, &admitted) == MALTCOVE_OK, "a packet is accepted");
	check(admitted.drops == 1 && maltcove_queued(&m) == 2, "packets wait, and a drop wasn't read");
	maltcove_free(&m);
	check(held == 0 && held_bytes == 0, "no block is left after maltcove_free");
}

/* A scheduler with the greatest limit, and one whose words are many bytes. */
static void open_large(void)
{
	static char many[8192];
	static const char limit[] = "limit 1048576 flows 65536";

	left = -1;
	memset(many, ' ', sizeof many);
	memcpy(many + sizeof many - strlen(words), words, strlen(words));
	check(maltcove_open(&m, limit, strlen(limit), seed, 16, NULL) == MALTCOVE_OK, "the greatest limit can be had");
	maltcove_free(&m);
	check(maltcove_open(&m, many, sizeof many, seed, 16, NULL) == MALTCOVE_OK, "words may be many bytes");
	maltcove_free(&m);
	check(held == 0, "no block is left after maltcove_free");
}

/* The bytes that a scheduler of these words takes, in KiB. The numbers are those of the day on which they were written;
 * an eighth more is let pass. */
static void count_bytes(void)
{
	static const struct {
		const char *params;
		size_t kib;
	} of[] = {
		{ "limit 1", 490 },
		{ "limit 1000", 592 },
		{ "", 1530 },
		{ "limit 1000 flows 65536", 31399 },
		{ "limit 1048576", 106986 },
	};

	left = -1;
	for (size_t i = 0; i < sizeof of / sizeof *of; i++) {
		size_t most = of[i].kib * 1024 / 8 * 9;

		check(maltcove_open(&m, of[i].params, strlen(of[i].params), seed, 16, NULL) == MALTCOVE_OK,
		      "a scheduler is opened");
		if (held_bytes > most)
			fprintf(stderr, "growths: '%s' takes %zu bytes, and %zu are let pass\n", of[i].params, held_bytes,
				most);
		check(held_bytes <= most, "a scheduler takes no more memory than it did");
		maltcove_free(&m);
		check(held_bytes == 0, "all bytes are given back");
	}
}

/* A packet of IPv4. */
static void enqueue_packet(uint64_t i)
{
	maltcove_packet packet;
	maltcove_admitted admitted;

	memset(&packet, 0, sizeof packet);
	packet.len = 100;
	packet.proto = 17;
	packet.version = 4;
	packet.sport = (uint16_t)i;
	packet.tag = i;
	check(maltcove_enqueue(&m, i, &packet, &admitted) == MALTCOVE_OK, "a packet with its five-tuple is accepted");
}

/* Each call but maltcove_open, with every growth refused: none asks for memory, and none keeps a block. */
static void call_each(void)
{
	static maltcove_sent sent[100];
	maltcove_flushed flushed[64];
	maltcove_totals_t totals;
	maltcove_params_t params;
	maltcove_flow_t view;
	long before, blocks;

	left = -1;
	check(maltcove_open(&m, words, strlen(words), seed, 16, NULL) == MALTCOVE_OK, "a scheduler is opened");
	before = growths;
	blocks = held;
	left = 0;
	for (uint64_t i = 0; i < 1000; i++) {
		enqueue_packet(2 * i);
		enqueue_packet(2 * i + 1);
		check(maltcove_totals(&m, &totals) == MALTCOVE_OK && totals.accepted == 2 * i + 2, "totals count packets");
		check(maltcove_params(&m, &params) == MALTCOVE_OK && params.limit == 100, "the parameters are told");
		check(maltcove_flow(&m, 3, &view) == MALTCOVE_OK, "a flow is shown");
		if (i % 40 == 39)
			check(maltcove_dequeue_burst(&m, 2 * i + 1, sent, 100) > 64, "a burst gives many");
		read_all();
	}
	check(maltcove_close(&m, 2000) == MALTCOVE_OK && maltcove_is_closed(&m) == 1, "a scheduler is closed");
	check(maltcove_close(&m, 2000) == MALTCOVE_CLOSED, "a second close is refused");
	while (maltcove_flush(&m, flushed, 64) > 0)
		;
	check(growths == before && held == blocks, "no call takes memory, or gives a block back");
	left = -1;
	maltcove_free(&m);
	check(held == 0, "no block is left after maltcove_free, where there was a close");
}

int main(void)
{
	maltcove_flushed flushed[64];
	long opened = refuse_each();

	check(opened > 0, "an open takes memory");
	refuse_all(100000);
	while (maltcove_flush(&m, flushed, 64) > 0)
		;
	check(maltcove_queued(&m) == 0, "nothing waits after a flush");
	maltcove_free(&m);
	check(held == 0, "no block is left after maltcove_free");
	for (size_t i = 0; i < sizeof others / sizeof *others; i++)
		refuse_under(others[i], 20000);
	open_large();
	free_in_use();
	count_bytes();
	call_each();
	printf("growths: each of %ld growths of an open refused, and all after it in 100000 rounds\n", opened);
	return 0;
}
