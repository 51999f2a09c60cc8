/*
 * What each call of maltcove.h answers: refusals, and that nothing changes by them; drops, flushes and bursts; what is
 * shown; and each tag given back once over random calls.
 */
#include "layout.h"

#include <stdio.h>
#include <stdlib.h>
#include <string.h>

/* More records than any call needs to take at once. */
enum { LONG = 3000 };

static maltcove m = MALTCOVE_INIT;
static const uint8_t seed[16] = { 0 };

static void check_at(bool right, const char *what, int line)
{
	if (!right) {
		fprintf(stderr, "calls.c:%d: wrong: %s\n", line, what);
		exit(1);
	}
}
#define CHECK(what) check_at(what, #what, __LINE__)

static void open_with(const char *words)
{
	maltcove_fault fault = { 7, 7, 7, 7 };

	CHECK(maltcove_open(&m, words, strlen(words), seed, 16, &fault) == MALTCOVE_OK);
	CHECK(m.is_open && fault.place == 0 && fault.kind == MALTCOVE_WORDS_FINE);
	CHECK(fault.offset == 0 && fault.len == 0);
}

static maltcove_packet packet_of(uint16_t dport, uint32_t len, uint64_t tag)
{
	maltcove_packet p;

	memset(&p, 0, sizeof p);
	p.tag = tag;
	p.len = len;
	p.dport = dport;
	p.proto = 17;
	p.version = 4;
	return p;
}

static int enqueue(uint64_t moment, uint16_t dport, uint32_t len, uint64_t tag, maltcove_admitted *admitted)
{
	maltcove_packet p = packet_of(dport, len, tag);

	return maltcove_enqueue(&m, moment, &p, admitted);
}

/* A text of words that is refused: at this place, for this word, which stands so many bytes from the text's start. */
static void refuse_words(const char *words, uint64_t place, int kind, uint64_t offset, const char *word)
{
	maltcove_fault fault = { 7, 7, 7, 7 };

	CHECK(maltcove_open(&m, words, strlen(words), seed, 16, &fault) == MALTCOVE_BAD_WORDS);
	CHECK(fault.place == place && fault.kind == kind);
	CHECK(fault.offset == offset && fault.len == strlen(word) && memcmp(words + offset, word, strlen(word)) == 0);
	CHECK(maltcove_open(&m, words, strlen(words), seed, 16, NULL) == MALTCOVE_BAD_WORDS);
	CHECK(!m.is_open && m.inner == NULL);
}

static void words_and_seeds(void)
{
	maltcove_fault fault = { 7, 7, 7, 7 };
	maltcove_params_t p;

	refuse_words("brown", 1, MALTCOVE_UNKNOWN_WORD, 0, "brown");
	refuse_words("limit 1000 brown", 3, MALTCOVE_UNKNOWN_WORD, 11, "brown");
	refuse_words("classify port", 2, MALTCOVE_UNKNOWN_WORD, 9, "port");
	refuse_words("noecn limit", 2, MALTCOVE_MISSING_VALUE, 6, "limit");
	refuse_words("noecn  limit\n ", 2, MALTCOVE_MISSING_VALUE, 7, "limit");
	refuse_words(" limit\t1k ", 2, MALTCOVE_NOT_A_NUMBER, 7, "1k");
	refuse_words("target 5ms flows 0", 4, MALTCOVE_OUT_OF_RANGE, 17, "0");
	refuse_words("limit 1000 \xff", 0, MALTCOVE_NOT_UTF8, 0, "");
	refuse_words("limit 7\nflows \xc3\xa9", 4, MALTCOVE_NOT_A_NUMBER, 14, "\xc3\xa9");
	refuse_words("ecn gr\xc3\xbcn", 2, MALTCOVE_UNKNOWN_WORD, 4, "gr\xc3\xbcn");
	refuse_words("\r\n\t\f ecn \f\t\r\n ecn  x ecn", 3, MALTCOVE_UNKNOWN_WORD, 19, "x");
	CHECK(maltcove_open(&m, "", 0, NULL, 0, &fault) == MALTCOVE_BAD_SEED && !m.is_open);
	CHECK(maltcove_open(&m, NULL, 0, seed, 16, NULL) == MALTCOVE_OK);
	CHECK(maltcove_params(&m, &p) == MALTCOVE_OK);
	CHECK(p.limit == 10240 && p.flows == 1024 && p.quantum == 1514 && p.mtu == 1514 && p.drop_batch == 64);
	CHECK(p.target == 5000 && p.interval == 100000 && p.ecn && p.hash);
	CHECK(!p.has_ce_threshold && p.ce_threshold == 0 && !p.has_memory_limit && p.memory_limit == 0);
	fault.place = fault.kind = fault.offset = fault.len = 7;
	CHECK(maltcove_open(&m, "brown", 5, seed, 16, &fault) == MALTCOVE_ALREADY_OPEN);
	CHECK(fault.place == 7 && fault.kind == 7 && fault.offset == 7 && fault.len == 7 && m.is_open);
	maltcove_free(&m);
	open_with("limit 7 flows 9 quantum 300 mtu 100 target 1ms interval 2s ce_threshold 3us memory_limit 4000 "
		  "drop_batch 5 noecn classify dport");
	CHECK(maltcove_params(&m, &p) == MALTCOVE_OK);
	CHECK(p.limit == 7 && p.flows == 9 && p.quantum == 300 && p.mtu == 100 && p.drop_batch == 5);
	CHECK(p.target == 1000 && p.interval == 2000000 && !p.ecn && !p.hash);
	CHECK(p.has_ce_threshold && p.ce_threshold == 3 && p.has_memory_limit && p.memory_limit == 4000);
	maltcove_free(&m);
}

/* A seed has sixteen bytes: each other length is refused, and a longer one isn't cut off. */
static void seeds_of_other_lengths(void)
{
	static const uint8_t bytes[256] = { 1, 2, 3 };
	maltcove_fault fault = { 7, 7, 7, 7 };

	for (size_t n = 0; n <= sizeof bytes; n++) {
		if (n == 16)
			continue;
		CHECK(maltcove_open(&m, "", 0, bytes, n, &fault) == MALTCOVE_BAD_SEED && !m.is_open && m.inner == NULL);
		CHECK(fault.place == 0 && fault.kind == MALTCOVE_WORDS_FINE && fault.offset == 0 && fault.len == 0);
	}
}

/* Each number at its least and at its greatest, words on lines of their own, a long text, and seeds of any bytes: where
 * memory is ample nothing is refused for want of it. */
static void all_are_opened(void)
{
	static const char *const texts[] = {
		"limit 1 flows 1 quantum 1 mtu 0 target 0 interval 1us ce_threshold 0 memory_limit 1 drop_batch 1",
		"flows 65536 quantum 1000000 mtu 65535 target 1000s interval 1000s ce_threshold 1000s",
		"memory_limit 1099511627776 drop_batch 1048576",
		"limit 7\nflows 9\r\nclassify dport\n",
		"ecn\tnoecn\fecn\n",
		"limit 65537 memory_limit 1",
		"limit 1048576 memory_limit 1099511627776",
	};
	static char many[40000];
	uint8_t bytes[16];

	for (size_t i = 0; i < sizeof texts / sizeof *texts; i++) {
		open_with(texts[i]);
		maltcove_free(&m);
	}
	memset(many, ' ', sizeof many);
	memcpy(many, "limit 7", 7);
	CHECK(maltcove_open(&m, many, sizeof many, seed, 16, NULL) == MALTCOVE_OK);
	maltcove_free(&m);
	for (int value = 0; value < 256; value++) {
		for (int place = 0; place < 16; place++)
			bytes[place] = (uint8_t)(value + 37 * place);
		CHECK(maltcove_open(&m, "limit 1 flows 1", 15, bytes, 16, NULL) == MALTCOVE_OK);
		maltcove_free(&m);
		memset(bytes, value, sizeof bytes);
		CHECK(maltcove_open(&m, "limit 1 flows 1", 15, bytes, 16, NULL) == MALTCOVE_OK);
		maltcove_free(&m);
	}
}

/* The words and the seed each in its place: a text that is sixteen bytes long, and a seed that is a text of words. */
static void words_before_seed(void)
{
	static const char words[] = "limit 9 flows 33", bad_seed[] = "flows 7";
	maltcove_fault fault;
	maltcove_params_t p;

	CHECK(strlen(words) == 16);
	CHECK(maltcove_open(&m, words, 16, seed, 16, &fault) == MALTCOVE_OK);
	CHECK(maltcove_params(&m, &p) == MALTCOVE_OK && p.limit == 9 && p.flows == 33);
	maltcove_free(&m);
	CHECK(maltcove_open(&m, words, 16, (const uint8_t *)bad_seed, 7, &fault) == MALTCOVE_BAD_SEED);
	CHECK(maltcove_open(&m, words, 16, (const uint8_t *)words, 16, &fault) == MALTCOVE_OK);
	CHECK(maltcove_params(&m, &p) == MALTCOVE_OK && p.limit == 9 && p.flows == 33);
	maltcove_free(&m);
	CHECK(maltcove_open(&m, "brown brown brow", 16, (const uint8_t *)words, 16, &fault) == MALTCOVE_BAD_WORDS);
	CHECK(fault.place == 1 && fault.kind == MALTCOVE_UNKNOWN_WORD && fault.offset == 0 && fault.len == 5);
}

/* Every call on none, and every call with a null pointer. */
static void none_and_null(void)
{
	maltcove_packet p = packet_of(1, 100, 1);
	maltcove_admitted admitted;
	maltcove_sent sent;
	maltcove_dropped dropped;
	maltcove_flushed flushed;
	maltcove_totals_t totals;
	maltcove_flow_t view;
	maltcove_params_t params;

	for (int i = 0; i < 2; i++) {
		maltcove *at = i == 0 ? &m : NULL;
		int answer = i == 0 ? MALTCOVE_NOT_OPEN : MALTCOVE_NULL;

		CHECK(maltcove_enqueue(at, 0, &p, &admitted) == answer);
		CHECK(maltcove_enqueue_flow(at, 0, 1, 100, 0, 1, &admitted) == answer);
		CHECK(maltcove_dequeue(at, 0, &sent) == answer);
		CHECK(maltcove_dequeue_burst(at, 0, &sent, 1) == answer);
		CHECK(maltcove_drops(at, &dropped, 1) == answer);
		CHECK(maltcove_flush(at, &flushed, 1) == answer);
		CHECK(maltcove_close(at, 0) == answer);
		CHECK(maltcove_is_closed(at) == answer);
		CHECK(maltcove_queued(at) == answer);
		CHECK(maltcove_totals(at, &totals) == answer);
		CHECK(maltcove_flow(at, 0, &view) == answer);
		CHECK(maltcove_params(at, &params) == answer);
		maltcove_free(at);
	}
	CHECK(maltcove_open(NULL, "", 0, seed, 16, NULL) == MALTCOVE_NULL);
	CHECK(maltcove_open(&m, NULL, 1, seed, 16, NULL) == MALTCOVE_NULL);
	CHECK(maltcove_open(&m, "", 0, NULL, 16, NULL) == MALTCOVE_NULL);
	open_with("classify dport");
	CHECK(maltcove_enqueue(&m, 0, NULL, &admitted) == MALTCOVE_NULL);
	CHECK(maltcove_enqueue(&m, 0, &p, NULL) == MALTCOVE_NULL);
	CHECK(maltcove_enqueue_flow(&m, 0, 1, 100, 0, 1, NULL) == MALTCOVE_NULL);
	CHECK(maltcove_dequeue(&m, 0, NULL) == MALTCOVE_NULL);
	CHECK(maltcove_dequeue_burst(&m, 0, NULL, 1) == MALTCOVE_NULL);
	CHECK(maltcove_dequeue_burst(&m, 0, NULL, 0) == 0);
	CHECK(maltcove_drops(&m, NULL, 1) == MALTCOVE_NULL);
	CHECK(maltcove_drops(&m, NULL, 0) == 0);
	CHECK(maltcove_flush(&m, NULL, 1) == MALTCOVE_NULL);
	CHECK(maltcove_flush(&m, NULL, 0) == 0);
	CHECK(maltcove_totals(&m, NULL) == MALTCOVE_NULL);
	CHECK(maltcove_flow(&m, 0, NULL) == MALTCOVE_NULL);
	CHECK(maltcove_params(&m, NULL) == MALTCOVE_NULL);
	CHECK(maltcove_queued(&m) == 0);
	maltcove_free(&m);
	maltcove_free(&m);
	CHECK(!m.is_open && m.inner == NULL);
}

static void totals_are(uint64_t accepted, uint64_t sent, uint64_t dropped, uint64_t flushed, uint64_t queued)
{
	maltcove_totals_t t;

	CHECK(maltcove_totals(&m, &t) == MALTCOVE_OK);
	CHECK(t.accepted == accepted && t.sent == sent && t.dropped_codel + t.dropped_overflow == dropped);
	CHECK(t.flushed == flushed && t.queued == queued);
	CHECK(t.accepted_bytes == t.sent_bytes + t.dropped_bytes + t.flushed_bytes + t.queued_bytes);
	CHECK(maltcove_queued(&m) == (int64_t)queued);
}

/* Refused packets, each in its case, and nothing changes. */
static void refusals(void)
{
	maltcove_admitted admitted = { 7, 7, 7 };
	maltcove_sent sent;
	maltcove_packet p = packet_of(1, 100, 1);

	open_with("classify dport flows 16");
	CHECK(enqueue(50, 1, 0, 1, &admitted) == MALTCOVE_BAD_PACKET);
	CHECK(enqueue(50, 1, 65536, 1, &admitted) == MALTCOVE_BAD_PACKET);
	p.ecn = 4;
	CHECK(maltcove_enqueue(&m, 50, &p, &admitted) == MALTCOVE_BAD_PACKET);
	p.ecn = 3, p.version = 5;
	CHECK(maltcove_enqueue(&m, 50, &p, &admitted) == MALTCOVE_BAD_PACKET);
	CHECK(maltcove_enqueue_flow(&m, 50, 1, 0, 0, 1, &admitted) == MALTCOVE_BAD_PACKET);
	CHECK(maltcove_enqueue_flow(&m, 50, 1, 100, 4, 1, &admitted) == MALTCOVE_BAD_PACKET);
	CHECK(enqueue(1ull << 60, 1, 100, 1, &admitted) == MALTCOVE_TOO_LARGE);
	CHECK(admitted.id == 7 && admitted.drops == 7 && admitted.flow == 7);
	totals_are(0, 0, 0, 0, 0);
	CHECK(enqueue(50, 17, 100, 1, &admitted) == MALTCOVE_OK);
	CHECK(admitted.id == 0 && admitted.drops == 0 && admitted.flow == 1);
	CHECK(enqueue(49, 1, 100, 1, &admitted) == MALTCOVE_BACKWARDS);
	CHECK(maltcove_dequeue(&m, 49, &sent) == MALTCOVE_BACKWARDS);
	CHECK(maltcove_dequeue(&m, 1ull << 60, &sent) == MALTCOVE_TOO_LARGE);
	CHECK(maltcove_dequeue_burst(&m, 49, &sent, 1) == MALTCOVE_BACKWARDS);
	CHECK(maltcove_close(&m, 49) == MALTCOVE_BACKWARDS && maltcove_is_closed(&m) == 0);
	CHECK(maltcove_close(&m, 50) == MALTCOVE_OK && maltcove_is_closed(&m) == 1);
	CHECK(maltcove_close(&m, 50) == MALTCOVE_CLOSED);
	CHECK(enqueue(50, 1, 100, 1, &admitted) == MALTCOVE_CLOSED);
	CHECK(maltcove_dequeue(&m, 50, &sent) == MALTCOVE_OK && sent.tag == 1 && sent.len == 100);
	CHECK(maltcove_dequeue(&m, 50, &sent) == MALTCOVE_IDLE);
	CHECK(sent.tag == 0 && sent.id == 0 && sent.drops == 0 && sent.len == 0 && sent.ecn == 0 && sent.mark == 0);
	totals_are(1, 1, 0, 0, 0);
	maltcove_free(&m);
	open_with("classify hash");
	CHECK(maltcove_enqueue_flow(&m, 0, 1, 100, 0, 1, &admitted) == MALTCOVE_HASHED);
	maltcove_free(&m);
}

/* Drops wait for their reader, and keep packets out. */
static void drops_wait(void)
{
	maltcove_admitted admitted;
	maltcove_dropped drops[3];
	maltcove_sent sent;

	open_with("limit 4 drop_batch 3 classify dport flows 4 noecn");
	for (uint64_t tag = 100; tag < 104; tag++)
		CHECK(enqueue(0, 2, 500, tag, &admitted) == MALTCOVE_OK && admitted.drops == 0);
	CHECK(maltcove_drops(&m, drops, 3) == 0);
	CHECK(enqueue(0, 2, 500, 104, &admitted) == MALTCOVE_OK && admitted.id == 4 && admitted.drops > 0);
	CHECK(admitted.drops <= 3);
	CHECK(enqueue(0, 2, 500, 105, &admitted) == MALTCOVE_UNREAD);
	CHECK(maltcove_dequeue(&m, 0, &sent) == MALTCOVE_OK && sent.drops == 0);
	CHECK(sent.tag == 100 + admitted.drops && sent.id == admitted.drops);
	for (uint64_t i = 0; i < admitted.drops; i++) {
		CHECK(maltcove_drops(&m, drops, 1) == 1);
		CHECK(drops[0].tag == 100 + i && drops[0].id == i && drops[0].cause == MALTCOVE_BY_OVERFLOW);
	}
	CHECK(maltcove_drops(&m, drops, 3) == 0);
	CHECK(enqueue(0, 2, 500, 105, &admitted) == MALTCOVE_OK && admitted.id == 5);
	maltcove_free(&m);
}

/* CoDel drops in a dequeue, and marks what can be marked. */
static void codel_drops(void)
{
	maltcove_admitted admitted;
	maltcove_dropped drops[2];
	maltcove_sent sent;
	maltcove_flow_t view;

	open_with("target 1ms interval 10ms mtu 0 classify dport flows 2 noecn");
	for (uint64_t tag = 0; tag < 6; tag++)
		CHECK(enqueue(0, 0, 1000, tag, &admitted) == MALTCOVE_OK);
	CHECK(maltcove_dequeue(&m, 1000, &sent) == MALTCOVE_OK && sent.tag == 0 && sent.drops == 0);
	CHECK(maltcove_flow(&m, 0, &view) == MALTCOVE_OK && view.has_first_above && view.first_above == 11000);
	CHECK(view.queued == 5 && view.queued_bytes == 5000 && !view.dropping && view.credits == 1514 - 1000);
	CHECK(maltcove_dequeue(&m, 11000, &sent) == MALTCOVE_OK && sent.tag == 2 && sent.drops == 1);
	CHECK(maltcove_drops(&m, drops, 2) == 1);
	CHECK(drops[0].tag == 1 && drops[0].id == 1 && drops[0].cause == MALTCOVE_BY_CODEL);
	CHECK(maltcove_flow(&m, 0, &view) == MALTCOVE_OK);
	CHECK(view.dropping && view.count == 1 && view.drop_next == 21000);
	CHECK(maltcove_flow(&m, 1, &view) == MALTCOVE_OK && view.queued == 0 && !view.has_first_above);
	CHECK(maltcove_flow(&m, 2, &view) == MALTCOVE_BAD_FLOW);
	maltcove_free(&m);
	open_with("target 1ms interval 10ms mtu 0 classify dport flows 2 ecn");
	for (uint64_t tag = 0; tag < 3; tag++)
		CHECK(maltcove_enqueue_flow(&m, 0, 5, 1000, 2, tag, &admitted) == MALTCOVE_OK && admitted.flow == 1);
	CHECK(maltcove_dequeue(&m, 1000, &sent) == MALTCOVE_OK && sent.ecn == 2 && sent.mark == MALTCOVE_NO_MARK);
	CHECK(maltcove_dequeue(&m, 11000, &sent) == MALTCOVE_OK && sent.tag == 1 && sent.drops == 0);
	CHECK(sent.ecn == 3 && sent.mark == MALTCOVE_CODEL_MARK);
	maltcove_free(&m);
	open_with("target 1s ce_threshold 1ms classify dport flows 1");
	CHECK(maltcove_enqueue_flow(&m, 0, 0, 1000, 1, 0, &admitted) == MALTCOVE_OK);
	CHECK(maltcove_dequeue(&m, 1001, &sent) == MALTCOVE_OK);
	CHECK(sent.ecn == 3 && sent.mark == MALTCOVE_THRESHOLD_MARK);
	maltcove_free(&m);
}

static void enqueue_in_flow(uint64_t moment, uint32_t flow, uint32_t len, uint8_t ecn, uint64_t first, uint64_t packets)
{
	maltcove_admitted admitted;
	maltcove_dropped drop;

	for (uint64_t tag = first; tag < first + packets; tag++) {
		CHECK(maltcove_enqueue_flow(&m, moment, flow, len, ecn, tag, &admitted) == MALTCOVE_OK);
		CHECK((uint64_t)maltcove_drops(&m, &drop, 1) == admitted.drops);
	}
}

static void dequeue_tag(uint64_t moment, uint64_t tag, uint8_t mark)
{
	maltcove_sent sent;
	maltcove_dropped drop;

	CHECK(maltcove_dequeue(&m, moment, &sent) == MALTCOVE_OK && sent.tag == tag && sent.mark == mark);
	CHECK((uint64_t)maltcove_drops(&m, &drop, 1) == sent.drops);
}

/* Each number of the totals stands in the field of its name: no two of them are equal. */
static void each_total(void)
{
	maltcove_flushed flushed[5];
	maltcove_totals_t t;
	maltcove_flow_t view;

	open_with("limit 10 drop_batch 1 target 1ms interval 10ms mtu 0 ce_threshold 500us classify dport flows 4 ecn");
	enqueue_in_flow(0, 1, 1000, 2, 0, 10);
	dequeue_tag(600, 0, MALTCOVE_THRESHOLD_MARK);
	dequeue_tag(700, 1, MALTCOVE_THRESHOLD_MARK);
	dequeue_tag(800, 2, MALTCOVE_THRESHOLD_MARK);
	dequeue_tag(1000, 3, MALTCOVE_THRESHOLD_MARK);
	dequeue_tag(11000, 4, MALTCOVE_CODEL_MARK);
	CHECK(maltcove_flush(&m, flushed, 5) == 5 && flushed[0].tag == 5 && flushed[4].tag == 9);
	enqueue_in_flow(11000, 2, 300, 0, 10, 16);
	dequeue_tag(12000, 16, MALTCOVE_NO_MARK);
	dequeue_tag(22000, 18, MALTCOVE_NO_MARK);
	dequeue_tag(32000, 20, MALTCOVE_NO_MARK);
	dequeue_tag(32000, 21, MALTCOVE_NO_MARK);
	dequeue_tag(32000, 22, MALTCOVE_NO_MARK);
	CHECK(maltcove_flow(&m, 2, &view) == MALTCOVE_OK && view.dropping && view.count == 2 && view.last_count == 1);
	CHECK(maltcove_totals(&m, &t) == MALTCOVE_OK && !t.closed);
	CHECK(t.accepted == 26 && t.sent == 10 && t.dropped_codel == 2 && t.dropped_overflow == 6);
	CHECK(t.flushed == 5 && t.marked == 1 && t.threshold_marked == 4 && t.queued == 3);
	CHECK(t.accepted_bytes == 14800 && t.sent_bytes == 6500 && t.dropped_bytes == 2400);
	CHECK(t.flushed_bytes == 5000 && t.queued_bytes == 900);
	CHECK(maltcove_close(&m, 32000) == MALTCOVE_OK);
	CHECK(maltcove_totals(&m, &t) == MALTCOVE_OK && t.closed);
	maltcove_free(&m);
}

/* Bursts stop where nothing waits, and flushes give all tags that wait. */
static void bursts_and_flushes(void)
{
	maltcove_admitted admitted;
	maltcove_sent sent[4];
	maltcove_flushed flushed[4];
	bool seen[10] = { false };
	int64_t n, all = 0;

	open_with("classify dport flows 3");
	for (uint64_t tag = 0; tag < 6; tag++)
		CHECK(enqueue(9, 1, 100, tag, &admitted) == MALTCOVE_OK);
	CHECK(maltcove_dequeue_burst(&m, 9, sent, 4) == 4);
	for (uint64_t i = 0; i < 4; i++)
		CHECK(sent[i].tag == i && sent[i].id == i && sent[i].len == 100);
	CHECK(maltcove_dequeue_burst(&m, 9, sent, 4) == 2 && sent[0].tag == 4 && sent[1].tag == 5);
	CHECK(maltcove_dequeue_burst(&m, 9, sent, 4) == 0);
	for (uint64_t tag = 0; tag < 10; tag++)
		CHECK(enqueue(9, (uint16_t)tag, 100, tag, &admitted) == MALTCOVE_OK && admitted.id == 6 + tag);
	while ((n = maltcove_flush(&m, flushed, 4)) > 0) {
		all += n;
		for (int64_t i = 0; i < n; i++) {
			CHECK(flushed[i].tag < 10 && !seen[flushed[i].tag]);
			CHECK(flushed[i].id == 6 + flushed[i].tag);
			seen[flushed[i].tag] = true;
		}
	}
	CHECK(n == 0 && all == 10);
	totals_are(16, 6, 0, 10, 0);
	CHECK(enqueue(9, 1, 100, 16, &admitted) == MALTCOVE_OK && admitted.id == 16);
	CHECK(maltcove_dequeue_burst(&m, 9, sent, 4) == 1 && sent[0].tag == 16);
	maltcove_free(&m);
}

/* What waits gives as many records as an array has places, however many these are, and leaves what is behind the array:
 * a burst, and then a flush. */
static void long_bursts_and_flushes(void)
{
	static maltcove_sent sent[LONG + 1];
	static maltcove_flushed flushed[LONG + 1];

	open_with("classify dport flows 4");
	enqueue_in_flow(9, 1, 100, 0, 50000, 2 * LONG + 5);
	CHECK(maltcove_dequeue_burst(&m, 9, sent, LONG) == LONG && sent[LONG].tag == 0);
	for (uint64_t i = 0; i < LONG; i++)
		CHECK(sent[i].tag == 50000 + i && sent[i].id == i && sent[i].len == 100);
	CHECK(maltcove_flush(&m, flushed, LONG) == LONG && flushed[LONG].tag == 0);
	for (uint64_t i = 0; i < LONG; i++)
		CHECK(flushed[i].tag == 50000 + LONG + i && flushed[i].id == LONG + i);
	CHECK(maltcove_queued(&m) == 5);
	CHECK(maltcove_dequeue_burst(&m, 9, sent, LONG) == 5 && sent[4].tag == 50000 + 2 * LONG + 4);
	totals_are(2 * LONG + 5, LONG + 5, 0, LONG, 0);
	maltcove_free(&m);
}

/* The same of drops: where one packet too many waits, its flow loses half of all. */
static void long_drops(void)
{
	static maltcove_dropped drops[LONG + 1];
	maltcove_admitted admitted;

	open_with("limit 6002 drop_batch 1048576 classify dport flows 4");
	enqueue_in_flow(9, 1, 100, 0, 50000, 2 * LONG + 2);
	CHECK(maltcove_enqueue_flow(&m, 9, 1, 100, 0, 1, &admitted) == MALTCOVE_OK && admitted.drops == LONG + 1);
	CHECK(maltcove_drops(&m, drops, LONG) == LONG && drops[LONG].tag == 0);
	for (uint64_t i = 0; i < LONG; i++)
		CHECK(drops[i].tag == 50000 + i && drops[i].id == i && drops[i].cause == MALTCOVE_BY_OVERFLOW);
	CHECK(maltcove_drops(&m, drops, LONG) == 1 && drops[0].tag == 50000 + LONG && drops[0].id == LONG);
	CHECK(maltcove_drops(&m, drops, LONG) == 0);
	maltcove_free(&m);
}

/* The flow of a packet whose bytes all differ from each other and from those of the seed: the SHA-256 of both, as
 * docs/RULES.md has it, by the hashlib of Python. Of an address of IPv4 the bytes from the fifth on say nothing. */
static void flows_of_the_hash(void)
{
	maltcove_packet p = packet_of(0x4243, 100, 1);
	maltcove_admitted admitted;
	uint8_t bytes[16];

	for (uint8_t i = 0; i < 16; i++) {
		bytes[i] = i;
		p.src[i] = (uint8_t)(0x20 + i);
		p.dst[i] = (uint8_t)(0x30 + i);
	}
	p.proto = 0x10;
	p.sport = 0x4041;
	CHECK(maltcove_open(&m, "", 0, bytes, 16, NULL) == MALTCOVE_OK);
	CHECK(maltcove_enqueue(&m, 0, &p, &admitted) == MALTCOVE_OK && admitted.flow == 341);
	p.version = 6;
	CHECK(maltcove_enqueue(&m, 0, &p, &admitted) == MALTCOVE_OK && admitted.flow == 87);
	maltcove_free(&m);
}

/* Each argument of a packet whose flow is chosen, and each number of what is said of it: no two of them are equal. */
static void chosen_flow(void)
{
	maltcove_admitted admitted;
	maltcove_sent sent;
	maltcove_flow_t view;

	open_with("limit 6 drop_batch 3 classify dport flows 8");
	enqueue_in_flow(7, 5, 1000, 1, 100, 6);
	CHECK(maltcove_enqueue_flow(&m, 9, 13, 900, 2, 99, &admitted) == MALTCOVE_OK);
	CHECK(admitted.id == 6 && admitted.drops == 3 && admitted.flow == 5);
	CHECK(maltcove_flow(&m, 5, &view) == MALTCOVE_OK && view.queued == 4 && view.queued_bytes == 3900);
	CHECK(maltcove_dequeue(&m, 8, &sent) == MALTCOVE_BACKWARDS);
	for (uint64_t id = 3; id < 6; id++)
		CHECK(maltcove_dequeue(&m, 9, &sent) == MALTCOVE_OK && sent.tag == 100 + id && sent.ecn == 1);
	CHECK(maltcove_dequeue(&m, 11, &sent) == MALTCOVE_OK && sent.tag == 99 && sent.id == 6);
	CHECK(sent.len == 900 && sent.ecn == 2 && sent.mark == MALTCOVE_NO_MARK && sent.drops == 0);
	CHECK(maltcove_close(&m, 10) == MALTCOVE_BACKWARDS && maltcove_close(&m, 13) == MALTCOVE_OK);
	CHECK(maltcove_dequeue(&m, 12, &sent) == MALTCOVE_BACKWARDS);
	maltcove_free(&m);
}

enum { ROUNDS = 200000 };

static uint64_t random_state = 0x9e3779b97f4a7c15u;

static uint32_t random_below(uint32_t n)
{
	random_state ^= random_state >> 12;
	random_state ^= random_state << 25;
	random_state ^= random_state >> 27;
	return (uint32_t)((random_state * 0x2545f4914f6cdd1du >> 32) * n >> 32);
}

/* How many of 10000 packets are marked, of a flow of which five always wait for a link that takes 400 microseconds for
 * each. The moments are of a clock with so many units to the microsecond. */
static uint64_t marked_of_five(uint64_t units)
{
	maltcove_admitted admitted;
	maltcove_sent sent;
	maltcove_totals_t t;
	uint64_t moment = 0;

	open_with("classify dport flows 4");
	for (uint64_t tag = 0; tag < 10000; tag++) {
		CHECK(maltcove_enqueue_flow(&m, moment, 1, 1000, 2, tag, &admitted) == MALTCOVE_OK);
		if (maltcove_queued(&m) < 5)
			continue;
		moment += 400 * units;
		CHECK(maltcove_dequeue(&m, moment, &sent) == MALTCOVE_OK);
	}
	CHECK(maltcove_totals(&m, &t) == MALTCOVE_OK);
	maltcove_free(&m);
	return t.marked;
}

/* Clocks that give no microseconds, and one moment far in the future. */
static void wrong_clocks(void)
{
	maltcove_admitted admitted;
	maltcove_sent sent;

	CHECK(marked_of_five(1) == 0);
	CHECK(marked_of_five(1000) > 9900);
	open_with("classify dport flows 4");
	CHECK(enqueue(1000, 1, 100, 1, &admitted) == MALTCOVE_OK);
	CHECK(enqueue(1ull << 59, 1, 100, 2, &admitted) == MALTCOVE_OK);
	CHECK(enqueue(1001, 1, 100, 3, &admitted) == MALTCOVE_BACKWARDS);
	CHECK(maltcove_dequeue(&m, 1002, &sent) == MALTCOVE_BACKWARDS);
	CHECK(maltcove_close(&m, (1ull << 59) - 1) == MALTCOVE_BACKWARDS);
	CHECK(maltcove_dequeue(&m, 1ull << 59, &sent) == MALTCOVE_OK && sent.tag == 1);
	maltcove_free(&m);
}

/* A packet that is handed in may be among the drops of its own enqueue: more bytes than may wait. */
static void drops_itself(void)
{
	maltcove_admitted admitted;
	maltcove_dropped drop;

	open_with("memory_limit 1000 classify dport flows 4");
	CHECK(enqueue(0, 1, 1001, 7, &admitted) == MALTCOVE_OK && admitted.id == 0 && admitted.drops == 1);
	CHECK(maltcove_drops(&m, &drop, 1) == 1 && drop.tag == 7 && drop.id == 0);
	CHECK(drop.cause == MALTCOVE_BY_OVERFLOW && maltcove_queued(&m) == 0);
	maltcove_free(&m);
}

/* How many of 100 five-tuples are alone in their flow, on average over all queues of a card that chose the queue by the
 * low bits of a hash: by the flow that maltcove.h says how to take of the hash, or by the hash itself. */
static uint32_t alone(uint32_t queues, bool by_high_bits)
{
	enum { FLOWS = 1024, TUPLES = 100 };
	maltcove_admitted admitted;
	uint32_t all = 0;

	for (uint32_t queue = 0; queue < queues; queue++) {
		uint32_t tuples[FLOWS] = { 0 }, flow[TUPLES];

		open_with("limit 100 flows 1024 classify dport");
		for (uint32_t i = 0; i < TUPLES; i++) {
			uint32_t hash = random_below(UINT32_MAX) / queues * queues + queue;

			if (by_high_bits)
				hash = maltcove_flow_of_hash(hash, FLOWS);
			CHECK(maltcove_enqueue_flow(&m, 0, hash, 100, 0, i, &admitted) == MALTCOVE_OK && admitted.flow < FLOWS);
			flow[i] = admitted.flow;
			tuples[flow[i]]++;
		}
		for (uint32_t i = 0; i < TUPLES; i++)
			all += tuples[flow[i]] == 1;
		maltcove_free(&m);
	}
	return all / queues;
}

/* Flows of a network card's hash. crates/test_parts has the same rows for the proved functions. */
static void hashes_of_a_card(void)
{
	static const struct {
		uint32_t hash, values, flow, queue;
	} rows[] = {
		{ 0x00000000, 1024, 0, 0 },
		{ 0xffffffff, 1024, 1023, 1023 },
		{ 0x80000000, 1000, 500, 0 },
		{ 0x12345678, 65536, 4660, 22136 },
		{ 0x0000ffff, 16, 0, 15 },
		{ 0x0003ffff, 3, 0, 2 },
		{ 0x004189ff, 1000, 1, 539 },
		{ 0x00418937, 1000, 0, 535 },
		{ 0x00418938, 1000, 1, 536 },
		{ 0x00000005, 0, 0, 0 },
	};
	uint32_t of_queue[16] = { 0 };

	for (size_t i = 0; i < sizeof rows / sizeof rows[0]; i++) {
		CHECK(maltcove_flow_of_hash(rows[i].hash, rows[i].values) == rows[i].flow);
		CHECK(maltcove_queue_of_hash(rows[i].hash, rows[i].values) == rows[i].queue);
	}
	/* the hashes of one flow are spread over all queues */
	for (uint32_t low = 0; low < 65536; low++)
		of_queue[maltcove_queue_of_hash(0x40000000 | low, 16)]++;
	for (uint32_t queue = 0; queue < 16; queue++)
		CHECK(of_queue[queue] == 4096);
	for (uint32_t queues = 1; queues <= 64; queues *= 4)
		CHECK(alone(queues, true) >= 86 && alone(queues, true) <= 95);
	CHECK(alone(16, false) >= 17 && alone(16, false) <= 27);
	CHECK(alone(64, false) == 0);
}

/* A tag comes back: it has to be out, and is in then. */
static void give_back(bool *out, uint64_t tag, uint64_t id)
{
	CHECK(tag < ROUNDS && out[tag] && id == tag);
	out[tag] = false;
}

static uint64_t read_random(bool *out)
{
	maltcove_dropped drops[5];
	uint64_t all = 0;
	int64_t n;

	while ((n = maltcove_drops(&m, drops, 1 + random_below(5))) > 0) {
		all += (uint64_t)n;
		for (int64_t i = 0; i < n; i++)
			give_back(out, drops[i].tag, drops[i].id);
	}
	return all;
}

static uint64_t flush_random(bool *out)
{
	maltcove_flushed flushed[5];
	uint64_t all = 0;
	int64_t n;

	while ((n = maltcove_flush(&m, flushed, 1 + random_below(5))) > 0) {
		all += (uint64_t)n;
		for (int64_t i = 0; i < n; i++)
			give_back(out, flushed[i].tag, flushed[i].id);
	}
	CHECK(n == 0 && maltcove_queued(&m) == 0);
	return all;
}

/* Each tag that is handed in comes back once: sent, dropped or flushed. A packet's tag is its id here. */
static void tags_come_back(void)
{
	bool *out = (bool *)calloc(ROUNDS, sizeof *out);
	uint64_t next = 0, sent_count = 0, drops = 0, flushed_count = 0, moment = 0;
	maltcove_admitted admitted;
	maltcove_sent sent[3];
	int64_t n;

	CHECK(out != NULL);
	open_with("limit 200 flows 32 target 500us interval 5ms drop_batch 16 memory_limit 150000");
	for (uint32_t i = 0; i < ROUNDS; i++) {
		moment += random_below(30);
		if (random_below(10) < 8) {
			maltcove_packet p = packet_of((uint16_t)random_below(100), 1 + random_below(1500), next);

			p.ecn = (uint8_t)random_below(4);
			CHECK(maltcove_enqueue(&m, moment, &p, &admitted) == MALTCOVE_OK && admitted.id == next);
			out[next++] = true;
			drops += read_random(out);
		} else {
			n = maltcove_dequeue_burst(&m, moment, sent, 1 + random_below(3));
			CHECK(n >= 0);
			for (int64_t k = 0; k < n; k++)
				give_back(out, sent[k].tag, sent[k].id);
			sent_count += (uint64_t)n;
			drops += read_random(out);
		}
		if (random_below(5000) == 0) {
			flushed_count += flush_random(out);
			drops += read_random(out);
		}
		CHECK((uint64_t)maltcove_queued(&m) == next - sent_count - drops - flushed_count);
	}
	totals_are(next, sent_count, drops, flushed_count, next - sent_count - drops - flushed_count);
	CHECK(drops > 1000 && sent_count > 1000 && flushed_count > 100);
	flush_random(out);
	read_random(out);
	for (uint64_t tag = 0; tag < next; tag++)
		CHECK(!out[tag]);
	maltcove_free(&m);
	free(out);
}

/* Each answer and each kind of fault has a text of its own. */
static void texts(void)
{
	/* Of each text what no other one says. */
	static const struct {
		int answer;
		const char *says;
	} of[] = {
		{ MALTCOVE_OK, "success" },
		{ MALTCOVE_IDLE, "no packet is waiting" },
		{ MALTCOVE_TOO_LARGE, "2^60" },
		{ MALTCOVE_BACKWARDS, "before that of the last call" },
		{ MALTCOVE_CLOSED, "is closed" },
		{ MALTCOVE_EXHAUSTED, "out of packet ids" },
		{ MALTCOVE_MEMORY, "out of memory" },
		{ MALTCOVE_UNREAD, "maltcove_drops" },
		{ MALTCOVE_BAD_SEED, "not 16 bytes long" },
		{ MALTCOVE_BAD_FLOW, "no flow of that number" },
		{ MALTCOVE_NULL, "null" },
	}, of_word[] = {
		{ MALTCOVE_WORDS_FINE, "no error" },
		{ MALTCOVE_UNKNOWN_WORD, "names no parameter" },
		{ MALTCOVE_MISSING_VALUE, "has no value" },
		{ MALTCOVE_NOT_A_NUMBER, "not a number" },
		{ MALTCOVE_OUT_OF_RANGE, "out of range" },
		{ MALTCOVE_NOT_UTF8, "not UTF-8" },
	};

	for (size_t i = 0; i < sizeof of / sizeof *of; i++)
		CHECK(strstr(maltcove_strerror(of[i].answer), of[i].says) != NULL);
	for (size_t i = 0; i < sizeof of_word / sizeof *of_word; i++)
		CHECK(strstr(maltcove_fault_text(of_word[i].answer), of_word[i].says) != NULL);
	for (int a = MALTCOVE_NULL; a <= MALTCOVE_IDLE; a++)
		for (int b = MALTCOVE_NULL; b < a; b++)
			CHECK(strcmp(maltcove_strerror(a), maltcove_strerror(b)) != 0);
	for (int a = MALTCOVE_WORDS_FINE; a <= MALTCOVE_NOT_UTF8; a++)
		for (int b = MALTCOVE_WORDS_FINE; b < a; b++)
			CHECK(strcmp(maltcove_fault_text(a), maltcove_fault_text(b)) != 0);
	CHECK(strcmp(maltcove_strerror(2), maltcove_strerror(-15)) == 0);
	CHECK(strstr(maltcove_strerror(MALTCOVE_BAD_PACKET), "len is 1 to 65535, ecn 0 to 3, version 4 or 6") != NULL);
	CHECK(strstr(maltcove_strerror(MALTCOVE_HASHED), "classify dport") != NULL);
	CHECK(strstr(maltcove_strerror(MALTCOVE_BAD_WORDS), "the fault of maltcove_open") != NULL);
	CHECK(strstr(maltcove_strerror(MALTCOVE_NOT_OPEN), "never initialized") != NULL);
	CHECK(strstr(maltcove_strerror(MALTCOVE_ALREADY_OPEN), "never initialized") != NULL);
	CHECK(strcmp(maltcove_version(), MALTCOVE_VERSION) == 0);
}

int main(void)
{
	words_and_seeds();
	seeds_of_other_lengths();
	all_are_opened();
	words_before_seed();
	none_and_null();
	refusals();
	drops_wait();
	codel_drops();
	each_total();
	bursts_and_flushes();
	long_bursts_and_flushes();
	long_drops();
	flows_of_the_hash();
	chosen_flow();
	wrong_clocks();
	drops_itself();
	hashes_of_a_card();
	tags_come_back();
	texts();
	puts("calls: all as they should be");
	return 0;
}
