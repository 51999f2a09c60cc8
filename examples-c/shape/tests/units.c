/*
 * units.c: packets of known headers, checksums, buffers, the link's time, and the words of the command line.
 */
#include <string.h>

#include "../link.h"
#include "../options.h"
#include "../pool.h"
#include "check.h"

/* A datagram of UDP over IPv4, 32 bytes, from 10.1.2.3:4660 to 10.4.5.6:53, ECT(0). The checksum was summed by hand. */
static const uint8_t udp_v4[32] = {
	0x45, 0x02, 0x00, 0x20, 0xab, 0xcd, 0x40, 0x00, 0x40, 0x11, 0x73, 0xf0, 10, 1, 2, 3, 10, 4, 5, 6,
	0x12, 0x34, 0x00, 0x35, 0x00, 0x0c, 0x00, 0x00, 1, 2, 3, 4,
};

static int parse_changed(size_t place, uint8_t value, size_t count, maltcove_packet *view)
{
	uint8_t bytes[sizeof udp_v4];

	memcpy(bytes, udp_v4, sizeof bytes);
	bytes[place] = value;
	return parse(bytes, count, view);
}

static void test_v4(void)
{
	maltcove_packet view;

	CHECK(header_sum(udp_v4) == 0xffff);
	CHECK(parse(udp_v4, 32, &view) == MALTCOVE_FINE);
	CHECK(view.version == 4 && view.len == 32 && view.proto == 17 && view.ecn == 2);
	CHECK(view.sport == 0x1234 && view.dport == 53);
	CHECK(memcmp(view.src, "\12\1\2\3\0\0\0\0\0\0\0\0\0\0\0\0", 16) == 0);
	CHECK(memcmp(view.dst, "\12\4\5\6\0\0\0\0\0\0\0\0\0\0\0\0", 16) == 0);
	/* padding isn't the packet's */
	CHECK(parse_changed(3, 30, 32, &view) == MALTCOVE_FINE && view.len == 30);
	/* the first fragment, and the last one: all of a datagram are one flow */
	CHECK(parse_changed(6, 0x20, 32, &view) == MALTCOVE_FINE && view.sport == 0 && view.dport == 0 && view.proto == 17);
	CHECK(parse_changed(7, 0x01, 32, &view) == MALTCOVE_FINE && view.sport == 0 && view.dport == 0 && view.proto == 17);
	/* SCTP has ports, the rest go by protocol alone, and a header of UDP that is cut short has none */
	CHECK(parse_changed(9, 132, 32, &view) == MALTCOVE_FINE && view.sport == 0x1234 && view.proto == 132);
	CHECK(parse_changed(9, 47, 32, &view) == MALTCOVE_FINE && view.sport == 0 && view.proto == 47);
	CHECK(parse_changed(3, 23, 32, &view) == MALTCOVE_FINE && view.sport == 0 && view.len == 23);
	/* options of 8 bytes stand before the ports, which are then those of bytes 28 to 31 */
	CHECK(parse_changed(0, 0x47, 32, &view) == MALTCOVE_FINE && view.sport == 0x0102 && view.dport == 0x0304);
}

static void test_bad_v4(void)
{
	maltcove_packet view, nothing;

	memset(&nothing, 0, sizeof nothing);
	CHECK(parse(udp_v4, 0, &view) == MALTCOVE_SHORT);
	CHECK(parse(udp_v4, 19, &view) == MALTCOVE_SHORT);
	CHECK(is_same(&view, &nothing));
	CHECK(parse_changed(0, 0x50, 32, &view) == MALTCOVE_NOT_IP);
	CHECK(parse_changed(0, 0x05, 32, &view) == MALTCOVE_NOT_IP);
	CHECK(parse_changed(0, 0x44, 32, &view) == MALTCOVE_BAD_IHL); /* a header of 16 bytes */
	CHECK(parse_changed(0, 0x49, 32, &view) == MALTCOVE_BAD_LENGTH); /* a header of 36 bytes in 32 */
	CHECK(parse_changed(3, 33, 32, &view) == MALTCOVE_OVERRUN);
	CHECK(is_same(&view, &nothing));
	CHECK(parse_changed(3, 19, 32, &view) == MALTCOVE_BAD_LENGTH);
	CHECK(parse(udp_v4, 31, &view) == MALTCOVE_OVERRUN);
}

/* An IPv6 packet with all extension headers: hop by hop at 40, routing at 48, fragment at 72, authentication at 80,
 * destination at 96, and TCP at 104. */
static void build_long_v6(uint8_t bytes[140])
{
	maltcove_packet view = { .len = 140, .version = 6, .proto = 6, .ecn = 1, .sport = 443, .dport = 50000 };

	memcpy(view.src, "\x20\x01\x0d\xb8\0\0\0\0\0\0\0\0\0\0\0\1", 16);
	memcpy(view.dst, "\x20\x01\x0d\xb8\0\0\0\0\0\0\0\0\0\0\0\2", 16);
	CHECK(build_packet(bytes, &view, ALL_EXTRAS));
	CHECK(bytes[6] == 0 && bytes[40] == 43 && bytes[48] == 44 && bytes[72] == 51 && bytes[80] == 60 && bytes[96] == 6);
}

static void test_v6(void)
{
	uint8_t bytes[140];
	maltcove_packet view;

	build_long_v6(bytes);
	CHECK(parse(bytes, 140, &view) == MALTCOVE_FINE);
	CHECK(view.version == 6 && view.len == 140 && view.proto == 6 && view.ecn == 1);
	CHECK(view.sport == 443 && view.dport == 50000 && view.src[15] == 1 && view.dst[15] == 2 && view.dst[0] == 0x20);
	bytes[75] = 1; /* more fragments follow */
	CHECK(parse(bytes, 140, &view) == MALTCOVE_FINE && view.proto == 51 && view.sport == 0 && view.dport == 0);
	bytes[75] = 8; /* the second piece */
	CHECK(parse(bytes, 140, &view) == MALTCOVE_FINE && view.proto == 51 && view.sport == 0);
	bytes[75] = 6; /* bits that are reserved */
	CHECK(parse(bytes, 140, &view) == MALTCOVE_FINE && view.proto == 6 && view.sport == 443);
	bytes[96] = 59; /* no next header */
	CHECK(parse(bytes, 140, &view) == MALTCOVE_FINE && view.proto == 59 && view.sport == 0);
	bytes[6] = 50; /* what is encrypted isn't looked into */
	CHECK(parse(bytes, 140, &view) == MALTCOVE_FINE && view.proto == 50 && view.sport == 0);
}

static void test_bad_v6(void)
{
	uint8_t bytes[140];
	maltcove_packet view, nothing;

	memset(&nothing, 0, sizeof nothing);
	build_long_v6(bytes);
	CHECK(parse(bytes, 39, &view) == MALTCOVE_SHORT);
	CHECK(parse(bytes, 139, &view) == MALTCOVE_OVERRUN);
	bytes[5] = 63; /* the packet ends within the destination options */
	CHECK(parse(bytes, 140, &view) == MALTCOVE_BAD_CHAIN);
	bytes[5] = 64;
	CHECK(parse(bytes, 140, &view) == MALTCOVE_FINE && view.len == 104 && view.proto == 6 && view.sport == 0);
	bytes[5] = 100;
	bytes[49] = 255; /* a routing header of 2,048 bytes */
	CHECK(parse(bytes, 140, &view) == MALTCOVE_BAD_CHAIN);
	bytes[49] = 2;
	bytes[97] = 255; /* the last extension header, of 2,048 bytes */
	CHECK(parse(bytes, 140, &view) == MALTCOVE_BAD_CHAIN);
	bytes[97] = 0;
	bytes[4] = 255; /* 65,380 bytes after the header */
	CHECK(parse(bytes, 140, &view) == MALTCOVE_OVERRUN);
	CHECK(is_same(&view, &nothing));
}

/* A mended checksum is the one that is computed anew; a wrong one stays wrong by as much. */
static void test_checksum(void)
{
	for (uint32_t i = 0; i < 65536; i++) {
		uint8_t bytes[32], ecn = i & 3, wanted = ecn == 1 || ecn == 2 ? 3 : ecn;
		maltcove_packet view;
		uint16_t sum;

		memcpy(bytes, udp_v4, sizeof bytes);
		bytes[1] = (uint8_t)((bytes[1] & ~3) | ecn);
		bytes[4] = (uint8_t)(i >> 8); /* the identification makes all sums */
		bytes[5] = (uint8_t)i;
		bytes[10] = bytes[11] = 0;
		sum = (uint16_t)~header_sum(bytes);
		bytes[10] = (uint8_t)(sum >> 8);
		bytes[11] = (uint8_t)sum;
		CHECK(maltcove_mark(bytes, 32, NULL) == (wanted != ecn));
		CHECK(header_sum(bytes) == 0xffff);
		CHECK(parse(bytes, 32, &view) == MALTCOVE_FINE && view.ecn == wanted);
		CHECK(bytes[1] >> 2 == udp_v4[1] >> 2);
		if (wanted == ecn)
			continue;
		/* a wrong one */
		bytes[1] = (uint8_t)((bytes[1] & ~3) | ecn);
		bytes[11] ^= 1;
		sum = header_sum(bytes);
		if (sum == 0xffff)
			continue;
		CHECK(maltcove_mark(bytes, 32, NULL) == MALTCOVE_MARKED && header_sum(bytes) != 0xffff);
	}
}

static void test_ecn_of_v6(void)
{
	uint8_t bytes[140], before[140];
	maltcove_packet view;

	build_long_v6(bytes);
	memcpy(before, bytes, sizeof bytes);
	CHECK(maltcove_mark(bytes, 140, NULL) == MALTCOVE_MARKED);
	CHECK(parse(bytes, 140, &view) == MALTCOVE_FINE && view.ecn == 3);
	CHECK((bytes[1] & ~0x30) == (before[1] & ~0x30));
	bytes[1] = before[1];
	CHECK(memcmp(bytes, before, sizeof bytes) == 0);
}

static void test_pool(void)
{
	struct pool pool;
	struct buffer *buffers[3];
	struct line line = { 0 };

	CHECK(pool_open(&pool, 3));
	CHECK(pool_is_whole(&pool));
	for (int i = 0; i < 3; i++)
		CHECK((buffers[i] = pool_take(&pool)) != NULL);
	CHECK(pool_take(&pool) == NULL && pool.none_left == 1 && pool.out == 3 && pool.most == 3);
	CHECK(buffers[0] != buffers[1] && buffers[1] != buffers[2] && buffers[0] != buffers[2]);
	for (int i = 0; i < 3; i++)
		line_put(&line, buffers[i]);
	for (int i = 0; i < 3; i++)
		CHECK(line_take(&line) == buffers[i]);
	CHECK(line_take(&line) == NULL);
	pool_give(&pool, buffers[0]);
	CHECK(pool.twice == 0 && !pool_is_whole(&pool));
	pool_give(&pool, buffers[0]);
	CHECK(pool.twice == 1 && pool.out == 2);
	pool_give(&pool, buffers[2]);
	pool_give(&pool, buffers[1]);
	CHECK(pool.out == 0 && pool.taken == 3 && pool.given == 3);
	CHECK(!pool_is_whole(&pool)); /* as one was given back twice */
	pool_close(&pool);
}

/* A queue of two packets: the third is dropped, two leave in their order, and a flush gives the rest back. */
static void test_fifo(void)
{
	struct pool pool;
	struct queue queue = { .kind = &fifo_kind, .pool = &pool };
	struct queue_totals totals;
	struct buffer *buffers[3], *taken[3];
	char fault[160];

	CHECK(pool_open(&pool, 3));
	CHECK(!fifo_kind.open(&queue, "limit 0", (const uint8_t[16]){ 0 }, fault, sizeof fault));
	CHECK(!fifo_kind.open(&queue, "limit 2 noecn", (const uint8_t[16]){ 0 }, fault, sizeof fault));
	CHECK(fifo_kind.open(&queue, "limit 2", (const uint8_t[16]){ 0 }, fault, sizeof fault));
	for (int i = 0; i < 3; i++) {
		CHECK((buffers[i] = pool_take(&pool)) != NULL);
		buffers[i]->packet.len = 100;
		fifo_kind.put(&queue, 5, buffers[i]);
	}
	CHECK(pool.out == 2);
	CHECK(fifo_kind.take(&queue, 6, taken, 1) == 1 && taken[0] == buffers[0]);
	pool_give(&pool, taken[0]);
	fifo_kind.totals(&queue, &totals);
	CHECK(totals.accepted == 3 && totals.sent == 1 && totals.sent_bytes == 100 && totals.dropped_overflow == 1);
	CHECK(totals.queued == 1 && totals.queued_bytes == 100);
	fifo_kind.flush(&queue, 7);
	CHECK(fifo_kind.take(&queue, 8, taken, 3) == 0 && pool_is_whole(&pool));
	fifo_kind.close(&queue);
	pool_close(&pool);
}

/* A million packets at a rate that divides nothing take exactly as long as all their bits. */
static void test_link_is_exact(void)
{
	struct link link;
	uint64_t bits = 0, state = 7;

	link_open(&link, 7777777);
	link_wake(&link, 1234);
	for (int i = 0; i < 1000000; i++) {
		uint32_t len = 1 + random_below(&state, 2000);

		link_send(&link, len);
		bits += len * 8;
	}
	/* in whole seconds and what is left of them, so that the product has room */
	CHECK(link.free_at - 1234 == bits / 7777777 * 1000000000 + bits % 7777777 * 1000000000 / 7777777);
}

static void test_link_room(void)
{
	struct link link;

	link_open(&link, 8000000); /* a microsecond for a byte */
	CHECK(link_room(&link, 99, 1000) == 0);
	link_wake(&link, 5000);
	CHECK(link_room(&link, 4999, 1000) == 0);
	CHECK(link_room(&link, 5000, 1000) == 1);
	CHECK(link_room(&link, 5000 + 999999, 1000) == 1);
	CHECK(link_room(&link, 5000 + 1000001, 1000) == 2);
	link_send(&link, 1000);
	CHECK(link_room(&link, 5000 + 999999, 1000) == 0);
	CHECK(link_room(&link, 5000 + 1000000, 1000) == 1);
}

static void test_amounts(void)
{
	uint64_t amount;

	CHECK(link_read_rate("20mbit", &amount) && amount == 20000000);
	CHECK(link_read_rate("1000", &amount) && amount == 1000);
	CHECK(link_read_rate("1250kbps", &amount) && amount == 10000000);
	CHECK(link_read_rate("1tbit", &amount) && amount == 1000000000000);
	CHECK(link_read_rate("3mibit", &amount) && amount == 3145728);
	CHECK(!link_read_rate("999", &amount) && !link_read_rate("2tbit", &amount) && !link_read_rate("mbit", &amount));
	CHECK(!link_read_rate("20Mbit", &amount) && !link_read_rate("20mbit ", &amount) && !link_read_rate("", &amount));
	CHECK(!link_read_rate("99999999999999999999999bit", &amount) && !link_read_rate("-5mbit", &amount));
	CHECK(link_read_time("10ms", &amount) && amount == 10000000);
	CHECK(link_read_time("7", &amount) && amount == 7000);
	CHECK(link_read_time("0us", &amount) && amount == 0);
	CHECK(link_read_time("1000s", &amount) && amount == 1000000000000);
	CHECK(!link_read_time("1001s", &amount) && !link_read_time("5m", &amount) && !link_read_time("ms", &amount));
}

static bool read_words(struct options *options, const char *const *words, char *fault)
{
	int count = 0;

	while (words[count] != NULL)
		count++;
	return options_read(options, count, (char **)words, fault, 160);
}

static void test_options(void)
{
	struct options options;
	char fault[160];

	CHECK(read_words(&options, (const char *[]){ "--in", "a", "limit", "5", "--rate", "1mbit", "noecn", "--delay", "2ms",
	      "--queue", "fifo", "--seed", "00112233445566778899aabbccddeeff", "--out", "b", "--buffers", "77", NULL },
	      fault));
	CHECK(strcmp(options.in, "a") == 0 && strcmp(options.out, "b") == 0 && options.rate == 1000000);
	CHECK(options.delay == 2000000 && options.kind == &fifo_kind && options.buffers == 77);
	CHECK(strcmp(options.words, "limit 5 noecn") == 0 && options.has_seed && options.seed[15] == 0xff);
	CHECK(!read_words(&options, (const char *[]){ "--rate", "fast", NULL }, fault));
	CHECK(strcmp(fault, "--rate: 'fast' is no value for it") == 0);
	CHECK(!read_words(&options, (const char *[]){ "--rate", NULL }, fault));
	CHECK(!read_words(&options, (const char *[]){ "--speed", "1", NULL }, fault));
	CHECK(strcmp(fault, "--speed: there is no such option") == 0);
	CHECK(!read_words(&options, (const char *[]){ "--queue", "red", NULL }, fault));
	CHECK(!read_words(&options, (const char *[]){ "--seed", "0011", NULL }, fault));
	CHECK(!read_words(&options, (const char *[]){ "--buffers", "1", NULL }, fault));
}

int main(void)
{
	test_v4();
	test_bad_v4();
	test_v6();
	test_bad_v6();
	test_checksum();
	test_ecn_of_v6();
	test_pool();
	test_fifo();
	test_link_is_exact();
	test_link_room();
	test_amounts();
	test_options();
	printf("units: 12 tests passed\n");
	return 0;
}
