/*
 * Packets as bytes: what maltcove_find, maltcove_parse and maltcove_mark answer, and all that they fill in.
 *
 *   headers [PACKETS WANTED]
 *
 * It begins with packets that are written out here, each by the RFC that it names. PACKETS and WANTED are files with a
 * line for each of further packets, most of captures, as tools/header-rows makes them: what is asked, how many bytes
 * the link delivered and the captured bytes; and what another program found in them.
 */
#include "maltcove.h"

#include <stdio.h>
#include <stdlib.h>
#include <string.h>

enum { LONGEST = 2000, LINE = 3 * LONGEST };

/* A scheduler, that parsed packets are handed to. */
static maltcove m = MALTCOVE_INIT;

static void check_at(bool right, const char *what, int line)
{
	if (!right) {
		fprintf(stderr, "headers.c:%d: wrong: %s\n", line, what);
		exit(1);
	}
}
#define CHECK(what) check_at(what, #what, __LINE__)

/* The bytes of hexadecimal digits, of which blanks may stand between: how many there are. */
static size_t bytes_of(const char *digits, uint8_t *bytes)
{
	size_t n = 0;
	unsigned byte;

	for (; *digits != '\0'; digits += 2) {
		while (*digits == ' ')
			digits++;
		if (sscanf(digits, "%2x", &byte) != 1)
			break;
		CHECK(n < LONGEST);
		bytes[n++] = (uint8_t)byte;
	}
	return n;
}

/* A packet, and what is wanted of it. */
struct row {
	const char *what, *digits;
	size_t wire;
	uint16_t ethertype;
	uint32_t flags;
	int verdict;
	/* proto, ecn, len, sport, dport, transport, fragment, ports, dscp, label; the version is the packet's own */
	unsigned proto, ecn, len, sport, dport, transport, fragment, ports, dscp, label;
};

#define V4(tos, len, field, proto) "45" tos len "1234" field "40" proto "0000 0a000001 0a000002"
#define V6_ADDRESSES "20010db8000000000000000000000001 20010db8000000000000000000000002"
#define V6(first, len, next) first len next "40" V6_ADDRESSES
#define PORTS "1388 0035 0008 0000"

static const struct row rows[] = {
	{ "RFC 791: UDP, DSCP 46 and ECT(0)", V4("ba", "001c", "0000", "11") PORTS, 28, 0x0800, 0, MALTCOVE_FINE,
	  17, 2, 28, 5000, 53, 20, MALTCOVE_WHOLE, MALTCOVE_PORTS_FOUND, 46, 0 },
	{ "RFC 894: padding", V4("00", "001c", "4000", "06") PORTS "ffffffff", 46, 0, 0, MALTCOVE_FINE,
	  6, 0, 28, 5000, 53, 20, MALTCOVE_WHOLE, MALTCOVE_PORTS_FOUND, 0, 0 },
	{ "RFC 791, 3.1: options", "46 01 0020 1234 0000 40 84 0000 0a000001 0a000002 94040000" PORTS, 32, 0, 0,
	  MALTCOVE_FINE, 132, 1, 32, 5000, 53, 24, MALTCOVE_WHOLE, MALTCOVE_PORTS_FOUND, 0, 0 },
	{ "RFC 4340: DCCP", V4("03", "001c", "0000", "21") PORTS, 28, 0, 0, MALTCOVE_FINE,
	  33, 3, 28, 5000, 53, 20, MALTCOVE_WHOLE, MALTCOVE_PORTS_FOUND, 0, 0 },
	{ "RFC 3828: UDP-Lite", V4("00", "001c", "0000", "88") PORTS, 28, 0, 0, MALTCOVE_FINE,
	  136, 0, 28, 5000, 53, 20, MALTCOVE_WHOLE, MALTCOVE_PORTS_FOUND, 0, 0 },
	{ "RFC 792: ICMP has no ports", V4("00", "001c", "0000", "01") PORTS, 28, 0, 0, MALTCOVE_FINE,
	  1, 0, 28, 0, 0, 20, MALTCOVE_WHOLE, MALTCOVE_PORTS_ABSENT, 0, 0 },
	{ "RFC 791, 3.2: the first fragment", V4("00", "001c", "2000", "11") PORTS, 28, 0, 0, MALTCOVE_FINE,
	  17, 0, 28, 0, 0, 20, MALTCOVE_FIRST, MALTCOVE_PORTS_FRAGMENT, 0, 0 },
	{ "RFC 791, 3.2: a later fragment", V4("00", "001c", "0001", "11") PORTS, 28, 0, 0, MALTCOVE_FINE,
	  17, 0, 28, 0, 0, 20, MALTCOVE_LATER, MALTCOVE_PORTS_FRAGMENT, 0, 0 },
	{ "the packet ends before its ports", V4("00", "0017", "0000", "11") PORTS, 28, 0, 0, MALTCOVE_FINE,
	  17, 0, 23, 0, 0, 20, MALTCOVE_WHOLE, MALTCOVE_PORTS_BEYOND, 0, 0 },
	{ "the capture ends before the ports", V4("00", "001c", "0000", "11") "1388", 28, 0, 0, MALTCOVE_FINE,
	  17, 0, 28, 0, 0, 20, MALTCOVE_WHOLE, MALTCOVE_PORTS_CUT, 0, 0 },
	{ "RFC 8200: TCP, flow label", V6("6ababcde", "0008", "06") PORTS, 48, 0x86dd, 0, MALTCOVE_FINE,
	  6, 3, 48, 5000, 53, 40, MALTCOVE_WHOLE, MALTCOVE_PORTS_FOUND, 42, 0xabcde },
	{ "RFC 6437: the label in place of ports", V6("6ababcde", "0008", "06") PORTS, 48, 0, MALTCOVE_FLOW_LABEL,
	  MALTCOVE_FINE, 6, 3, 48, 0xa, 0xbcde, 40, MALTCOVE_WHOLE, MALTCOVE_PORTS_FOUND, 42, 0xabcde },
	{ "no label: the ports", V6("60000000", "0008", "06") PORTS, 48, 0, MALTCOVE_FLOW_LABEL, MALTCOVE_FINE,
	  6, 0, 48, 5000, 53, 40, MALTCOVE_WHOLE, MALTCOVE_PORTS_FOUND, 0, 0 },
	{ "RFC 4303: ESP", V6("60000000", "0008", "32") "1234567800000001", 48, 0, 0, MALTCOVE_FINE,
	  50, 0, 48, 0, 0, 40, MALTCOVE_WHOLE, MALTCOVE_PORTS_ABSENT, 0, 0 },
	{ "RFC 4303: ESP's index", V6("60000000", "0008", "32") "1234567800000001", 48, 0, MALTCOVE_ESP_SPI,
	  MALTCOVE_FINE, 50, 0, 48, 0x1234, 0x5678, 40, MALTCOVE_WHOLE, MALTCOVE_PORTS_FOUND, 0, 0 },
	{ "both", V6("60012345", "0008", "32") "1234567800000001", 48, 0, MALTCOVE_ESP_SPI + MALTCOVE_FLOW_LABEL,
	  MALTCOVE_FINE, 50, 0, 48, 1, 0x2345, 40, MALTCOVE_WHOLE, MALTCOVE_PORTS_FOUND, 0, 0x12345 },
	{ "RFC 8200, 4: five extension headers",
	  V6("60000000", "0038", "00") "2b00000000000000 3c00000000000000 3300000000000000 2c01000000000000 00000000"
	  "1100000000000007" PORTS "00000000", 96, 0, 0, MALTCOVE_FINE,
	  17, 0, 96, 5000, 53, 84, MALTCOVE_ATOMIC, MALTCOVE_PORTS_FOUND, 0, 0 },
	{ "RFC 8200, 4.5: the first fragment", V6("60000000", "0010", "2c") "1100000100000007" PORTS, 56, 0, 0,
	  MALTCOVE_FINE, 17, 0, 56, 0, 0, 48, MALTCOVE_FIRST, MALTCOVE_PORTS_FRAGMENT, 0, 0 },
	{ "RFC 8200, 4.5: a later fragment", V6("60000000", "0010", "2c") "1100000800000007" PORTS, 56, 0, 0,
	  MALTCOVE_FINE, 17, 0, 56, 0, 0, 48, MALTCOVE_LATER, MALTCOVE_PORTS_FRAGMENT, 0, 0 },
	{ "RFC 6946: an atomic fragment", V6("60000000", "0010", "2c") "1100000000000007" PORTS, 56, 0, 0,
	  MALTCOVE_FINE, 17, 0, 56, 5000, 53, 48, MALTCOVE_ATOMIC, MALTCOVE_PORTS_FOUND, 0, 0 },
	{ "no byte", "", 0, 0, 0, MALTCOVE_SHORT, 0, 0, 0, 0, 0, 0, 0, 0, 0, 0 },
	{ "19 bytes", "45000013", 19, 0, 0, MALTCOVE_SHORT, 0, 0, 0, 0, 0, 0, 0, 0, 0, 0 },
	{ "39 bytes of IPv6", "60000000", 39, 0, 0, MALTCOVE_SHORT, 0, 0, 0, 0, 0, 0, 0, 0, 0, 0 },
	{ "version 5", "55000014 00000000 00000000 00000000 00000000", 20, 0, 0, MALTCOVE_NOT_IP,
	  0, 0, 0, 0, 0, 0, 0, 0, 0, 0 },
	{ "RFC 1122, 3.2.1.1: IPv4 as IPv6", V4("00", "001c", "0000", "11") PORTS, 28, 0x86dd, 0, MALTCOVE_NOT_IP,
	  0, 0, 0, 0, 0, 0, 0, 0, 0, 0 },
	{ "ARP", V4("00", "001c", "0000", "11") PORTS, 28, 0x0806, 0, MALTCOVE_NOT_IP, 0, 0, 0, 0, 0, 0, 0, 0, 0, 0 },
	{ "RFC 791, 3.1: four words", "44000014 00000000 00000000 00000000 00000000", 20, 0, 0, MALTCOVE_BAD_IHL,
	  0, 0, 0, 0, 0, 0, 0, 0, 0, 0 },
	{ "RFC 1812, 5.2.2: 19 bytes in all", V4("00", "0013", "0000", "11"), 20, 0, 0, MALTCOVE_BAD_LENGTH,
	  0, 0, 0, 0, 0, 0, 0, 0, 0, 0 },
	{ "a sender's own capture", V4("00", "0000", "0000", "06") PORTS, 28, 0, 0, MALTCOVE_BAD_LENGTH,
	  0, 0, 0, 0, 0, 0, 0, 0, 0, 0 },
	{ "RFC 1812, 5.2.2: longer than came", V4("00", "001d", "0000", "11") PORTS, 28, 0, 0, MALTCOVE_OVERRUN,
	  0, 0, 0, 0, 0, 0, 0, 0, 0, 0 },
	{ "RFC 8200, 3: longer than came", V6("60000000", "0009", "11") PORTS, 48, 0, 0, MALTCOVE_OVERRUN,
	  0, 0, 0, 0, 0, 0, 0, 0, 0, 0 },
	{ "RFC 8200, 4: options past the end", V6("60100000", "0008", "3c") "1101000000000000", 48, 0, 0,
	  MALTCOVE_BAD_CHAIN, 60, 1, 48, 0, 0, 40, MALTCOVE_WHOLE, MALTCOVE_PORTS_ABSENT, 0, 0 },
	{ "65,536 bytes", V6("60000000", "ffd8", "11") PORTS, 65536, 0, 0, MALTCOVE_TOO_LONG,
	  0, 0, 0, 0, 0, 0, 0, 0, 0, 0 },
	{ "RFC 2675, 2: a jumbogram", V6("60000000", "0000", "00") "1100c20400010000", 65576, 0, 0, MALTCOVE_TOO_LONG,
	  0, 0, 0, 0, 0, 0, 0, 0, 0, 0 },
	{ "RFC 2675, 3: a short jumbogram", V6("60000000", "0000", "00") "1100c2040000ffff", 65575, 0, 0,
	  MALTCOVE_BAD_JUMBO, 0, 0, 0, 0, 0, 0, 0, 0, 0, 0 },
	{ "a cut header", "45000014", 20, 0, 0, MALTCOVE_CUT, 0, 0, 0, 0, 0, 0, 0, 0, 0, 0 },
	{ "a cut chain", V6("60000000", "0010", "00") "3b", 56, 0, 0, MALTCOVE_CUT,
	  0, 0, 56, 0, 0, 40, MALTCOVE_WHOLE, MALTCOVE_PORTS_ABSENT, 0, 0 },
};

/* Whether sixteen bytes are those of an address: of IPv4 the first four, and the others are 0. */
static bool is_address(const uint8_t *bytes, const uint8_t *wanted, size_t length)
{
	static const uint8_t zeros[16] = { 0 };

	return memcmp(bytes, wanted, length) == 0 && memcmp(bytes + length, zeros, 16 - length) == 0;
}

/* A scheduler accepts what was parsed and known, and gives it back, and refuses the rest. */
static void is_ready(const maltcove_packet *p)
{
	static uint64_t moment = 0;
	maltcove_admitted admitted;
	maltcove_sent sent;

	moment++;
	if (p->version == 0) {
		CHECK(maltcove_enqueue(&m, moment, p, &admitted) == MALTCOVE_BAD_PACKET);
	} else {
		CHECK(maltcove_enqueue(&m, moment, p, &admitted) == MALTCOVE_OK && admitted.drops == 0);
		CHECK(maltcove_dequeue(&m, moment, &sent) == MALTCOVE_OK && sent.tag == p->tag && sent.len == p->len);
		CHECK(sent.ecn == p->ecn);
	}
}

static void written_out(void)
{
	for (size_t i = 0; i < sizeof rows / sizeof *rows; i++) {
		const struct row *r = &rows[i];
		uint8_t bytes[LONGEST];
		size_t n = bytes_of(r->digits, bytes);
		maltcove_packet p;
		maltcove_where w;
		bool is_known = r->len > 0;
		unsigned version = is_known ? bytes[0] >> 4 : 0;
		size_t length = version == 6 ? 16 : is_known ? 4 : 0;
		const uint8_t *from = bytes + (version == 6 ? 8 : 12);
		int answer;

		memset(&p, 0x7f, sizeof p);
		memset(&w, 0x7f, sizeof w);
		p.tag = 42;
		answer = r->flags == 0 ? maltcove_parse(bytes, n, r->wire, r->ethertype, &p, &w)
				       : maltcove_parse_as(bytes, n, r->wire, r->ethertype, r->flags, &p, &w);
		if (answer != r->verdict || w.verdict != r->verdict || p.version != version || p.proto != r->proto ||
		    p.ecn != r->ecn || w.ecn != r->ecn || p.len != r->len || p.sport != r->sport ||
		    p.dport != r->dport || w.transport != r->transport || w.fragment != r->fragment ||
		    w.ports != r->ports || w.dscp != r->dscp || w.flow_label != r->label || p.tag != 42 ||
		    !is_address(p.src, from, length) || !is_address(p.dst, from + length, length)) {
			fprintf(stderr, "headers.c: %s: verdict %d, proto %u, ecn %u, len %u, ports %u %u (%u), "
				"transport %u, fragment %u, dscp %u, label %x\n", r->what, answer, p.proto, p.ecn,
				(unsigned)p.len, p.sport, p.dport, w.ports, (unsigned)w.transport, w.fragment, w.dscp,
				(unsigned)w.flow_label);
			exit(1);
		}
		is_ready(&p);
	}
}

/* What is asked for with null pointers, and without bytes. */
static void null_pointers(void)
{
	uint8_t bytes[28];
	maltcove_packet p;
	maltcove_where w;
	maltcove_found f;

	memset(bytes, 0, sizeof bytes);
	CHECK(maltcove_parse(NULL, 1, 1, 0, &p, &w) == MALTCOVE_NULL);
	CHECK(maltcove_parse(bytes, 28, 28, 0, NULL, &w) == MALTCOVE_NULL);
	CHECK(maltcove_parse(bytes, 28, 28, 0, &p, NULL) == MALTCOVE_NULL);
	CHECK(maltcove_parse(NULL, 0, 0, 0, &p, &w) == MALTCOVE_SHORT);
	CHECK(maltcove_parse(NULL, 0, 20, 0, &p, &w) == MALTCOVE_CUT);
	CHECK(maltcove_parse_as(NULL, 1, 1, 0, 3, &p, &w) == MALTCOVE_NULL);
	CHECK(maltcove_parse_as(bytes, 28, 28, 0, 3, NULL, &w) == MALTCOVE_NULL);
	CHECK(maltcove_parse_as(bytes, 28, 28, 0, 3, &p, NULL) == MALTCOVE_NULL);
	CHECK(maltcove_find(NULL, 1, 1, &f) == MALTCOVE_NULL);
	CHECK(maltcove_find(bytes, 28, 1, NULL) == MALTCOVE_NULL);
	CHECK(maltcove_find(NULL, 0, 1, &f) == MALTCOVE_CUT && f.offset == 0 && f.tags == 0 && f.ethertype == 0);
	CHECK(maltcove_find(NULL, 0, 101, &f) == MALTCOVE_FINE && f.offset == 0 && f.ethertype == 0);
	CHECK(maltcove_mark(NULL, 1, &w) == MALTCOVE_NULL);
	CHECK(maltcove_mark(NULL, 0, &w) == MALTCOVE_UNMARKED);
	CHECK(maltcove_mark(NULL, 0, NULL) == MALTCOVE_UNMARKED);
	bytes_of(V4("02", "001c", "0000", "11") PORTS, bytes);
	CHECK(maltcove_mark(bytes, 28, NULL) == MALTCOVE_MARKED && bytes[1] == 3);
	CHECK(maltcove_mark(bytes, 28, NULL) == MALTCOVE_UNMARKED && bytes[1] == 3);
}

/* What is kept of a record at a mark, and what a link's header says. */
static void records(void)
{
	uint8_t bytes[LONGEST];
	size_t n = bytes_of(V6("6ababcde", "0008", "06") PORTS, bytes);
	maltcove_packet p;
	maltcove_where w, before;
	maltcove_found f;

	bytes[1] = 0x9a;
	memset(&w, 0, sizeof w);
	CHECK(maltcove_parse(bytes, n, n, 0, &p, &w) == MALTCOVE_FINE && w.ecn == 1);
	before = w;
	CHECK(maltcove_mark(bytes, n, &w) == MALTCOVE_MARKED && w.ecn == 3 && bytes[1] == 0xba);
	before.ecn = 3;
	CHECK(w.transport == before.transport && w.flow_label == before.flow_label && w.verdict == before.verdict);
	CHECK(w.fragment == before.fragment && w.ports == before.ports && w.dscp == before.dscp && w.ecn == before.ecn);
	n = bytes_of("000000000000 000000000000 88a8 0064 8100 0065 0806 0000", bytes);
	CHECK(maltcove_find(bytes, n, 1, &f) == MALTCOVE_NOT_IP && f.offset == 22 && f.tags == 2 && f.ethertype == 0x0806);
	CHECK(maltcove_find(bytes, 21, 1, &f) == MALTCOVE_CUT && f.offset == 0 && f.tags == 0 && f.ethertype == 0);
	CHECK(maltcove_find(bytes, n, 147, &f) == MALTCOVE_UNKNOWN_LINK && f.offset == 0 && f.ethertype == 0);
}

/* Each code has a text of its own. */
static void texts(void)
{
	for (int code = MALTCOVE_UNKNOWN_LINK; code <= MALTCOVE_SHORT; code++) {
		CHECK(strcmp(maltcove_strerror(code), maltcove_strerror(-99)) != 0);
		for (int other = code + 1; other <= MALTCOVE_IDLE; other++)
			CHECK(strcmp(maltcove_strerror(code), maltcove_strerror(other)) != 0);
	}
}

/* Writes what a packet says as the files have it. */
static void say_packet(char *said, const uint8_t *bytes, size_t n, size_t wire, uint16_t ethertype, uint32_t flags,
		       const maltcove_found *f)
{
	static const int verdicts[] = { MALTCOVE_FINE, MALTCOVE_SHORT, MALTCOVE_NOT_IP, MALTCOVE_BAD_IHL,
		MALTCOVE_BAD_LENGTH, MALTCOVE_OVERRUN, MALTCOVE_BAD_CHAIN, MALTCOVE_TOO_LONG, MALTCOVE_BAD_JUMBO,
		MALTCOVE_CUT };
	maltcove_packet p;
	maltcove_where w;
	int answer, place = 0;

	p.tag = n;
	answer = maltcove_parse_as(bytes, n, wire, ethertype, flags, &p, &w);
	is_ready(&p);
	while (verdicts[place] != answer)
		CHECK(++place < 10);
	said += sprintf(said, "ip\t%d\t%u\t%u\t%u\t%u\t%u\t%u\t%u\t%u\t%u\t", place, p.version, p.proto, p.ecn,
			(unsigned)p.len, w.fragment, w.ports, p.sport, p.dport, (unsigned)w.transport);
	for (int i = 0; i < (p.version == 6 ? 16 : 4); i++)
		said += sprintf(said, "%02x", p.src[i]);
	*said++ = '\t';
	for (int i = 0; i < (p.version == 6 ? 16 : 4); i++)
		said += sprintf(said, "%02x", p.dst[i]);
	sprintf(said, "\t%u\t%u\t%u\t%u\n", (unsigned)f->offset, (unsigned)f->tags, (unsigned)w.flow_label, w.dscp);
}

/* Writes what a link delivered as the files have it. */
static void say_link(char *said, const uint8_t *bytes, size_t n, size_t wire, uint32_t link_type)
{
	maltcove_found f;

	switch (maltcove_find(bytes, n, link_type, &f)) {
	case MALTCOVE_FINE:
		wire = wire > f.offset ? wire - (size_t)f.offset : 0;
		say_packet(said, bytes + f.offset, n - (size_t)f.offset, wire, f.ethertype, 0, &f);
		break;
	case MALTCOVE_NOT_IP:
		sprintf(said, "link\t-1\t%u\n", f.ethertype);
		break;
	case MALTCOVE_CUT:
		strcpy(said, "link\t-2\t0\n");
		break;
	default:
		strcpy(said, "link\t-3\t0\n");
	}
}

static void say_mark(char *said, uint8_t *bytes, size_t n)
{
	maltcove_where w;

	memset(&w, 0, sizeof w);
	said += sprintf(said, "mark\t%d\t", maltcove_mark(bytes, n, &w));
	for (size_t i = 0; i < n; i++)
		said += sprintf(said, "%02x", bytes[i]);
	strcpy(said, "\n");
}

/* Compares the packets of a file with what is wanted of them. Each stands at the end of a block of just its size. */
static void compare(const char *packets, const char *wanted)
{
	FILE *asked = fopen(packets, "r"), *told = fopen(wanted, "r");
	static char line[LINE], due[LINE], said[LINE];
	static maltcove_found nowhere;
	unsigned long count = 0;

	CHECK(asked != NULL && told != NULL);
	while (fgets(line, LINE, asked) != NULL) {
		uint8_t bytes[LONGEST], *block;
		char kind[32] = "", *digits;
		unsigned long wire = 0;
		size_t n;

		CHECK(sscanf(line, "%31s %lu", kind, &wire) == 2);
		digits = strchr(strchr(line, ' ') + 1, ' ') + 1;
		digits[strcspn(digits, "\n")] = '\0';
		n = bytes_of(digits, bytes);
		block = (uint8_t *)malloc(n > 0 ? n : 1);
		CHECK(block != NULL);
		memcpy(block, bytes, n);
		if (strcmp(kind, "mark") == 0)
			say_mark(said, block, n);
		else if (strcmp(kind, "packet") == 0)
			say_packet(said, block, n, wire, 0, 0, &nowhere);
		else if (strcmp(kind, "spi") == 0)
			say_packet(said, block, n, wire, 0, MALTCOVE_ESP_SPI, &nowhere);
		else if (strcmp(kind, "label") == 0)
			say_packet(said, block, n, wire, 0, MALTCOVE_FLOW_LABEL, &nowhere);
		else
			say_link(said, block, n, wire, strcmp(kind, "frame") == 0 ? 1 : (uint32_t)strtoul(kind, NULL, 10));
		free(block);
		CHECK(fgets(due, LINE, told) != NULL);
		count++;
		if (strcmp(due, said) != 0) {
			fprintf(stderr, "headers.c: packet %lu: %swanted is %s", count, said, due);
			exit(1);
		}
	}
	CHECK(count > 0 && fgets(due, LINE, told) == NULL);
	fclose(asked);
	fclose(told);
	printf("headers: %lu packets of captures and others are read as wanted\n", count);
}

int main(int argc, char **argv)
{
	const uint8_t seed[16] = { 0 };

	CHECK(maltcove_open(&m, "limit 1", 7, seed, 16, NULL) == MALTCOVE_OK);
	written_out();
	null_pointers();
	records();
	texts();
	if (argc == 3)
		compare(argv[1], argv[2]);
	maltcove_free(&m);
	printf("headers: %d packets by the RFCs are read as wanted\n", (int)(sizeof rows / sizeof *rows));
	return 0;
}
