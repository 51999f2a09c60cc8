/*
 * Reads a trace from standard input, makes its steps by the calls of maltcove.h, and writes the report of the run, in
 * the formats of docs/FORMATS.md: the rows of fqsim trace. The words are those of its command line: trace, --seed HEX32
 * and parameter words. It reads right traces alone, and ends with status 3 at a wrong one.
 */
#include "layout.h"

#include <inttypes.h>
#include <stdio.h>
#include <stdlib.h>
#include <string.h>

enum { MOST_FIELDS = 9, MOST_BYTES = 256 };

/* A row's fields. */
struct row {
	char text[MOST_FIELDS][MOST_BYTES];
	int fields;
};

/* What became of the packets of one five-tuple. */
struct tally {
	maltcove_packet first;
	uint32_t flow;
	uint64_t accepted, sent, dropped;
};

static maltcove m = MALTCOVE_INIT;
static struct tally *tallies;
static size_t tally_count;
static uint64_t last;

static void fail(const char *what)
{
	fprintf(stderr, "report: %s\n", what);
	exit(3);
}

/* Reads a row of fields, with or without quotes. Empty lines are passed over. */
static bool read_row(struct row *row)
{
	int c = getchar(), bytes = 0;
	bool quoted = false;

	while (c == '\n' || c == '\r')
		c = getchar();
	if (c == EOF)
		return false;
	row->fields = 1;
	for (; c != EOF && (quoted || (c != '\n' && c != '\r')); c = getchar()) {
		if (c == '"' && (quoted || bytes == 0)) {
			quoted = !quoted;
		} else if (c == ',' && !quoted) {
			row->text[row->fields - 1][bytes] = '\0';
			if (row->fields++ == MOST_FIELDS)
				fail("a row has too many fields");
			bytes = 0;
		} else {
			if (bytes == MOST_BYTES - 1)
				fail("a field is too long");
			row->text[row->fields - 1][bytes++] = (char)c;
		}
	}
	row->text[row->fields - 1][bytes] = '\0';
	return true;
}

static int hex_digit(char c)
{
	const char *digits = "0123456789abcdef", *place;

	place = strchr(digits, c >= 'A' && c <= 'F' ? c - 'A' + 'a' : c);
	if (c == '\0' || place == NULL)
		fail("a digit is none");
	return (int)(place - digits);
}

static void read_hex(const char *text, uint8_t bytes[16])
{
	if (strlen(text) != 32)
		fail("not 32 hexadecimal digits");
	for (int i = 0; i < 16; i++)
		bytes[i] = (uint8_t)(hex_digit(text[2 * i]) * 16 + hex_digit(text[2 * i + 1]));
}

static uint64_t number(const char *text)
{
	char *end;
	uint64_t n = strtoull(text, &end, 10);

	if (*text == '\0' || *end != '\0')
		fail("a number is none");
	return n;
}

/* An address of IPv4, or else of IPv6, and the version that it is of. */
static uint8_t read_address(const char *text, uint8_t bytes[16])
{
	unsigned a, b, c, d;

	memset(bytes, 0, 16);
	if (strchr(text, '.') == NULL) {
		read_hex(text, bytes);
		return 6;
	}
	if (sscanf(text, "%u.%u.%u.%u", &a, &b, &c, &d) != 4)
		fail("an address is none");
	bytes[0] = (uint8_t)a;
	bytes[1] = (uint8_t)b;
	bytes[2] = (uint8_t)c;
	bytes[3] = (uint8_t)d;
	return 4;
}

static bool same_tuple(const maltcove_packet *a, const maltcove_packet *b)
{
	return a->proto == b->proto && a->version == b->version && a->sport == b->sport && a->dport == b->dport &&
	       memcmp(a->src, b->src, 16) == 0 && memcmp(a->dst, b->dst, 16) == 0;
}

/* The number of the five-tuple's tally, which the packet's tag is. */
static uint64_t tally_of(const maltcove_packet *p)
{
	for (size_t i = 0; i < tally_count; i++)
		if (same_tuple(&tallies[i].first, p))
			return i;
	return tally_count;
}

/* Reads the drops of the last call, and writes their rows. */
static void write_drops(uint64_t due)
{
	maltcove_dropped drops[7];
	int64_t n;

	while ((n = maltcove_drops(&m, drops, 7)) > 0) {
		due -= (uint64_t)n;
		for (int64_t i = 0; i < n; i++) {
			tallies[drops[i].tag].dropped++;
			printf("dropped,%" PRIu64 ",%s\n", drops[i].id,
			       drops[i].cause == MALTCOVE_BY_CODEL ? "codel" : "overflow");
		}
	}
	if (n < 0 || due != 0)
		fail("the number of drops isn't the one that was told");
}

static void write_refusal(int answer)
{
	if (answer == MALTCOVE_CLOSED)
		puts("refused,closed");
	else if (answer == MALTCOVE_BACKWARDS)
		printf("refused,backwards,%" PRIu64 "\n", last);
	else
		fail(maltcove_strerror(answer));
}

static void enqueue(uint64_t moment, const struct row *row)
{
	maltcove_packet p;
	maltcove_admitted admitted;
	int answer;

	memset(&p, 0, sizeof p);
	p.proto = (uint8_t)number(row->text[2]);
	p.version = read_address(row->text[3], p.src);
	read_address(row->text[4], p.dst);
	p.sport = (uint16_t)number(row->text[5]);
	p.dport = (uint16_t)number(row->text[6]);
	p.len = (uint32_t)number(row->text[7]);
	p.ecn = (uint8_t)number(row->text[8]);
	p.tag = tally_of(&p);
	answer = maltcove_enqueue(&m, moment, &p, &admitted);
	if (answer != MALTCOVE_OK) {
		write_refusal(answer);
		return;
	}
	last = moment;
	if (p.tag == tally_count) {
		tallies = (struct tally *)realloc(tallies, ++tally_count * sizeof *tallies);
		if (tallies == NULL)
			fail("no memory");
		memset(&tallies[p.tag], 0, sizeof *tallies);
		tallies[p.tag].first = p;
		tallies[p.tag].flow = admitted.flow;
	}
	tallies[p.tag].accepted++;
	printf("accepted,%" PRIu64 ",%" PRIu32 "\n", admitted.id, admitted.flow);
	write_drops(admitted.drops);
}

static void dequeue(uint64_t moment)
{
	maltcove_sent sent;
	int answer = maltcove_dequeue(&m, moment, &sent);

	if (answer < 0) {
		write_refusal(answer);
		return;
	}
	last = moment;
	write_drops(sent.drops);
	if (answer == MALTCOVE_IDLE) {
		puts("idle");
		return;
	}
	tallies[sent.tag].sent++;
	printf("sent,%" PRIu64 ",%d\n", sent.id, sent.ecn);
}

static void end(uint64_t moment)
{
	int answer = maltcove_close(&m, moment);

	if (answer != MALTCOVE_OK) {
		write_refusal(answer);
		return;
	}
	last = moment;
	puts("closed");
}

static void write_totals(void)
{
	maltcove_totals_t t;

	if (maltcove_totals(&m, &t) != MALTCOVE_OK || maltcove_queued(&m) != (int64_t)t.queued ||
	    maltcove_is_closed(&m) != t.closed)
		fail("the totals aren't those of the other calls");
	printf("totals,%" PRIu64 ",%" PRIu64 ",%" PRIu64 ",%" PRIu64 ",%" PRIu64 ",%" PRIu64 ",%" PRIu64 ",%" PRIu64
	       ",%" PRIu64 ",%" PRIu64 ",%" PRIu64 ",%s\n",
	       t.accepted, t.accepted_bytes, t.sent, t.sent_bytes, t.dropped_codel, t.dropped_overflow, t.dropped_bytes,
	       t.marked, t.threshold_marked, t.queued, t.queued_bytes, t.closed ? "closed" : "open");
}

static void write_address(const uint8_t bytes[16], uint8_t version)
{
	if (version == 4)
		printf("%d.%d.%d.%d,", bytes[0], bytes[1], bytes[2], bytes[3]);
	for (int i = 0; version == 6 && i < 16; i++)
		printf(i < 15 ? "%02x" : "%02x,", bytes[i]);
}

static void write_tallies(void)
{
	for (size_t i = 0; i < tally_count; i++) {
		const struct tally *t = &tallies[i];

		printf("tuple,%d,", t->first.proto);
		write_address(t->first.src, t->first.version);
		write_address(t->first.dst, t->first.version);
		printf("%d,%d,%" PRIu32 ",%" PRIu64 ",%" PRIu64 ",%" PRIu64 ",%" PRIu64 "\n", t->first.sport,
		       t->first.dport, t->flow, t->accepted, t->sent, t->dropped, t->accepted - t->sent - t->dropped);
	}
}

/* The parameter words of the command line as one text, and its seed. */
static void open_scheduler(int argc, char **argv)
{
	char words[4096] = "";
	uint8_t seed[16] = { 0 };
	maltcove_fault fault;
	int answer;

	for (int i = 2; i < argc; i++) {
		if (strcmp(argv[i], "--seed") == 0 && i + 1 < argc) {
			read_hex(argv[++i], seed);
			continue;
		}
		if (strlen(words) + strlen(argv[i]) + 2 > sizeof words)
			fail("too many words");
		strcat(strcat(words, argv[i]), " ");
	}
	answer = maltcove_open(&m, words, strlen(words), seed, sizeof seed, &fault);
	if (answer != MALTCOVE_OK)
		fail(answer == MALTCOVE_BAD_WORDS ? maltcove_fault_text(fault.kind) : maltcove_strerror(answer));
}

int main(int argc, char **argv)
{
	static struct row row;

	if (argc < 2 || strcmp(argv[1], "trace") != 0)
		fail("the first word has to be trace");
	open_scheduler(argc, argv);
	while (read_row(&row)) {
		if (strcmp(row.text[0], "enq") == 0 && row.fields == 9)
			enqueue(number(row.text[1]), &row);
		else if (strcmp(row.text[0], "deq") == 0 && row.fields == 2)
			dequeue(number(row.text[1]));
		else if (strcmp(row.text[0], "close") == 0 && row.fields == 2)
			end(number(row.text[1]));
		else if (strcmp(row.text[0], "version") != 0)
			fail("a row is none");
	}
	write_totals();
	write_tallies();
	maltcove_free(&m);
	free(tallies);
	return 0;
}
