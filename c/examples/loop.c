/*
 * The whole loop of a router over one link, with a clock that the program counts itself. Packets come into buffers,
 * wait in the scheduler, and leave at the link's rate. A buffer is given back where the scheduler refuses its packet,
 * drops it, sends it or flushes it, and at no other place.
 */
#include <maltcove.h>
#include <stdio.h>
#include <string.h>

enum { BUFFERS = 64, PACKETS = 400, BYTES = 1000, LINK_BITS = 8 /* a microsecond: 1000 bytes take 1 ms */ };

static uint8_t buffer[BUFFERS][BYTES];
static bool in_use[BUFFERS];
static maltcove m = MALTCOVE_INIT;
static uint64_t link_free; /* when the link has sent its last packet completely */
static int sent_count, lost_codel, lost_overflow, marked, refused, flushed_count;

/* A tag is the number of a buffer here. It may as well be the buffer's address. */
static void give_back(uint64_t tag)
{
	in_use[tag] = false;
}

/* One's complement sum of the header's 16-bit words; 0xffff where the checksum is right (RFC 1071). */
static uint32_t header_sum(const uint8_t *ip)
{
	uint32_t sum = 0;

	for (int i = 0; i < 20; i += 2)
		sum += (uint32_t)(ip[i] << 8 | ip[i + 1]);
	return (sum & 0xffff) + (sum >> 16);
}

/* Writes an ECN field into a header of IPv4, and mends its checksum (RFC 1624, section 3). IPv6 has no checksum. */
static void write_ecn(uint8_t *ip, uint8_t ecn)
{
	uint32_t old_word = (uint32_t)(ip[0] << 8 | ip[1]);
	uint32_t sum;

	ip[1] = (uint8_t)((ip[1] & ~3) | ecn);
	sum = (~(uint32_t)(ip[10] << 8 | ip[11]) & 0xffff) + (~old_word & 0xffff) + (uint32_t)(ip[0] << 8 | ip[1]);
	sum = (sum & 0xffff) + (sum >> 16);
	sum = ~(sum + (sum >> 16)) & 0xffff;
	ip[10] = (uint8_t)(sum >> 8);
	ip[11] = (uint8_t)sum;
}

/* The drops of the last call: their packets are gone. */
static void read_drops(void)
{
	maltcove_dropped lost[8];
	int64_t n;

	while ((n = maltcove_drops(&m, lost, 8)) > 0) {
		for (int64_t i = 0; i < n; i++) {
			if (lost[i].cause == MALTCOVE_BY_CODEL)
				lost_codel++;
			else
				lost_overflow++;
			give_back(lost[i].tag);
		}
	}
}

/* A datagram of UDP over IPv4 in a buffer, as a device writes it. Every other one can be marked. */
static void write_packet(uint8_t *ip, int number)
{
	static const uint8_t from_device[] = { 0x45, 0, BYTES >> 8, BYTES & 255, 0, 0, 0, 0, 64, 17, 0, 0,
					       10,   0, 0,          1,           10, 0, 0, 2, 0, 0, 0, 53 };
	uint32_t sum;

	memset(ip, 0, BYTES);
	memcpy(ip, from_device, sizeof from_device);
	ip[1] = number % 2 == 0 ? 2 : 0;
	ip[21] = (uint8_t)(1 + number % 2);
	sum = ~header_sum(ip) & 0xffff;
	ip[10] = (uint8_t)(sum >> 8);
	ip[11] = (uint8_t)sum;
}

/* What the scheduler wants to know of a packet. ../../examples-c/shape/packet.c parses any packet of IPv4 and IPv6. */
static maltcove_packet parse(const uint8_t *ip, uint64_t tag)
{
	maltcove_packet p;

	memset(&p, 0, sizeof p);
	p.tag = tag;
	p.len = (uint32_t)(ip[2] << 8 | ip[3]);
	p.version = ip[0] >> 4;
	p.proto = ip[9];
	p.ecn = ip[1] & 3;
	memcpy(p.src, ip + 12, 4);
	memcpy(p.dst, ip + 16, 4);
	p.sport = (uint16_t)(ip[20] << 8 | ip[21]);
	p.dport = (uint16_t)(ip[22] << 8 | ip[23]);
	return p;
}

/* A packet comes. One that is refused is still the caller's. */
static void receive(uint64_t now, int number)
{
	maltcove_packet p;
	maltcove_admitted admitted;
	uint64_t tag = 0;

	while (tag < BUFFERS && in_use[tag])
		tag++;
	if (tag == BUFFERS)
		return; /* no buffer is free: the device loses the packet */
	in_use[tag] = true;
	write_packet(buffer[tag], number);
	p = parse(buffer[tag], tag);
	if (maltcove_enqueue(&m, now, &p, &admitted) != MALTCOVE_OK) {
		refused++;
		give_back(tag);
	} else if (admitted.drops > 0) {
		read_drops();
	}
}

/* The link sends what waits until it is busy past that moment. A link that is free before a packet comes is served
 * first: the moments of all calls are in order. */
static void serve(uint64_t now)
{
	while (link_free <= now && maltcove_queued(&m) > 0) {
		maltcove_sent sent;
		int answer = maltcove_dequeue(&m, link_free, &sent);

		if (answer < 0)
			return;
		if (sent.drops > 0)
			read_drops();
		if (answer == MALTCOVE_IDLE)
			break;
		if (sent.mark != MALTCOVE_NO_MARK) {
			write_ecn(buffer[sent.tag], sent.ecn);
			marked += header_sum(buffer[sent.tag]) == 0xffff;
		}
		sent_count++;
		link_free += sent.len * 8 / LINK_BITS;
		give_back(sent.tag); /* once the device has sent it */
	}
	if (link_free < now)
		link_free = now;
}

/* The end: what waits is taken out, and what CoDel drops on the way is read. */
static void flush(void)
{
	maltcove_flushed flushed[8];
	int64_t n;

	while ((n = maltcove_flush(&m, flushed, 8)) > 0) {
		flushed_count += (int)n;
		for (int64_t i = 0; i < n; i++)
			give_back(flushed[i].tag);
	}
	read_drops();
}

int main(void)
{
	static const char words[] = "limit 40 drop_batch 4 target 1ms interval 20ms";
	const uint8_t seed[16] = { 1, 2, 3 }; /* random bytes, in a real program */
	maltcove_totals_t t;
	maltcove_fault fault;
	int held = 0;

	if (maltcove_open(&m, words, strlen(words), seed, 16, &fault) != MALTCOVE_OK) {
		fprintf(stderr, "'%.*s': %s\n", (int)fault.len, words + fault.offset, maltcove_fault_text(fault.kind));
		return 1;
	}
	for (int number = 0; number < PACKETS; number++) {
		uint64_t now = (uint64_t)number * 700;

		if (number == PACKETS - 10)
			maltcove_close(&m, now);
		serve(now);
		receive(now, number);
		serve(now);
	}
	flush();
	if (maltcove_totals(&m, &t) != MALTCOVE_OK)
		return 1;
	maltcove_free(&m);
	for (int tag = 0; tag < BUFFERS; tag++)
		held += in_use[tag];
	printf("%d accepted, %d refused\n", (int)t.accepted, refused);
	printf("%d sent, %d of them marked with a right checksum\n", sent_count, marked);
	printf("%d dropped by CoDel, %d by overflow, %d flushed\n", lost_codel, lost_overflow, flushed_count);
	printf("%d buffers held\n", held);
	return 0;
}
