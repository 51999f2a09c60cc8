/*
 * pcap.h: files of raw IP packets, in the old form of pcap, with moments in microseconds, in the host's byte order.
 */
#ifndef SHAPE_PCAP_H
#define SHAPE_PCAP_H

#include <stdint.h>
#include <stdio.h>

enum { PCAP_MOST_BYTES = 65535 };

static inline void pcap_write_head(FILE *file)
{
	const struct {
		uint32_t magic;
		uint16_t major, minor;
		uint32_t zone, accuracy, most, kind;
	} head = { 0xa1b2c3d4, 2, 4, 0, 0, PCAP_MOST_BYTES, 101 };

	fwrite(&head, sizeof head, 1, file);
}

/* Answers whether the file begins as such a file does. */
static inline int pcap_read_head(FILE *file)
{
	uint32_t head[6];

	return fread(head, sizeof head, 1, file) == 1 && head[0] == 0xa1b2c3d4 && head[5] == 101;
}

static inline void pcap_write_packet(FILE *file, unsigned long long moment, const uint8_t *bytes, uint32_t count)
{
	const uint32_t head[4] = { (uint32_t)(moment / 1000000), (uint32_t)(moment % 1000000), count, count };

	fwrite(head, sizeof head, 1, file);
	fwrite(bytes, 1, count, file);
}

/* Reads a packet: its moment in microseconds, and as many of its bytes as there is room for. Answers whether there was
 * one, with -1 where the file ends within it. */
static inline int pcap_read_packet(FILE *file, uint64_t *moment, uint8_t *bytes, uint32_t room, uint32_t *count)
{
	uint32_t head[4];
	size_t got = fread(head, 1, sizeof head, file);

	if (got != sizeof head)
		return got == 0 ? 0 : -1;
	*moment = (uint64_t)head[0] * 1000000 + head[1];
	*count = head[2] < room ? head[2] : room;
	if (fread(bytes, 1, *count, file) != *count)
		return -1;
	for (uint32_t left = head[2] - *count; left > 0; left--)
		if (getc(file) == EOF)
			return -1;
	return 1;
}

#endif
