/*
 * The mark in headers of IPv4: equation 3 of RFC 1624 gives the checksum that a full computation gives, wherever the
 * checksum was right, and what can't be marked stays as it was.
 *
 *   marks        each 251st sum of a header, for each type of service and three header lengths: a second
 *   marks all    each of the 65,536 sums: 25,165,824 headers with ECT
 *
 * The identification takes each value, and with it the sum of the other words takes each value that it can have.
 */
#include "maltcove.h"

#include <stdio.h>
#include <stdlib.h>
#include <string.h>

static uint32_t word_at(const uint8_t *at)
{
	return (uint32_t)at[0] << 8 | at[1];
}

static void write_word(uint8_t *at, uint32_t word)
{
	at[0] = (uint8_t)(word >> 8);
	at[1] = (uint8_t)word;
}

/* The checksum of a header, computed with zeros in its place (RFC 791, section 3.1). */
static uint32_t full_checksum(const uint8_t *header, size_t length)
{
	uint32_t sum = 0;

	for (size_t i = 0; i < length; i += 2)
		sum += i == 10 ? 0 : word_at(header + i);
	while (sum >> 16)
		sum = (sum & 0xffff) + (sum >> 16);
	return ~sum & 0xffff;
}

static void fail(const char *what, const uint8_t *header)
{
	fprintf(stderr, "wrong: %s: a header of type of service %02x, identification %04x, checksum %04x\n", what,
		header[1], (unsigned)word_at(header + 4), (unsigned)word_at(header + 10));
	exit(1);
}

/* Marks a header with the right checksum, and compares all of its bytes. */
static void mark_one(uint8_t *header, size_t length)
{
	uint8_t wanted[60] = { 0 };
	maltcove_where where;
	int is_ect = (header[1] & 3) == 1 || (header[1] & 3) == 2;

	memset(&where, 0, sizeof where);
	write_word(header + 10, full_checksum(header, length));
	memcpy(wanted, header, length);
	if (is_ect) {
		wanted[1] |= 3;
		write_word(wanted + 10, full_checksum(wanted, length));
	}
	if (maltcove_mark(header, length, &where) != (is_ect ? MALTCOVE_MARKED : MALTCOVE_UNMARKED))
		fail("what is answered", header);
	if (where.ecn != (is_ect ? 3 : 0))
		fail("the ECN field that is told", header);
	if (memcmp(header, wanted, length) != 0)
		fail("the bytes", header);
}

int main(int argc, char **argv)
{
	static const unsigned words[] = { 5, 6, 15 };
	unsigned step = argc > 1 && strcmp(argv[1], "all") == 0 ? 1 : 251;
	unsigned long marked = 0;

	for (size_t i = 0; i < sizeof words / sizeof *words; i++) {
		uint8_t header[60];
		size_t length = words[i] * 4;

		for (unsigned service = 0; service < 256; service++) {
			/* what can't be marked needs no such number of sums */
			unsigned by = (service & 3) == 1 || (service & 3) == 2 ? step : 251;

			for (unsigned id = 0; id < 65536; id += by) {
				for (size_t at = 0; at < length; at++)
					header[at] = (uint8_t)(at * 37);
				header[0] = (uint8_t)(0x40 | words[i]);
				header[1] = (uint8_t)service;
				write_word(header + 4, id);
				mark_one(header, length);
				marked += (header[1] & 3) == 3 && (service & 3) != 3;
			}
		}
	}
	printf("marks: %lu headers have the checksum that a full computation gives\n", marked);
	return 0;
}
