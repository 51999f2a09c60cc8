/*
 * check.h: what the tests share: a condition that has to hold, numbers that look random, and packets.
 */
#ifndef SHAPE_CHECK_H
#define SHAPE_CHECK_H

#include <stdint.h>
#include <stdio.h>
#include <stdlib.h>

#include <maltcove.h>
#include <stdbool.h>
#include <string.h>

/* Prints where a condition doesn't hold, and ends the test. */
#define CHECK(condition) \
	do { \
		if (!(condition)) { \
			printf("%s:%d: not so: %s\n", __FILE__, __LINE__, #condition); \
			exit(1); \
		} \
	} while (0)

/* The next number of a sequence (splitmix64, by Sebastiano Vigna). Any state is a seed. */
static inline uint64_t next_random(uint64_t *state)
{
	uint64_t z = *state += 0x9e3779b97f4a7c15;

	z = (z ^ z >> 30) * 0xbf58476d1ce4e5b9;
	z = (z ^ z >> 27) * 0x94d049bb133111eb;
	return z ^ z >> 31;
}

/* A number from 0 on, below `bound`. */
static inline uint32_t random_below(uint64_t *state, uint32_t bound)
{
	return (uint32_t)(next_random(state) >> 32) % bound;
}

/* Reads a packet as the program does. Answers the verdict. */
static inline int parse(const uint8_t *bytes, size_t count, maltcove_packet *packet)
{
	maltcove_where where;

	packet->tag = 0;
	return maltcove_parse(bytes, count, count, 0, packet, &where);
}

/* Whether two packets say the same. Bytes between their fields may differ. */
static inline bool is_same(const maltcove_packet *a, const maltcove_packet *b)
{
	return a->tag == b->tag && a->len == b->len && a->sport == b->sport && a->dport == b->dport &&
	       a->proto == b->proto && a->ecn == b->ecn && a->version == b->version &&
	       memcmp(a->src, b->src, sizeof a->src) == 0 && memcmp(a->dst, b->dst, sizeof a->dst) == 0;
}

/* Extension headers and options that a packet can have besides. */
enum extras {
	WITH_OPTIONS = 1,     /* of IPv4, 8 bytes */
	WITH_HOP_BY_HOP = 1,  /* of IPv6, 8 bytes */
	WITH_ROUTING = 2,     /* 24 bytes */
	WITH_FRAGMENT = 4,    /* 8 bytes, of a packet in one piece */
	WITH_AUTHENTICATION = 8, /* 16 bytes */
	WITH_DESTINATION = 16, /* 8 bytes */
	ALL_EXTRAS = 31
};

/* Writes a packet of view->len bytes whose headers say what the view says, with those extras that it has room for.
 * Answers false where not even the header and the ports have room. */
int build_packet(uint8_t *bytes, const maltcove_packet *view, unsigned extras);

/* The sum of an IPv4 header with its checksum, which is 0xffff where the checksum is right (RFC 1071). */
uint16_t header_sum(const uint8_t *bytes);

#endif
