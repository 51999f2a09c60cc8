/*
 * fuzz.c: packets of random bytes, and packets that were right before they were spoilt or cut off. Each stands in a
 * block of just its size, so that a sanitizer sees a byte that is read past it.
 *
 *   fuzz [COUNT [SEED]]
 */
#include <string.h>

#include "check.h"

enum { LONGEST = 1600 };

static maltcove_packet random_view(uint64_t *state)
{
	static const uint8_t protos[] = { 6, 17, 1, 58, 50, 132 };
	maltcove_packet view = { 0 };

	view.version = random_below(state, 2) ? 4 : 6;
	view.proto = protos[random_below(state, sizeof protos)];
	view.ecn = (uint8_t)random_below(state, 4);
	view.len = 44 + random_below(state, LONGEST - 44);
	view.sport = (uint16_t)random_below(state, 65536);
	view.dport = (uint16_t)random_below(state, 65536);
	for (int i = 0; i < (view.version == 4 ? 4 : 16); i++) {
		view.src[i] = (uint8_t)random_below(state, 256);
		view.dst[i] = (uint8_t)random_below(state, 256);
	}
	if (view.proto != 6 && view.proto != 17 && view.proto != 132)
		view.sport = view.dport = 0;
	return view;
}

/* Marks a packet, and compares what is read before and after. */
static void mark_and_compare(uint8_t *bytes, size_t count, const maltcove_packet *before)
{
	maltcove_packet after, wanted = *before;
	uint16_t sum = before->version == 4 ? header_sum(bytes) : 0;
	bool is_ect = before->ecn == 1 || before->ecn == 2;

	CHECK(maltcove_mark(bytes, count, NULL) == (is_ect ? MALTCOVE_MARKED : MALTCOVE_UNMARKED));
	CHECK(parse(bytes, count, &after) == MALTCOVE_FINE);
	if (is_ect)
		wanted.ecn = 3;
	CHECK(is_same(&after, &wanted));
	/* a right sum stays right, and so does a wrong one, but for the two forms of 0 */
	if (before->version == 4)
		CHECK(header_sum(bytes) % 0xffff == sum % 0xffff);
}

/* Spoils some bytes, most of them in the headers. */
static void spoil(uint64_t *state, uint8_t *bytes, uint32_t count)
{
	for (uint32_t n = 1 + random_below(state, 4); n > 0; n--) {
		uint32_t front = random_below(state, 2) && count > 100 ? 100 : count;

		bytes[random_below(state, front)] = (uint8_t)random_below(state, 256);
	}
}

/* Reads a packet in a block of just its size. Answers whether it was found fine. */
static int read_alone(const uint8_t *bytes, uint32_t count)
{
	uint8_t *block = malloc(count > 0 ? count : 1);
	maltcove_packet view;
	int is_fine;

	CHECK(block != NULL);
	memcpy(block, bytes, count);
	is_fine = parse(block, count, &view) == MALTCOVE_FINE;
	if (is_fine) {
		CHECK(view.len <= count && (view.version == 4 || view.version == 6) && view.ecn <= 3);
		mark_and_compare(block, count, &view);
	}
	free(block);
	return is_fine;
}

int main(int argc, char **argv)
{
	uint64_t count = argc > 1 ? strtoull(argv[1], NULL, 10) : 1000000;
	uint64_t state = argc > 2 ? strtoull(argv[2], NULL, 10) : 1;
	uint64_t fine = 0;
	uint8_t bytes[LONGEST];

	for (uint64_t i = 0; i < count; i++) {
		maltcove_packet view = random_view(&state), read;
		uint32_t length = view.len;

		CHECK(build_packet(bytes, &view, random_below(&state, ALL_EXTRAS + 1)));
		CHECK(parse(bytes, length, &read) == MALTCOVE_FINE);
		CHECK(is_same(&read, &view));
		switch (random_below(&state, 4)) {
		case 0: /* random bytes after the version */
			length = random_below(&state, 200);
			for (uint32_t k = 1; k < length; k++)
				bytes[k] = (uint8_t)random_below(&state, 256);
			break;
		case 1:
			length = random_below(&state, length);
			break;
		case 2:
			spoil(&state, bytes, length);
			break;
		default:
			spoil(&state, bytes, length);
			length = random_below(&state, length);
		}
		fine += (uint64_t)read_alone(bytes, length);
	}
	CHECK(fine > count / 20 && fine < count - count / 20);
	printf("fuzz: %llu packets, %llu of them fine\n", (unsigned long long)count, (unsigned long long)fine);
	return 0;
}
