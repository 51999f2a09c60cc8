/*
 * Nanoseconds of maltcove_parse and maltcove_mark on a packet of TCP over IPv4, of maltcove_find on its frame of
 * Ethernet, and of a round of one enqueue and one dequeue: the workload `one` of bench.c, in which ten packets of one
 * flow wait. All are timed by turns, and the least of all turns counts.
 *
 *     parse [TURNS]      51 turns where no number is given
 *
 * Build it by `cc -O2 -Ic c/bench/parse.c c/build/libmaltcove.a`.
 */
#define _POSIX_C_SOURCE 199309L
#include "maltcove.h"

#include <stdio.h>
#include <stdlib.h>
#include <string.h>
#include <time.h>

enum { CALLS = 200000, WAITING = 10, HEADER = 14, LENGTH = 1000, KINDS = 5 };

static const char *const names[KINDS] = { "find", "parse", "mark", "round by five-tuple", "round by flow" };
static uint8_t frame[HEADER + LENGTH];
static volatile uint64_t kept;

static double wall_ns(void)
{
	struct timespec t;

	clock_gettime(CLOCK_MONOTONIC, &t);
	return (double)t.tv_sec * 1e9 + (double)t.tv_nsec;
}

/* TCP from 10.0.0.1:5000 to 10.0.0.2:443, ECT(0). */
static void write_frame(void)
{
	static const uint8_t headers[] = {
		2, 0, 0, 0, 0, 1, 2, 0, 0, 0, 0, 2, 8, 0,
		0x45, 2, LENGTH >> 8, LENGTH & 255, 0, 0, 0x40, 0, 64, 6, 0, 0, 10, 0, 0, 1, 10, 0, 0, 2,
		0x13, 0x88, 1, 0xbb,
	};

	memcpy(frame, headers, sizeof headers);
}

static void must(bool right, const char *what)
{
	if (!right) {
		fprintf(stderr, "parse: %s\n", what);
		exit(2);
	}
}

static double time_find(void)
{
	maltcove_found found;
	double start = wall_ns();

	for (int i = 0; i < CALLS; i++) {
		must(maltcove_find(frame, sizeof frame, 1, &found) == MALTCOVE_FINE, "the frame isn't fine");
		kept += found.offset;
	}
	return (wall_ns() - start) / CALLS;
}

static double time_parse(void)
{
	maltcove_packet packet;
	maltcove_where where;
	double start = wall_ns();

	for (int i = 0; i < CALLS; i++) {
		must(maltcove_parse(frame + HEADER, LENGTH, LENGTH, 0x0800, &packet, &where) == MALTCOVE_FINE,
		     "the packet isn't fine");
		kept += packet.dport + where.transport;
	}
	return (wall_ns() - start) / CALLS;
}

static double time_mark(void)
{
	double start = wall_ns();

	for (int i = 0; i < CALLS; i++) {
		frame[HEADER + 1] = 2;
		must(maltcove_mark(frame + HEADER, LENGTH, NULL) == MALTCOVE_MARKED, "the packet wasn't marked");
	}
	frame[HEADER + 1] = 2;
	return (wall_ns() - start) / CALLS;
}

static double time_rounds(bool by_tuple)
{
	static const char words[] = "target 5ms interval 100ms flows 1024 quantum 1514 limit 10240 noecn";
	static const char by_flow[] = " classify dport";
	static const uint8_t seed[16] = { 1 };
	char all[128];
	maltcove m = MALTCOVE_INIT;
	maltcove_packet packet;
	maltcove_where where;
	maltcove_admitted admitted;
	maltcove_sent sent;
	uint64_t moment = 0;
	double start = 0;

	snprintf(all, sizeof all, "%s%s", words, by_tuple ? "" : by_flow);
	must(maltcove_open(&m, all, strlen(all), seed, 16, NULL) == MALTCOVE_OK, "no scheduler");
	packet.tag = 1;
	maltcove_parse(frame + HEADER, LENGTH, LENGTH, 0x0800, &packet, &where);
	for (int i = 0; i < WAITING + CALLS; i++) {
		if (i == WAITING)
			start = wall_ns();
		moment++;
		must((by_tuple ? maltcove_enqueue(&m, moment, &packet, &admitted)
			       : maltcove_enqueue_flow(&m, moment, 0, LENGTH, 0, 1, &admitted)) == MALTCOVE_OK,
		     "an enqueue failed");
		if (i >= WAITING)
			must(maltcove_dequeue(&m, moment, &sent) == MALTCOVE_OK, "a dequeue failed");
	}
	start = (wall_ns() - start) / CALLS;
	maltcove_free(&m);
	return start;
}

int main(int argc, char **argv)
{
	int turns = argc > 1 ? atoi(argv[1]) : 51;
	double best[KINDS];

	must(turns > 0, "TURNS is a number from 1 on");
	write_frame();
	for (int turn = 0; turn < turns; turn++) {
		double now[KINDS];

		now[0] = time_find();
		now[1] = time_parse();
		now[2] = time_mark();
		now[3] = time_rounds(true);
		now[4] = time_rounds(false);
		for (int k = 0; k < KINDS; k++)
			if (turn == 0 || now[k] < best[k])
				best[k] = now[k];
	}
	for (int k = 0; k < KINDS; k++)
		printf("%-20s %6.1f ns\n", names[k], best[k]);
	printf("a parse is %.2f of a round by five-tuple, and %.2f of one by flow\n", best[1] / best[3],
	       best[1] / best[4]);
	return 0;
}
