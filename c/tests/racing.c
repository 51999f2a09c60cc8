/*
 * A program that breaks the rule of one call at a time: a thread enqueues, and another reads totals, with nothing that
 * orders the two calls. Built with the thread sanitizer, guard.c too, it has to be reported. The calls don't overlap in
 * fact, as the second comes half a second later. So the program itself ends well, with or without the sanitizer.
 */
#define _POSIX_C_SOURCE 200809L
#include "layout.h"

#include <pthread.h>
#include <stdio.h>
#include <string.h>
#include <time.h>

static maltcove scheduler;

static void *enqueue(void *none)
{
	maltcove_packet packet;
	maltcove_admitted admitted;

	memset(&packet, 0, sizeof packet);
	packet.len = 1000;
	packet.version = 4;
	if (maltcove_enqueue(&scheduler, 1, &packet, &admitted) != MALTCOVE_OK)
		fputs("racing: a packet is refused\n", stderr);
	return none;
}

static void *read_totals(void *none)
{
	const struct timespec half_a_second = { 0, 500000000 };
	maltcove_totals_t totals;

	nanosleep(&half_a_second, NULL);
	if (maltcove_totals(&scheduler, &totals) != MALTCOVE_OK || totals.accepted != 1)
		fputs("racing: the totals are wrong\n", stderr);
	return none;
}

int main(void)
{
	static const uint8_t seed[16] = { 0 };
	pthread_t one, other;

	if (maltcove_open(&scheduler, "", 0, seed, sizeof seed, NULL) != MALTCOVE_OK)
		return 1;
	if (pthread_create(&other, NULL, read_totals, NULL) != 0 || pthread_create(&one, NULL, enqueue, NULL) != 0)
		return 1;
	pthread_join(one, NULL);
	pthread_join(other, NULL);
	maltcove_free(&scheduler);
	puts("racing: two calls with nothing between them");
	return 0;
}
