/*
 * A scheduler that goes from thread to thread: opened by one, used by others one after the other, then by two at a time
 * under a lock, and given back by another. Each tag comes back once: with its packet, as a drop, or at the flush.
 */
#include "layout.h"

#include <pthread.h>
#include <stdio.h>
#include <string.h>

enum { PACKETS = 40000 };

static maltcove scheduler;
static pthread_mutex_t lock = PTHREAD_MUTEX_INITIALIZER;
static uint64_t now_us, handed_in;
static unsigned char came_back[PACKETS];
static int failures;

static void expect(bool holds, const char *what)
{
	if (!holds) {
		fprintf(stderr, "handed_over: %s\n", what);
		failures++;
	}
}

static void comes_back(uint64_t tag)
{
	if (tag >= PACKETS || came_back[tag]++ != 0)
		expect(false, "a tag came back that wasn't out");
}

static void read_drops(void)
{
	maltcove_dropped dropped[64];
	int64_t read, i;

	while ((read = maltcove_drops(&scheduler, dropped, 64)) > 0)
		for (i = 0; i < read; i++)
			comes_back(dropped[i].tag);
	expect(read == 0, "the drops aren't read");
}

/* One packet comes. */
static void enqueue(void)
{
	maltcove_packet packet;
	maltcove_admitted admitted;

	memset(&packet, 0, sizeof packet);
	packet.tag = handed_in++;
	packet.len = 1000;
	packet.version = 4;
	packet.proto = 17;
	packet.sport = (uint16_t)(packet.tag % 100);
	expect(maltcove_enqueue(&scheduler, now_us++, &packet, &admitted) == MALTCOVE_OK, "a packet is refused");
	read_drops();
}

/* One packet goes, if one waits. */
static bool dequeue(void)
{
	maltcove_sent sent;
	int answer = maltcove_dequeue(&scheduler, now_us++, &sent);

	read_drops();
	if (answer == MALTCOVE_OK)
		comes_back(sent.tag);
	else
		expect(answer == MALTCOVE_IDLE, "a dequeue is refused");
	return answer == MALTCOVE_OK;
}

static void *fill(void *none)
{
	while (handed_in < 500)
		enqueue();
	return none;
}

static void *take_some(void *none)
{
	int taken;

	for (taken = 0; taken < 200; taken++)
		expect(dequeue(), "no packet waits");
	return none;
}

static void *enqueue_the_rest(void *none)
{
	bool ended = false;

	while (!ended) {
		pthread_mutex_lock(&lock);
		if (handed_in < PACKETS)
			enqueue();
		else
			ended = true;
		pthread_mutex_unlock(&lock);
	}
	return none;
}

static void *dequeue_often(void *none)
{
	int calls;

	for (calls = 0; calls < PACKETS / 2; calls++) {
		pthread_mutex_lock(&lock);
		dequeue();
		pthread_mutex_unlock(&lock);
	}
	return none;
}

static void *flush_and_free(void *none)
{
	maltcove_flushed flushed[64];
	int64_t many, i;

	while ((many = maltcove_flush(&scheduler, flushed, 64)) > 0)
		for (i = 0; i < many; i++)
			comes_back(flushed[i].tag);
	expect(many == 0 && maltcove_queued(&scheduler) == 0, "a packet still waits");
	maltcove_free(&scheduler);
	return none;
}

/* A thread does that, and has ended. */
static void by_another(void *(*part)(void *))
{
	pthread_t thread;

	expect(pthread_create(&thread, NULL, part, NULL) == 0 && pthread_join(thread, NULL) == 0, "no thread");
}

int main(void)
{
	static const char words[] = "limit 1000 flows 64 drop_batch 8";
	static const uint8_t seed[16] = { 0 };
	maltcove_fault fault;
	pthread_t sender, device;
	int tag;

	expect(maltcove_open(&scheduler, words, strlen(words), seed, sizeof seed, &fault) == MALTCOVE_OK, "it isn't opened");
	by_another(fill);
	by_another(take_some);
	expect(maltcove_queued(&scheduler) == 300, "300 packets don't wait");
	expect(pthread_create(&sender, NULL, enqueue_the_rest, NULL) == 0, "no thread");
	expect(pthread_create(&device, NULL, dequeue_often, NULL) == 0, "no thread");
	pthread_join(sender, NULL);
	pthread_join(device, NULL);
	by_another(flush_and_free);
	for (tag = 0; tag < PACKETS; tag++)
		if (came_back[tag] != 1)
			expect(false, "a tag didn't come back");
	if (failures == 0)
		puts("handed_over: a scheduler went from thread to thread, and each tag came back once");
	return failures != 0;
}
