/*
 * A scheduler per thread, and its statistics shown by another thread. No call is made on a scheduler but by the thread
 * that owns it, maltcove_totals neither: the owner copies its totals to where the others may read them, under a lock.
 */
#define _POSIX_C_SOURCE 200809L
#include <maltcove.h>
#include <pthread.h>
#include <stdio.h>
#include <string.h>
#include <time.h>

enum { WORKERS = 3, PACKETS = 3000, BURST = 32 };

struct worker {
	maltcove m;
	pthread_mutex_t lock;
	maltcove_totals_t shown; /* a copy of the totals, under the lock */
	bool ended;              /* no more comes; under the lock */
};

static struct worker workers[WORKERS]; /* all bytes 0, as MALTCOVE_INIT: no scheduler is open */

/* The owner copies its totals. */
static void show(struct worker *w, bool ended)
{
	maltcove_totals_t totals;

	memset(&totals, 0, sizeof totals);
	maltcove_totals(&w->m, &totals); /* it leaves them as they are where none is open */
	pthread_mutex_lock(&w->lock);
	w->shown = totals;
	w->ended = ended;
	pthread_mutex_unlock(&w->lock);
}

/* Packets come and go in bursts. A queue of a network card stands behind each worker in a real program. */
static void *work(void *argument)
{
	struct worker *w = (struct worker *)argument;
	const uint8_t seed[16] = { 1, 2, 3 }; /* random bytes, in a real program */
	maltcove_sent sent[BURST];
	maltcove_admitted admitted;
	maltcove_dropped lost;
	maltcove_packet p;
	uint64_t tag = 0;

	if (maltcove_open(&w->m, "limit 1000", 10, seed, 16, NULL) != MALTCOVE_OK)
		tag = PACKETS;
	memset(&p, 0, sizeof p);
	p.len = 1000, p.proto = 17, p.version = 4;
	while (tag < PACKETS) {
		for (int i = 0; i < BURST && tag < PACKETS; i++) {
			p.tag = tag++;
			p.sport = (uint16_t)(p.tag % 100);
			if (maltcove_enqueue(&w->m, tag, &p, &admitted) != MALTCOVE_OK)
				break; /* a real program frees the buffer of a refused packet */
			while (admitted.drops > 0 && maltcove_drops(&w->m, &lost, 1) > 0)
				;
		}
		maltcove_dequeue_burst(&w->m, tag, sent, BURST);
		while (maltcove_drops(&w->m, &lost, 1) > 0)
			;
		show(w, false);
	}
	show(w, true);
	maltcove_free(&w->m);
	return NULL;
}

/* The sums over all workers, from their copies. Whether all have ended. */
static bool sums(uint64_t *accepted, uint64_t *sent)
{
	bool ended = true;

	*accepted = *sent = 0;
	for (int i = 0; i < WORKERS; i++) {
		pthread_mutex_lock(&workers[i].lock);
		*accepted += workers[i].shown.accepted;
		*sent += workers[i].shown.sent;
		ended = ended && workers[i].ended;
		pthread_mutex_unlock(&workers[i].lock);
	}
	return ended;
}

int main(void)
{
	const struct timespec a_while = { 0, 1000000 };
	pthread_t threads[WORKERS];
	uint64_t accepted, sent;

	for (int i = 0; i < WORKERS; i++) {
		pthread_mutex_init(&workers[i].lock, NULL);
		if (pthread_create(&threads[i], NULL, work, &workers[i]) != 0)
			return 1;
	}
	while (!sums(&accepted, &sent))
		nanosleep(&a_while, NULL);
	for (int i = 0; i < WORKERS; i++)
		pthread_join(threads[i], NULL);
	printf("%d schedulers: %d packets accepted, %d sent\n", WORKERS, (int)accepted, (int)sent);
	return 0;
}
