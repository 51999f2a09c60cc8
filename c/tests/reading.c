/*
 * No call but maltcove_open and maltcove_free writes the struct of a scheduler: it lies on a page that can't be
 * written while they are made. A call that took the scheduler out and put it back would end the program by a signal.
 * Under a sanitizer guard.c writes a byte of the struct in each call that changes the scheduler. So only the calls that
 * look are made there.
 */
#define _DEFAULT_SOURCE
#include "layout.h"

#include <stdio.h>
#include <stdlib.h>
#include <string.h>
#include <sys/mman.h>

#if defined __SANITIZE_THREAD__ || defined __SANITIZE_ADDRESS__ || defined MALTCOVE_CHECK
#define GUARD_WRITES 1
#elif defined __has_feature
#if __has_feature(thread_sanitizer) || __has_feature(address_sanitizer)
#define GUARD_WRITES 1
#endif
#endif

enum { BYTES = 4096 };

static void check_at(bool right, const char *what, int line)
{
	if (!right) {
		fprintf(stderr, "reading.c:%d: wrong: %s\n", line, what);
		exit(1);
	}
}
#define CHECK(what) check_at(what, #what, __LINE__)

/* Each call that looks, on a scheduler that has accepted so many packets, or on none. */
static void look(maltcove *m, bool open, uint64_t packets)
{
	maltcove_totals_t totals;
	maltcove_flow_t view;
	maltcove_params_t params;
	int answer = open ? MALTCOVE_OK : MALTCOVE_NOT_OPEN;

	memset(&totals, 0, sizeof totals);
	memset(&view, 0, sizeof view);
	memset(&params, 0, sizeof params);
	CHECK(maltcove_totals(m, &totals) == answer && totals.accepted == packets);
	CHECK(maltcove_queued(m) == (open ? (int64_t)packets : answer));
	CHECK(maltcove_flow(m, 1, &view) == answer && view.queued == packets);
	CHECK(maltcove_flow(m, 4, &view) == (open ? MALTCOVE_BAD_FLOW : answer));
	CHECK(maltcove_params(m, &params) == answer && params.flows == (open ? 4u : 0u));
	CHECK(maltcove_is_closed(m) == (open ? 0 : answer));
}

#ifndef GUARD_WRITES
/* Each call that changes a scheduler in which packets 0 to 2 wait, or none. The last one closes it. */
static void change(maltcove *m, bool open)
{
	maltcove_packet packet;
	maltcove_admitted admitted;
	maltcove_sent sent;
	maltcove_dropped dropped;
	maltcove_flushed flushed;
	int answer = open ? MALTCOVE_OK : MALTCOVE_NOT_OPEN;

	memset(&packet, 0, sizeof packet);
	packet.version = 4;
	packet.len = 100;
	packet.tag = 3;
	CHECK(maltcove_enqueue(m, 0, &packet, &admitted) == answer);
	CHECK(maltcove_enqueue_flow(m, 0, 2, 100, 0, 4, &admitted) == answer);
	CHECK(maltcove_dequeue(m, 0, &sent) == answer);
	CHECK(maltcove_dequeue_burst(m, 0, &sent, 1) == (open ? 1 : answer));
	CHECK(maltcove_drops(m, &dropped, 1) == (open ? 0 : answer));
	CHECK(maltcove_flush(m, &flushed, 1) == (open ? 1 : answer));
	CHECK(maltcove_queued(m) == (open ? 2 : answer));
	CHECK(maltcove_close(m, 0) == answer);
}
#endif

int main(void)
{
	static const char words[] = "flows 4 classify dport";
	static const uint8_t seed[16] = { 0 };
	maltcove_admitted admitted;
	void *page = mmap(NULL, BYTES, PROT_READ | PROT_WRITE, MAP_PRIVATE | MAP_ANONYMOUS, -1, 0);
	maltcove *m = (maltcove *)page;

	CHECK(page != MAP_FAILED);
	CHECK(mprotect(page, BYTES, PROT_READ) == 0);
	look(m, false, 0);
#ifndef GUARD_WRITES
	change(m, false);
#endif
	CHECK(mprotect(page, BYTES, PROT_READ | PROT_WRITE) == 0);
	CHECK(maltcove_open(m, words, strlen(words), seed, 16, NULL) == MALTCOVE_OK);
	for (uint64_t tag = 0; tag < 3; tag++)
		CHECK(maltcove_enqueue_flow(m, 0, 1, 100, 0, tag, &admitted) == MALTCOVE_OK);
	CHECK(mprotect(page, BYTES, PROT_READ) == 0);
	look(m, true, 3);
#ifndef GUARD_WRITES
	change(m, true);
#endif
	CHECK(mprotect(page, BYTES, PROT_READ | PROT_WRITE) == 0);
	maltcove_free(m);
	CHECK(munmap(page, BYTES) == 0);
	puts("reading: no call but open and free writes the struct");
	return 0;
}
