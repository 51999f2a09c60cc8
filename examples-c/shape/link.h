/*
 * link.h: a link of some rate, which sends one packet after another. Its time is exact, so it doesn't drift.
 */
#ifndef SHAPE_LINK_H
#define SHAPE_LINK_H

#include <stdbool.h>
#include <stddef.h>
#include <stdint.h>

struct link {
	uint64_t rate;   /* bits a second, 1000 to 10^12 */
	uint64_t free_at; /* nanoseconds: when it has sent the last packet */
	uint64_t rest;   /* and so much more, in units of 1/rate nanoseconds: fewer than rate */
	bool is_idle;    /* nothing was there to send when it got free */
};

/* Reads a rate as tc(8) writes it, as 20mbit or 1250kbps. Answers whether it is one, of 1000bit to 1tbit. */
bool link_read_rate(const char *text, uint64_t *rate);

/* Reads a time as 10ms: digits and us, ms, s or nothing, which is microseconds. Answers whether it is one, up to 1000s.
 */
bool link_read_time(const char *text, uint64_t *nanoseconds);

/* A link that is idle. */
void link_open(struct link *link, uint64_t rate);

/* The link is idle, and from now on it isn't. */
void link_wake(struct link *link, uint64_t now);

/* The link sends a packet of so many bytes, from the moment on at which it got free. */
void link_send(struct link *link, uint32_t len);

/*
 * How many packets the link starts up to now, whatever their lengths are, of `longest` bytes at most: 0 where it is
 * busy or idle. So many can be asked for at once, as the program wakes late.
 */
size_t link_room(const struct link *link, uint64_t now, uint32_t longest);

#endif
