/*
 * maltcove.h: a packet scheduler by FQ-CoDel (RFC 8290), for C11 and C++17.
 *
 * A scheduler decides which packet goes next, which one is dropped and which one is marked. It holds no packet: the
 * caller has the buffers, and gives each packet a tag of 64 bits, as the address of its buffer. Each tag that is
 * accepted comes back once: as sent (maltcove_dequeue), as dropped (maltcove_drops) or as flushed (maltcove_flush). The
 * tag of a packet that is refused stays the caller's, who frees its buffer or tries again.
 *
 *     maltcove m = MALTCOVE_INIT;
 *     maltcove_open(&m, "flows 1024", 10, seed, 16, NULL);
 *     maltcove_enqueue(&m, now, &packet, &admitted);      not MALTCOVE_OK: the buffer is still the caller's
 *                                                         then maltcove_drops, where admitted.drops > 0
 *     maltcove_dequeue(&m, now, &sent);                   then maltcove_drops, where sent.drops > 0
 *     maltcove_flush(&m, flushed, 64);                    until it answers 0, then maltcove_drops
 *     maltcove_free(&m);
 *
 * Where packets are bytes, maltcove_find and maltcove_parse fill the packet that maltcove_enqueue takes, and
 * maltcove_mark writes the mark after maltcove_dequeue. They need no scheduler.
 *
 * examples/loop.c is the whole loop of a router, and examples/threads.c has a scheduler per thread.
 *
 * Link with -lmaltcove. The library needs malloc, realloc, free, memcpy, memmove and memset, and nothing else.
 *
 * Answers. A call answers MALTCOVE_OK, or a count from 0 on, or a negative number of the list below. After a negative
 * one nothing has changed: neither the scheduler nor what the other pointers point to, but for the fault of
 * maltcove_open, and for the records that maltcove_parse and maltcove_find fill.
 *
 * Units. Moments are whole microseconds below 2^60, of a clock that the caller chooses. Lengths are bytes. With
 * nanoseconds in place of microseconds every wait looks a thousand times as long. A flow of which some packets always
 * wait then has nearly all of them marked or dropped.
 *
 * Clocks. A moment may equal the last one, and must not be before it: else the answer is MALTCOVE_BACKWARDS. So use a
 * clock that doesn't step back, as CLOCK_MONOTONIC. After one moment far in the future all later calls are refused as
 * MALTCOVE_BACKWARDS until that moment comes. Where moments come from the clocks of several processors, which may
 * differ by a little, pass the later of the moment and the last one that was passed.
 *
 * The link. Make the calls in the order of their moments. Where the link becomes free before the next packet comes, or
 * at the same moment, call maltcove_dequeue for it first.
 *
 * Owners. The caller owns the struct maltcove, and the library owns its 16 bytes: no one else may copy or change them
 * while the scheduler is open. The library keeps no pointer that is passed to a call.
 *
 * Cache lines. No call writes these bytes but maltcove_open and maltcove_free. So the handles of several threads may be
 * neighbours in an array.
 *
 * Memory. maltcove_open takes all memory, and no other call takes any but an enqueue at a renewal, once in 2^39 packets
 * at most (see maltcove_enqueue). maltcove_free gives it back. heap.c has the three functions that the library takes
 * memory by; a program that defines all three itself replaces them.
 *
 * Threads. A scheduler may go from thread to thread, one call at a time: the caller orders the calls, by a lock or by a
 * thread's start or end. Calls that only look are calls, too: maltcove_totals, maltcove_queued, maltcove_flow,
 * maltcove_params and maltcove_is_closed. Beside a call that changes the scheduler they lose nothing, but they may read
 * numbers that don't belong together, or end the program. Two calls at once that change a scheduler may leave it in any
 * state. To show statistics on another thread, let the owner copy them (examples/threads.c). A call takes and gives
 * back memory on the thread that makes it. Two schedulers share nothing, so each thread may have its own. No call may
 * come from a signal handler.
 */
#ifndef MALTCOVE_H
#define MALTCOVE_H

#include <stdbool.h>
#include <stddef.h>
#include <stdint.h>

#ifdef __cplusplus
extern "C" {
#endif

#define MALTCOVE_VERSION_MAJOR 0
#define MALTCOVE_VERSION_MINOR 1
#define MALTCOVE_VERSION_PATCH 0
#define MALTCOVE_VERSION "0.1.0"

/* A scheduler, or none. All bytes 0 are none. The fields are the library's own. */
typedef struct maltcove {
	void *inner;
	bool is_open;
} maltcove;

#define MALTCOVE_INIT { NULL, false }

/* What the calls return. */
enum {
	MALTCOVE_OK = 0,            /* success */
	MALTCOVE_IDLE = 1,          /* success, but no packet is waiting */
	MALTCOVE_NOT_OPEN = -1,     /* there is no scheduler, or the struct was never MALTCOVE_INIT */
	MALTCOVE_TOO_LARGE = -2,    /* the time is 2^60 microseconds or more */
	MALTCOVE_BACKWARDS = -3,    /* the time is before that of the last successful call */
	MALTCOVE_CLOSED = -4,       /* the scheduler is closed */
	MALTCOVE_EXHAUSTED = -5,    /* out of packet ids: see maltcove_enqueue */
	MALTCOVE_MEMORY = -6,       /* out of memory */
	MALTCOVE_BAD_PACKET = -7,   /* len, ecn or version of the packet is out of its range */
	MALTCOVE_BAD_WORDS = -8,    /* a parameter is wrong: the fault says which word and why */
	MALTCOVE_UNREAD = -9,       /* drops of earlier calls were not read: see maltcove_drops */
	MALTCOVE_ALREADY_OPEN = -10, /* there is a scheduler, or the struct was never MALTCOVE_INIT */
	MALTCOVE_BAD_SEED = -11,    /* the seed is not 16 bytes long */
	MALTCOVE_BAD_FLOW = -12,    /* there is no flow of that number */
	MALTCOVE_HASHED = -13,      /* the scheduler finds the flow: to choose it, open with the words classify dport */
	MALTCOVE_NULL = -14         /* a pointer is null */
};

/* What bytes are found to be: the first rule that they break. maltcove_parse and maltcove_find return these, and no
 * other call does. */
enum {
	MALTCOVE_FINE = 0,          /* they break none */
	MALTCOVE_SHORT = -20,       /* fewer on the wire than the fixed header has: 20 of IPv4, 40 of IPv6 */
	MALTCOVE_NOT_IP = -21,      /* neither IPv4 nor IPv6, or another version than the ethertype says */
	MALTCOVE_BAD_IHL = -22,     /* the header length of IPv4 is below 5 words (RFC 791, section 3.1) */
	MALTCOVE_BAD_LENGTH = -23,  /* the total length of IPv4 is below the header's, as the 0 of a sender's own capture */
	MALTCOVE_OVERRUN = -24,     /* the packet says that it is longer than what came on the wire */
	MALTCOVE_BAD_CHAIN = -25,   /* an extension header of IPv6 passes the packet's end */
	MALTCOVE_TOO_LONG = -26,    /* longer than 65535 bytes: a jumbogram of IPv6 (RFC 2675), too */
	MALTCOVE_BAD_JUMBO = -27,   /* the payload length of IPv6 is left to an option that is not there or says too little */
	MALTCOVE_CUT = -28,         /* the captured bytes end inside a header that says where the next one begins */
	MALTCOVE_UNKNOWN_LINK = -29 /* no link type that is known here has that number */
};

/* What maltcove_mark returns. */
enum {
	MALTCOVE_UNMARKED = 0,      /* nothing was written */
	MALTCOVE_MARKED = 1         /* the field is CE now */
};

/* What maltcove_parse_as puts in place of the ports: one of these, or the sum of both. */
enum {
	MALTCOVE_ESP_SPI = 1,       /* ESP's index of security parameters (RFC 4303), its high half as the source port */
	MALTCOVE_FLOW_LABEL = 2     /* a flow label of IPv6 that is not 0 (RFC 6437), its high four bits as the source port */
};

/* What is wrong with a parameter word. */
enum {
	MALTCOVE_WORDS_FINE = 0,
	MALTCOVE_UNKNOWN_WORD = 1,  /* the word names no parameter, or no way to classify */
	MALTCOVE_MISSING_VALUE = 2, /* no value stands after the parameter */
	MALTCOVE_NOT_A_NUMBER = 3,  /* the value is not a number or a time */
	MALTCOVE_OUT_OF_RANGE = 4,  /* the value is out of range */
	MALTCOVE_NOT_UTF8 = 5       /* the text is not UTF-8; no place is named */
};

/* Which parameter word is wrong, and where it stands in the text of the words. All are 0 where no word is named. */
typedef struct maltcove_fault {
	uint64_t place;             /* which word it is, from 1 */
	int32_t kind;               /* MALTCOVE_UNKNOWN_WORD and so on */
	uint64_t offset, len;       /* its bytes: the first is words[offset], and there are len of them */
} maltcove_fault;

/* A packet that comes. */
typedef struct maltcove_packet {
	uint64_t tag;               /* what the caller knows it by: any number */
	uint32_t len;               /* bytes, 1 to 65535 */
	uint16_t sport, dport;      /* ports in the host's byte order; 0 where the protocol has none */
	uint8_t src[16], dst[16];   /* addresses in the network's byte order; of IPv4 the first four bytes */
	uint8_t proto;              /* the protocol's number, as 6 for TCP and 17 for UDP */
	uint8_t ecn;                /* the two bits of ECN, 0 to 3 (RFC 3168): 1 and 2 can be marked */
	uint8_t version;            /* of IP, 4 or 6 */
} maltcove_packet;

/* Which part of a datagram a packet is (RFC 791, section 3.2; RFC 8200, section 4.5). */
enum {
	MALTCOVE_WHOLE = 0,
	MALTCOVE_ATOMIC = 1,        /* all of it, behind a fragment header (RFC 6946) */
	MALTCOVE_FIRST = 2,         /* the first of several */
	MALTCOVE_LATER = 3          /* another than the first */
};

/* Where a packet's ports are. */
enum {
	MALTCOVE_PORTS_ABSENT = 0,  /* the protocol has none, or is not reached */
	MALTCOVE_PORTS_FOUND = 1,
	MALTCOVE_PORTS_BEYOND = 2,  /* the packet ends before them */
	MALTCOVE_PORTS_CUT = 3,     /* the captured bytes end before them */
	MALTCOVE_PORTS_FRAGMENT = 4 /* the packet is a fragment, and all fragments of a datagram have ports 0 */
};

/* What the headers of a packet say besides. */
typedef struct maltcove_where {
	uint64_t transport;         /* where the transport's header begins, in bytes from the first of the packet */
	uint32_t flow_label;        /* of IPv6 (RFC 8200, section 6); 0 of IPv4 */
	int32_t verdict;            /* MALTCOVE_FINE and so on: what maltcove_parse returned */
	uint8_t fragment;           /* MALTCOVE_WHOLE and so on */
	uint8_t ports;              /* MALTCOVE_PORTS_FOUND and so on */
	uint8_t dscp;               /* the code point of differentiated services, 0 to 63 (RFC 2474) */
	uint8_t ecn;                /* the two bits of ECN as they are in the bytes: maltcove_mark keeps it */
} maltcove_where;

/* The packet in what a link delivered. */
typedef struct maltcove_found {
	uint64_t offset;            /* where it begins, in bytes from the first */
	uint64_t tags;              /* how many VLAN tags are before it */
	uint16_t ethertype;         /* as maltcove_parse takes it: 0 where the link has none */
} maltcove_found;

/* What is said of a packet that was accepted. */
typedef struct maltcove_admitted {
	uint64_t id;                /* its place in the order of acceptance, from 0 */
	uint64_t drops;             /* how many packets were dropped for it: read them by maltcove_drops */
	uint32_t flow;              /* the flow that it went to */
} maltcove_admitted;

/* What CoDel or the threshold did to a packet that is sent. */
enum {
	MALTCOVE_NO_MARK = 0,
	MALTCOVE_CODEL_MARK = 1,    /* CoDel marked it, in place of a drop */
	MALTCOVE_THRESHOLD_MARK = 2 /* it had waited longer than ce_threshold */
};

/* A packet that is sent. */
typedef struct maltcove_sent {
	uint64_t tag, id;
	uint64_t drops;             /* how many packets CoDel dropped before it: read them by maltcove_drops */
	uint32_t len;
	uint8_t ecn;                /* the field to be written into the packet: 3 where it was marked */
	uint8_t mark;               /* MALTCOVE_NO_MARK and so on */
} maltcove_sent;

/* Why a packet was dropped. */
enum {
	MALTCOVE_BY_CODEL = 0,      /* it had waited too long */
	MALTCOVE_BY_OVERFLOW = 1    /* more waited than limit or memory_limit allow */
};

/* A packet that was dropped. */
typedef struct maltcove_dropped {
	uint64_t tag, id;
	uint8_t cause;              /* MALTCOVE_BY_CODEL or MALTCOVE_BY_OVERFLOW */
} maltcove_dropped;

/* A packet that was flushed. */
typedef struct maltcove_flushed {
	uint64_t tag, id;
} maltcove_flushed;

/* What became of the packets. accepted = sent + dropped_codel + dropped_overflow + flushed + queued. */
typedef struct maltcove_totals_t {
	uint64_t accepted, accepted_bytes;
	uint64_t sent, sent_bytes;
	uint64_t dropped_codel, dropped_overflow, dropped_bytes;
	uint64_t flushed, flushed_bytes;
	uint64_t marked;            /* sent with a mark of CoDel's */
	uint64_t threshold_marked;  /* sent with a mark for the threshold, and none of CoDel's */
	uint64_t queued, queued_bytes;
	bool closed;
} maltcove_totals_t;

/* What is kept of a flow, as tc -s class shows it. */
typedef struct maltcove_flow_t {
	uint64_t queued, queued_bytes;
	int64_t credits;            /* bytes that it may send before the next flow's turn */
	uint64_t first_above;       /* CoDel: when packets will have been late for an interval; see has_first_above */
	uint64_t drop_next;         /* CoDel: when the next packet is due to be dropped */
	uint64_t count, last_count; /* CoDel: drops since dropping began, and the count it began with last */
	bool has_first_above;       /* false: the last packet was not late, and first_above is 0 */
	bool dropping;
} maltcove_flow_t;

/* The parameters, in the units of tc-fq_codel(8): packets, flows, bytes, microseconds. */
typedef struct maltcove_params_t {
	uint64_t target, interval;
	uint64_t ce_threshold;      /* 0 where has_ce_threshold is false */
	uint64_t memory_limit;      /* 0 where has_memory_limit is false */
	uint32_t limit, flows, quantum, mtu, drop_batch;
	bool has_ce_threshold, has_memory_limit;
	bool ecn;                   /* mark, in place of dropping, what can be marked */
	bool hash;                  /* flows by a hash of the five-tuple; false: classify dport */
} maltcove_params_t;

/*
 * Opens a scheduler in *m, which has to be none, with the parameters that words say and with that seed.
 *
 * words are those of tc-fq_codel(8), and two more, as one text of words_len bytes with blanks or line ends between
 * them; it needs no 0 at its end. NULL with length 0 is all standard values:
 *
 *     limit PACKETS        1 to 1048576 (10240)          target TIME        0 to 1000s (5ms)
 *     flows NUMBER         1 to 65536 (1024)             interval TIME      1us to 1000s (100ms)
 *     quantum BYTES        1 to 1000000 (1514)           ce_threshold TIME  0 to 1000s (off)
 *     mtu BYTES            0 to 65535 (1514)             ecn, noecn         (ecn)
 *     drop_batch PACKETS   1 to 1048576 (64)             classify hash      flows by the five-tuple (this)
 *     memory_limit BYTES   1 to 2^40 (off)               classify dport     flows by the destination port
 *
 * A time is digits and then us, ms, s or nothing, which is microseconds.
 *
 * seed has seed_len bytes, which have to be 16. Senders who don't know it can't choose flows that collide; so take it
 * from a source of random bytes.
 *
 * fault may be NULL. Else *fault says which word is wrong and where it stands, after MALTCOVE_BAD_WORDS; after
 * MALTCOVE_ALREADY_OPEN and MALTCOVE_NULL it is left as it was, and after all else it names none. A message for a user:
 *
 *     printf("'%.*s': %s\n", (int)fault.len, words + fault.offset, maltcove_fault_text(fault.kind));
 *
 * Answers MALTCOVE_OK, MALTCOVE_NULL, MALTCOVE_ALREADY_OPEN, MALTCOVE_BAD_WORDS, MALTCOVE_BAD_SEED or MALTCOVE_MEMORY:
 * where more than one applies, the first of these.
 */
int maltcove_open(maltcove *m, const char *words, size_t words_len, const uint8_t *seed, size_t seed_len,
		  maltcove_fault *fault);

/*
 * Gives all memory back; *m is none then. What waits, and drops that weren't read, are forgotten: to have their tags
 * back call maltcove_drops and maltcove_flush before. A call on none or NULL does nothing.
 */
void maltcove_free(maltcove *m);

/*
 * Accepts a packet at the moment now_us. The scheduler finds its flow by the words' classify. Where more packets or
 * bytes wait then than limit or memory_limit allow, the flow that has most bytes loses packets from its head, as many
 * as drop_batch at once. admitted->drops says how many, and they have to be read before the next enqueue. The packet
 * that was handed in may be one of them. After a refusal the packet and its tag are still the caller's.
 *
 * Answers MALTCOVE_OK, MALTCOVE_NULL, MALTCOVE_NOT_OPEN, MALTCOVE_BAD_PACKET (len, ecn or version), MALTCOVE_UNREAD,
 * MALTCOVE_TOO_LARGE, MALTCOVE_BACKWARDS, MALTCOVE_CLOSED or MALTCOVE_EXHAUSTED: the first that applies. It never
 * answers MALTCOVE_MEMORY.
 *
 * The end of ids. A scheduler has ids for 2^40 packets, which are 12.7 days at a million a second. It renews itself:
 * after 2^39 packets, at the first enqueue that finds nothing waiting and all drops read, it goes on with flows and
 * CoDel's states as new. Ids and totals go on, in 64 bits. A renewal takes memory for a scheduler as new, and gives the
 * old one's back; where none is given the old one goes on, and the next such enqueue tries again. MALTCOVE_EXHAUSTED
 * comes only where 2^40 packets came and none of them after the first 2^39 found nothing waiting.
 */
int maltcove_enqueue(maltcove *m, uint64_t now_us, const maltcove_packet *packet, maltcove_admitted *admitted);

/*
 * The same for a packet whose flow the caller has chosen: flow modulo the number of flows. The words at maltcove_open
 * have to say classify dport, else the answer is MALTCOVE_HASHED; it comes after MALTCOVE_NOT_OPEN in the order of
 * answers.
 *
 * From a hash of 32 bits that a network card made, take maltcove_flow_of_hash, below. By the hash itself most flows
 * would stay empty: the card has chosen the queue by the low bits, so all packets of a queue have the same ones. Behind
 * 16 queues, 22 per cent of 100 five-tuples would have one of 1024 flows to themselves, and behind 64 queues none. By
 * maltcove_flow_of_hash about 90 per cent have, always.
 */
int maltcove_enqueue_flow(maltcove *m, uint64_t now_us, uint32_t flow, uint32_t len, uint8_t ecn, uint64_t tag,
			  maltcove_admitted *admitted);

/*
 * The flow of a packet with this hash, below flows (maltcove_params tells how many there are), and 0 where that is 0.
 * It depends on the hash's high bits. Each flow gets as many of the 2^32 hashes as any other, or one more or less.
 *
 * A hash is no secret where a card makes it with the key that its driver has by default, which is public: then a sender
 * can choose five-tuples that share a flow.
 */
static inline uint32_t maltcove_flow_of_hash(uint32_t hash, uint32_t flows)
{
	return (uint32_t)((uint64_t)hash * flows >> 32);
}

/*
 * The queue of a packet with this hash, below queues, for a program with a scheduler for each. It depends on the hash's
 * low half, so the packets of a queue are spread over flows as those of all queues are.
 */
static inline uint32_t maltcove_queue_of_hash(uint32_t hash, uint32_t queues)
{
	return maltcove_flow_of_hash(hash << 16 | hash >> 16, queues);
}

/*
 * Gives the packet that is next at the moment now_us. CoDel may have dropped packets before it: sent->drops says how
 * many. They can be read at any time before the next enqueue. Where sent->mark isn't MALTCOVE_NO_MARK, write the mark
 * into the packet by maltcove_mark.
 *
 * Answers MALTCOVE_OK; MALTCOVE_IDLE where nothing waits, and then all of *sent is 0 but drops; MALTCOVE_NULL,
 * MALTCOVE_NOT_OPEN, MALTCOVE_TOO_LARGE or MALTCOVE_BACKWARDS.
 */
int maltcove_dequeue(maltcove *m, uint64_t now_us, maltcove_sent *sent);

/*
 * Gives up to n packets at one moment, as n calls of maltcove_dequeue do. Answers how many, which is less than n where
 * nothing waits any more, or a negative number as maltcove_dequeue. With n = 0, sent may be NULL. The drops of all of
 * them can be read after.
 */
int64_t maltcove_dequeue_burst(maltcove *m, uint64_t now_us, maltcove_sent *sent, size_t n);

/*
 * Reads drops that weren't read yet, in the order of the drops, up to n of them. Answers how many, 0 where all were
 * read, or MALTCOVE_NULL or MALTCOVE_NOT_OPEN. A drop stays until it is read: while one is left no packet is accepted
 * (MALTCOVE_UNREAD), and dequeues go on. With n = 0, dropped may be NULL.
 */
int64_t maltcove_drops(maltcove *m, maltcove_dropped *dropped, size_t n);

/*
 * Takes up to n packets that wait out of the scheduler and gives their tags, so that the caller can free their buffers.
 * They leave as by maltcove_dequeue at the last moment, and count as flushed, not as sent. What CoDel drops on the way
 * is a drop as any other: read it by maltcove_drops after. Answers how many, and less than n only where no packet is
 * left; or MALTCOVE_NULL or MALTCOVE_NOT_OPEN. With n = 0, flushed may be NULL.
 */
int64_t maltcove_flush(maltcove *m, maltcove_flushed *flushed, size_t n);

/* From here on no packet is accepted; dequeues go on. Answers MALTCOVE_OK, MALTCOVE_NULL, MALTCOVE_NOT_OPEN,
 * MALTCOVE_TOO_LARGE, MALTCOVE_BACKWARDS or MALTCOVE_CLOSED, the last at a second close. */
int maltcove_close(maltcove *m, uint64_t now_us);

/* 1 after a close and 0 before, or MALTCOVE_NULL or MALTCOVE_NOT_OPEN. */
int maltcove_is_closed(maltcove *m);

/* How many packets wait, or MALTCOVE_NULL or MALTCOVE_NOT_OPEN. */
int64_t maltcove_queued(maltcove *m);

/* The statistics of all packets so far, as tc -s qdisc shows them. Answers MALTCOVE_OK, MALTCOVE_NULL or
 * MALTCOVE_NOT_OPEN. In C++ the struct is maltcove_totals_t, as the function has the name of the tag. */
int maltcove_totals(maltcove *m, maltcove_totals_t *totals);

/* What is kept of a flow, from 0. Answers MALTCOVE_OK, MALTCOVE_NULL, MALTCOVE_NOT_OPEN or MALTCOVE_BAD_FLOW. */
int maltcove_flow(maltcove *m, uint32_t flow, maltcove_flow_t *view);

/* The parameters. Answers MALTCOVE_OK, MALTCOVE_NULL or MALTCOVE_NOT_OPEN. */
int maltcove_params(maltcove *m, maltcove_params_t *params);

/*
 * Finds the packet in what a link delivered, by the number that captures have for the link's type (LINKTYPE_):
 *
 *     1              Ethernet                        113, 276   Linux's cooked headers, of 16 and of 20 bytes
 *     101, 12, 14    raw IP of either version        0, 108     BSD's loopback, whose header is an address family
 *     228, 229       raw IPv4, raw IPv6
 *
 * VLAN tags are skipped, any number of them (ethertypes 8100, 88A8 and 9100). PPPoE, MPLS and frames with a length in
 * place of an ethertype carry no IP here. found->offset is at most captured. *found is all 0 after MALTCOVE_CUT and
 * MALTCOVE_UNKNOWN_LINK, and after MALTCOVE_NOT_IP it says what else is carried, with ethertype 0 where an address
 * family is none of IP's. bytes may be NULL where captured is 0.
 *
 *     if (maltcove_find(frame, captured, 1, &found) == MALTCOVE_FINE)
 *             maltcove_parse(frame + found.offset, captured - found.offset, wire - found.offset, found.ethertype,
 *                            &packet, &where);
 *
 * Answers MALTCOVE_FINE, MALTCOVE_NULL, MALTCOVE_NOT_IP, MALTCOVE_CUT or MALTCOVE_UNKNOWN_LINK.
 */
int maltcove_find(const uint8_t *bytes, size_t captured, uint32_t link_type, maltcove_found *found);

/*
 * Reads the headers of a packet, from the header of IP on. captured is how many bytes there are, and wire how many the
 * link delivered: the same, unless a capture cut the packet off. ethertype is the link's, 0x0800 or 0x86DD, and 0 where
 * it has none: the version in the packet counts then.
 *
 * *packet is ready for maltcove_enqueue but for its tag, which stays as it was. Its length is the packet's own, so
 * padding doesn't count. Ports are those of TCP, UDP, DCCP, SCTP and UDP-Lite, behind all extension headers of IPv6.
 * Other protocols and all fragments have ports 0, so that a datagram is in one flow. Of a tunnel the outer header
 * counts. Options are skipped by their lengths, and the checksum isn't verified. No byte past the captured ones or past
 * the packet's own length is read, whatever it says of itself. bytes may be NULL where captured is 0.
 *
 * After MALTCOVE_BAD_CHAIN, and after MALTCOVE_CUT behind the fixed header, the addresses, the length and ECN are
 * filled in, the protocol is the number of the header that is bad or cut, and the ports are 0: such a packet can be
 * queued. After any other verdict but MALTCOVE_FINE all fields are 0 but the tag and where->verdict. packet->version
 * says which it is: 4 or 6, and 0 where nothing is known.
 *
 * Answers MALTCOVE_FINE, MALTCOVE_NULL, or what is wrong with the packet: MALTCOVE_SHORT to MALTCOVE_CUT.
 */
int maltcove_parse(const uint8_t *bytes, size_t captured, size_t wire, uint16_t ethertype, maltcove_packet *packet,
		   maltcove_where *where);

/*
 * The same with flags: MALTCOVE_ESP_SPI, MALTCOVE_FLOW_LABEL, the sum of both, or 0, as maltcove_parse has it. Other
 * bits have no meaning. A flow label takes the place of the ports of any packet, of a fragment too.
 */
int maltcove_parse_as(const uint8_t *bytes, size_t captured, size_t wire, uint16_t ethertype, uint32_t flags,
		      maltcove_packet *packet, maltcove_where *where);

/*
 * Writes CE into the packet whose header of IP begins there, where its ECN field is ECT(0) or ECT(1) (RFC 3168, section
 * 5) and the fixed header was captured. Other packets stay as they are. The checksum of IPv4 is mended by equation 3 of
 * RFC 1624: a right one stays right, and a wrong one wrong. where->ecn is 3 then; where may be NULL, and bytes, where
 * captured is 0.
 *
 * Answers MALTCOVE_MARKED, MALTCOVE_UNMARKED or MALTCOVE_NULL.
 */
int maltcove_mark(uint8_t *bytes, size_t captured, maltcove_where *where);

/* The text of an answer, in English, without a line end: never NULL. */
const char *maltcove_strerror(int answer);

/* The text of a fault's kind, likewise. */
const char *maltcove_fault_text(int kind);

/* The version of the library, as MALTCOVE_VERSION is that of the header. */
const char *maltcove_version(void);

#ifdef __cplusplus
}
#endif

#endif
