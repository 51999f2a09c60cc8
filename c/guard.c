/*
 * The calls of maltcove.h. Each answers null pointers, and then makes the proved call of the Rattle library, which
 * takes none. No other thing is decided here.
 *
 * The proved calls are no code that a sanitizer sees. So under one, or with -DMALTCOVE_CHECK, each call touches the
 * struct here: it reads a byte of it where it only looks, and else reads it and writes it again. The thread sanitizer
 * then reports two calls at once on one handle, and the address sanitizer a struct that is gone.
 */
#include "maltcove.h"

#if defined __SANITIZE_THREAD__ || defined __SANITIZE_ADDRESS__
#define MALTCOVE_CHECK 1
#elif defined __has_feature
#if __has_feature(thread_sanitizer) || __has_feature(address_sanitizer)
#define MALTCOVE_CHECK 1
#endif
#endif

/* The call only looks at the scheduler. */
static void reads(const maltcove *m)
{
#ifdef MALTCOVE_CHECK
	(void)*(const volatile unsigned char *)&m->is_open;
#else
	(void)m;
#endif
}

/* The call changes the scheduler. */
static void changes(maltcove *m)
{
#ifdef MALTCOVE_CHECK
	volatile unsigned char *byte = (volatile unsigned char *)&m->is_open;

	*byte = *byte;
#else
	(void)m;
#endif
}

/* The proved calls (crates/maltcove_c). A slice is its place, which is never null, and then its length. */
int32_t maltcove_raw_open(maltcove *m, const char *words, size_t words_len, const uint8_t *seed, size_t seed_len,
			  maltcove_fault *fault);
void maltcove_raw_free(maltcove *m);
int32_t maltcove_raw_enqueue(maltcove *m, uint64_t now_us, const maltcove_packet *packet, maltcove_admitted *admitted);
int32_t maltcove_raw_enqueue_flow(maltcove *m, uint64_t now_us, uint32_t flow, uint32_t len, uint8_t ecn, uint64_t tag,
				  maltcove_admitted *admitted);
int32_t maltcove_raw_dequeue(maltcove *m, uint64_t now_us, maltcove_sent *sent);
int32_t maltcove_raw_dequeue_burst(maltcove *m, uint64_t now_us, maltcove_sent *sent, size_t n, uint64_t *given);
int32_t maltcove_raw_drops(maltcove *m, maltcove_dropped *dropped, size_t n, uint64_t *read);
int32_t maltcove_raw_flush(maltcove *m, maltcove_flushed *flushed, size_t n, uint64_t *given);
int32_t maltcove_raw_close(maltcove *m, uint64_t now_us);
int32_t maltcove_raw_is_closed(maltcove *m, bool *closed);
int32_t maltcove_raw_queued(maltcove *m, uint64_t *queued);
int32_t maltcove_raw_totals(maltcove *m, maltcove_totals_t *totals);
int32_t maltcove_raw_flow(maltcove *m, uint32_t flow, maltcove_flow_t *view);
int32_t maltcove_raw_params(maltcove *m, maltcove_params_t *params);
int32_t maltcove_raw_find(const uint8_t *bytes, size_t captured, uint32_t link_type, maltcove_found *found);
int32_t maltcove_raw_parse(const uint8_t *bytes, size_t captured, size_t wire, uint16_t ethertype, uint32_t flags,
			   maltcove_packet *packet, maltcove_where *where);
int32_t maltcove_raw_mark(uint8_t *bytes, size_t captured, maltcove_where *where);

int maltcove_open(maltcove *m, const char *words, size_t words_len, const uint8_t *seed, size_t seed_len,
		  maltcove_fault *fault)
{
	static const uint8_t none[16];
	maltcove_fault untold;

	if (m == NULL || (words == NULL && words_len != 0) || (seed == NULL && seed_len != 0))
		return MALTCOVE_NULL;
	changes(m);
	return maltcove_raw_open(m, words != NULL ? words : "", words_len, seed != NULL ? seed : none, seed_len,
				 fault != NULL ? fault : &untold);
}

void maltcove_free(maltcove *m)
{
	if (m == NULL)
		return;
	changes(m);
	maltcove_raw_free(m);
}

int maltcove_enqueue(maltcove *m, uint64_t now_us, const maltcove_packet *packet, maltcove_admitted *admitted)
{
	if (m == NULL || packet == NULL || admitted == NULL)
		return MALTCOVE_NULL;
	changes(m);
	return maltcove_raw_enqueue(m, now_us, packet, admitted);
}

int maltcove_enqueue_flow(maltcove *m, uint64_t now_us, uint32_t flow, uint32_t len, uint8_t ecn, uint64_t tag,
			  maltcove_admitted *admitted)
{
	if (m == NULL || admitted == NULL)
		return MALTCOVE_NULL;
	changes(m);
	return maltcove_raw_enqueue_flow(m, now_us, flow, len, ecn, tag, admitted);
}

int maltcove_dequeue(maltcove *m, uint64_t now_us, maltcove_sent *sent)
{
	if (m == NULL || sent == NULL)
		return MALTCOVE_NULL;
	changes(m);
	return maltcove_raw_dequeue(m, now_us, sent);
}

/* A count, where the call was made. */
static int64_t count_or(int32_t answer, uint64_t count)
{
	return answer < 0 ? answer : (int64_t)count;
}

int64_t maltcove_dequeue_burst(maltcove *m, uint64_t now_us, maltcove_sent *sent, size_t n)
{
	maltcove_sent none;
	uint64_t given = 0;
	int32_t answer;

	if (m == NULL || (sent == NULL && n != 0))
		return MALTCOVE_NULL;
	changes(m);
	answer = maltcove_raw_dequeue_burst(m, now_us, sent != NULL ? sent : &none, n, &given);
	return count_or(answer, given);
}

int64_t maltcove_drops(maltcove *m, maltcove_dropped *dropped, size_t n)
{
	maltcove_dropped none;
	uint64_t read = 0;
	int32_t answer;

	if (m == NULL || (dropped == NULL && n != 0))
		return MALTCOVE_NULL;
	changes(m);
	answer = maltcove_raw_drops(m, dropped != NULL ? dropped : &none, n, &read);
	return count_or(answer, read);
}

int64_t maltcove_flush(maltcove *m, maltcove_flushed *flushed, size_t n)
{
	maltcove_flushed none;
	uint64_t given = 0;
	int32_t answer;

	if (m == NULL || (flushed == NULL && n != 0))
		return MALTCOVE_NULL;
	changes(m);
	answer = maltcove_raw_flush(m, flushed != NULL ? flushed : &none, n, &given);
	return count_or(answer, given);
}

int maltcove_close(maltcove *m, uint64_t now_us)
{
	if (m == NULL)
		return MALTCOVE_NULL;
	changes(m);
	return maltcove_raw_close(m, now_us);
}

int maltcove_is_closed(maltcove *m)
{
	bool closed = false;
	int32_t answer;

	if (m == NULL)
		return MALTCOVE_NULL;
	reads(m);
	answer = maltcove_raw_is_closed(m, &closed);
	return answer < 0 ? answer : closed;
}

int64_t maltcove_queued(maltcove *m)
{
	uint64_t queued = 0;
	int32_t answer;

	if (m == NULL)
		return MALTCOVE_NULL;
	reads(m);
	answer = maltcove_raw_queued(m, &queued);
	return count_or(answer, queued);
}

int maltcove_totals(maltcove *m, maltcove_totals_t *totals)
{
	if (m == NULL || totals == NULL)
		return MALTCOVE_NULL;
	reads(m);
	return maltcove_raw_totals(m, totals);
}

int maltcove_flow(maltcove *m, uint32_t flow, maltcove_flow_t *view)
{
	if (m == NULL || view == NULL)
		return MALTCOVE_NULL;
	reads(m);
	return maltcove_raw_flow(m, flow, view);
}

int maltcove_params(maltcove *m, maltcove_params_t *params)
{
	if (m == NULL || params == NULL)
		return MALTCOVE_NULL;
	reads(m);
	return maltcove_raw_params(m, params);
}

/* A packet without bytes, which a slice still has a place for. */
static const uint8_t no_bytes[1];

int maltcove_find(const uint8_t *bytes, size_t captured, uint32_t link_type, maltcove_found *found)
{
	if ((bytes == NULL && captured != 0) || found == NULL)
		return MALTCOVE_NULL;
	return maltcove_raw_find(bytes != NULL ? bytes : no_bytes, captured, link_type, found);
}

/* Of its own, so that each of the two calls below makes one call: an exported function is never merged into another. */
static inline int parse(const uint8_t *bytes, size_t captured, size_t wire, uint16_t ethertype, uint32_t flags,
			maltcove_packet *packet, maltcove_where *where)
{
	if ((bytes == NULL && captured != 0) || packet == NULL || where == NULL)
		return MALTCOVE_NULL;
	return maltcove_raw_parse(bytes != NULL ? bytes : no_bytes, captured, wire, ethertype, flags, packet, where);
}

int maltcove_parse_as(const uint8_t *bytes, size_t captured, size_t wire, uint16_t ethertype, uint32_t flags,
		      maltcove_packet *packet, maltcove_where *where)
{
	return parse(bytes, captured, wire, ethertype, flags, packet, where);
}

int maltcove_parse(const uint8_t *bytes, size_t captured, size_t wire, uint16_t ethertype, maltcove_packet *packet,
		   maltcove_where *where)
{
	return parse(bytes, captured, wire, ethertype, 0, packet, where);
}

int maltcove_mark(uint8_t *bytes, size_t captured, maltcove_where *where)
{
	maltcove_where untold = { 0 };
	uint8_t none = 0;

	if (bytes == NULL && captured != 0)
		return MALTCOVE_NULL;
	return maltcove_raw_mark(bytes != NULL ? bytes : &none, captured, where != NULL ? where : &untold);
}

const char *maltcove_strerror(int answer)
{
	switch (answer) {
	case MALTCOVE_OK:
		return "success";
	case MALTCOVE_IDLE:
		return "no packet is waiting";
	case MALTCOVE_NOT_OPEN:
		return "the scheduler is not open: maltcove_open wasn't called, or it failed, or the struct was never "
		       "initialized by MALTCOVE_INIT";
	case MALTCOVE_TOO_LARGE:
		return "the time is 2^60 microseconds or more";
	case MALTCOVE_BACKWARDS:
		return "the time is before that of the last call";
	case MALTCOVE_CLOSED:
		return "the scheduler is closed";
	case MALTCOVE_EXHAUSTED:
		return "out of packet ids";
	case MALTCOVE_MEMORY:
		return "out of memory";
	case MALTCOVE_BAD_PACKET:
		return "a field of the packet is out of its range: len is 1 to 65535, ecn 0 to 3, version 4 or 6";
	case MALTCOVE_BAD_WORDS:
		return "a parameter word is wrong: the fault of maltcove_open says which one and why";
	case MALTCOVE_UNREAD:
		return "drops of earlier calls were not read: call maltcove_drops until it returns 0";
	case MALTCOVE_ALREADY_OPEN:
		return "the scheduler is open already, or the struct was never initialized by MALTCOVE_INIT";
	case MALTCOVE_BAD_SEED:
		return "the seed is not 16 bytes long";
	case MALTCOVE_BAD_FLOW:
		return "there is no flow of that number";
	case MALTCOVE_HASHED:
		return "the scheduler finds the flow by a hash of the five-tuple: open it with the words classify dport "
		       "to choose the flow";
	case MALTCOVE_NULL:
		return "a pointer is null";
	case MALTCOVE_SHORT:
		return "fewer bytes came than the header has: 20 of IPv4, 40 of IPv6";
	case MALTCOVE_NOT_IP:
		return "the packet is neither IPv4 nor IPv6, or of another version than its ethertype says";
	case MALTCOVE_BAD_IHL:
		return "the header length of IPv4 is below 5 words";
	case MALTCOVE_BAD_LENGTH:
		return "the total length of IPv4 is below the header length";
	case MALTCOVE_OVERRUN:
		return "the packet says that it is longer than what came";
	case MALTCOVE_BAD_CHAIN:
		return "an extension header of IPv6 passes the packet's end";
	case MALTCOVE_TOO_LONG:
		return "the packet is longer than 65535 bytes";
	case MALTCOVE_BAD_JUMBO:
		return "the jumbo payload option of IPv6 is missing, or says less than 65536 bytes";
	case MALTCOVE_CUT:
		return "the captured bytes end inside a header";
	case MALTCOVE_UNKNOWN_LINK:
		return "no known link type has that number: known are 0, 1, 12, 14, 101, 108, 113, 228, 229 and 276";
	default:
		return "unknown code";
	}
}

const char *maltcove_fault_text(int kind)
{
	switch (kind) {
	case MALTCOVE_WORDS_FINE:
		return "no error";
	case MALTCOVE_UNKNOWN_WORD:
		return "the word names no parameter, or no way to classify";
	case MALTCOVE_MISSING_VALUE:
		return "the parameter has no value";
	case MALTCOVE_NOT_A_NUMBER:
		return "the value is not a number or a time";
	case MALTCOVE_OUT_OF_RANGE:
		return "the value is out of range: the ranges are listed at maltcove_open in maltcove.h";
	case MALTCOVE_NOT_UTF8:
		return "the text is not UTF-8";
	default:
		return "unknown code";
	}
}

const char *maltcove_version(void)
{
	return MALTCOVE_VERSION;
}
