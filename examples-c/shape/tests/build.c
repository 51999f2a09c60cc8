/*
 * build.c: writes packets for the tests, by the RFCs and apart from the library.
 */
#include "check.h"

#include <string.h>

static void write_16(uint8_t *at, uint32_t number)
{
	at[0] = (uint8_t)(number >> 8);
	at[1] = (uint8_t)number;
}

uint16_t header_sum(const uint8_t *bytes)
{
	uint32_t sum = 0;

	for (size_t i = 0; i < (size_t)(bytes[0] & 15) * 4; i += 2)
		sum += (uint32_t)bytes[i] << 8 | bytes[i + 1];
	while (sum >> 16)
		sum = (sum & 0xffff) + (sum >> 16);
	return (uint16_t)sum;
}

/* How many bytes of the transport's header have to be there for the ports. */
static size_t ports_bytes(const maltcove_packet *view)
{
	return view->proto == 6 || view->proto == 17 || view->proto == 132 ? 4 : 0;
}

static int build_v4(uint8_t *bytes, const maltcove_packet *view, unsigned extras)
{
	size_t header = 20;

	if (extras & WITH_OPTIONS && view->len >= 28 + ports_bytes(view))
		header = 28;
	if (view->len < header + ports_bytes(view))
		return 0;
	bytes[0] = (uint8_t)(0x40 | header / 4);
	bytes[1] = (uint8_t)(0xb8 | view->ecn);
	write_16(bytes + 2, view->len);
	write_16(bytes + 4, 0x1234);
	write_16(bytes + 6, 0x4000);
	bytes[8] = 64;
	bytes[9] = view->proto;
	memcpy(bytes + 12, view->src, 4);
	memcpy(bytes + 16, view->dst, 4);
	if (header > 20)
		memset(bytes + 20, 1, header - 20);
	write_16(bytes + 10, (uint16_t)~header_sum(bytes));
	if (ports_bytes(view)) {
		write_16(bytes + header, view->sport);
		write_16(bytes + header + 2, view->dport);
	}
	return 1;
}

struct extension {
	unsigned extra;
	uint8_t kind;
	size_t length;
	uint8_t length_field;
};

static int build_v6(uint8_t *bytes, const maltcove_packet *view, unsigned extras)
{
	static const struct extension extensions[] = {
		{ WITH_HOP_BY_HOP, 0, 8, 0 },       { WITH_ROUTING, 43, 24, 2 },      { WITH_FRAGMENT, 44, 8, 0 },
		{ WITH_AUTHENTICATION, 51, 16, 2 }, { WITH_DESTINATION, 60, 8, 0 },
	};
	size_t at = 40;
	uint8_t *next = bytes + 6;

	if (view->len < at + ports_bytes(view))
		return 0;
	bytes[0] = 0x6b;
	bytes[1] = (uint8_t)(0x81 | view->ecn << 4);
	write_16(bytes + 4, view->len - 40);
	bytes[7] = 64;
	memcpy(bytes + 8, view->src, 16);
	memcpy(bytes + 24, view->dst, 16);
	for (size_t i = 0; i < sizeof extensions / sizeof *extensions; i++) {
		const struct extension *extension = &extensions[i];

		if (!(extras & extension->extra) || at + extension->length + ports_bytes(view) > view->len)
			continue;
		*next = extension->kind;
		next = bytes + at;
		bytes[at + 1] = extension->length_field;
		at += extension->length;
	}
	*next = view->proto;
	if (ports_bytes(view)) {
		write_16(bytes + at, view->sport);
		write_16(bytes + at + 2, view->dport);
	}
	return 1;
}

int build_packet(uint8_t *bytes, const maltcove_packet *view, unsigned extras)
{
	memset(bytes, 0, view->len);
	return view->version == 4 ? build_v4(bytes, view, extras) : build_v6(bytes, view, extras);
}
