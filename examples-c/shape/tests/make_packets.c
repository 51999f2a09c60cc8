/*
 * make_packets.c: turns arrivals, as maltlink reads them, into a file of packets (pcap, of raw IP) that have these
 * headers. Options and extension headers are put in by turns.
 *
 *   make_packets < arrivals.csv > packets.pcap
 */
#include <string.h>

#include "check.h"
#include "pcap.h"

/* Reads 4 decimal numbers with dots, or 32 hexadecimal digits. Answers the version, or 0. */
static uint8_t read_address(const char *text, uint8_t address[16])
{
	unsigned part[4];

	memset(address, 0, 16);
	if (sscanf(text, "%u.%u.%u.%u", &part[0], &part[1], &part[2], &part[3]) == 4) {
		for (int i = 0; i < 4; i++)
			address[i] = (uint8_t)part[i];
		return 4;
	}
	if (strlen(text) != 32)
		return 0;
	for (int i = 0; i < 16; i++) {
		char pair[3] = { text[2 * i], text[2 * i + 1], 0 };

		address[i] = (uint8_t)strtoul(pair, NULL, 16);
	}
	return 6;
}

/* Reads the row of a packet. Answers whether it is one. */
static int read_row(const char *line, unsigned long long *moment, maltcove_packet *view)
{
	char src[40], dst[40];
	unsigned proto, sport, dport, len, ecn;

	if (sscanf(line, "enq,%llu,%u,%39[^,],%39[^,],%u,%u,%u,%u", moment, &proto, src, dst, &sport, &dport, &len, &ecn) != 8)
		return 0;
	*view = (maltcove_packet){ .len = len, .proto = (uint8_t)proto, .ecn = (uint8_t)ecn,
				      .sport = (uint16_t)sport, .dport = (uint16_t)dport };
	view->version = read_address(src, view->src);
	return view->version != 0 && read_address(dst, view->dst) == view->version;
}

int main(void)
{
	char line[200];
	unsigned row = 0;

	pcap_write_head(stdout);
	while (fgets(line, sizeof line, stdin) != NULL) {
		static uint8_t bytes[PCAP_MOST_BYTES];
		maltcove_packet view;
		unsigned long long moment;

		row++;
		if (strncmp(line, "version,", 8) == 0)
			continue;
		if (!read_row(line, &moment, &view) || view.len > sizeof bytes ||
		    !build_packet(bytes, &view, row & ALL_EXTRAS)) {
			fprintf(stderr, "make_packets: row %u: there is no such packet\n", row);
			return 1;
		}
		pcap_write_packet(stdout, moment, bytes, view.len);
	}
	return fflush(stdout) == 0 ? 0 : 1;
}
