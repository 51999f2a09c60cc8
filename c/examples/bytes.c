/*
 * bytes.c: a packet that comes as bytes and goes as bytes, with a mark.
 */
#include <maltcove.h>
#include <stdio.h>

/* A frame of Ethernet with a tag: UDP over IPv4 from 10.0.0.1:5000 to 10.0.0.2:53, ECT(0). */
static uint8_t frame[] = {
	2, 0, 0, 0, 0, 1, 2, 0, 0, 0, 0, 2, 0x81, 0, 0, 7, 8, 0,
	0x45, 2, 0, 28, 0, 0, 0x40, 0, 64, 17, 0x26, 0xcd, 10, 0, 0, 1, 10, 0, 0, 2,
	0x13, 0x88, 0, 53, 0, 8, 0, 0,
};

static maltcove m = MALTCOVE_INIT;

static int comes(uint8_t *bytes, size_t count, uint64_t now)
{
	maltcove_found found;
	maltcove_packet packet;
	maltcove_where where;
	maltcove_admitted admitted;

	if (maltcove_find(bytes, count, 1, &found) != MALTCOVE_FINE)
		return 0;
	bytes += found.offset, count -= found.offset;
	if (maltcove_parse(bytes, count, count, found.ethertype, &packet, &where) != MALTCOVE_FINE)
		return 0;
	packet.tag = (uintptr_t)bytes;
	return maltcove_enqueue(&m, now, &packet, &admitted) == MALTCOVE_OK;
}

static uint8_t *goes(uint64_t now)
{
	maltcove_sent sent;
	uint8_t *bytes;

	if (maltcove_dequeue(&m, now, &sent) != MALTCOVE_OK)
		return NULL;
	bytes = (uint8_t *)(uintptr_t)sent.tag;
	if (sent.mark != MALTCOVE_NO_MARK)
		maltcove_mark(bytes, sent.len, NULL);
	return bytes;
}

int main(void)
{
	const uint8_t seed[16] = { 1, 2, 3 };
	uint8_t *bytes;

	if (maltcove_open(&m, "ce_threshold 1ms", 16, seed, 16, NULL) != MALTCOVE_OK || !comes(frame, sizeof frame, 0))
		return 1;
	if ((bytes = goes(2000)) != NULL)
		printf("sent with ECN %d and checksum %02x%02x\n", bytes[1] & 3, bytes[10], bytes[11]);
	maltcove_free(&m);
	return 0;
}
