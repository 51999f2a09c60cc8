#include <maltcove.h>
#include <stdio.h>

int main(void)
{
	static char first[] = "hello, queue", second[] = "a second buffer";
	static maltcove_packet packet;        /* all fields 0 */
	const uint8_t seed[16] = { 1, 2, 3 }; /* random bytes, in a real program */
	maltcove m = MALTCOVE_INIT;
	maltcove_admitted admitted;
	maltcove_dropped lost;
	maltcove_sent sent;

	if (maltcove_open(&m, "limit 1 target 5ms", 18, seed, 16, NULL) != MALTCOVE_OK)
		return 1;
	packet.proto = 17, packet.version = 4;

	packet.tag = (uintptr_t)first, packet.len = sizeof first;
	if (maltcove_enqueue(&m, 0, &packet, &admitted) == MALTCOVE_OK)
		printf("packet %d waits, %d dropped\n", (int)admitted.id, (int)admitted.drops);
	packet.tag = (uintptr_t)second, packet.len = sizeof second;
	if (maltcove_enqueue(&m, 0, &packet, &admitted) == MALTCOVE_OK)
		printf("packet %d waits, %d dropped\n", (int)admitted.id, (int)admitted.drops);

	while (maltcove_drops(&m, &lost, 1) > 0)
		printf("packet %d is lost: %s\n", (int)lost.id, (const char *)(uintptr_t)lost.tag);
	while (maltcove_dequeue(&m, 1500, &sent) == MALTCOVE_OK) {
		printf("packet %d goes: %s\n", (int)sent.id, (const char *)(uintptr_t)sent.tag);
		while (maltcove_drops(&m, &lost, 1) > 0) /* those that CoDel dropped before it */
			printf("packet %d is lost: %s\n", (int)lost.id, (const char *)(uintptr_t)lost.tag);
	}
	maltcove_free(&m);
	return 0;
}
