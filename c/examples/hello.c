#include <maltcove.h>
#include <stdio.h>

int main(void)
{
	static char buffer[] = "hello, queue"; /* the caller's buffer, which a tag names */
	static maltcove_packet packet;         /* all fields 0 */
	const uint8_t seed[16] = { 1, 2, 3 };  /* random bytes, in a real program */
	maltcove m = MALTCOVE_INIT;
	maltcove_admitted admitted;
	maltcove_sent sent;

	if (maltcove_open(&m, "limit 1000 target 5ms", 21, seed, 16, NULL) != MALTCOVE_OK)
		return 1;
	packet.tag = (uintptr_t)buffer, packet.len = sizeof buffer, packet.proto = 17, packet.version = 4;
	if (maltcove_enqueue(&m, 0, &packet, &admitted) == MALTCOVE_OK)
		printf("packet %d waits in flow %d\n", (int)admitted.id, (int)admitted.flow);
	while (maltcove_dequeue(&m, 1500, &sent) == MALTCOVE_OK)
		printf("packet %d goes: %s\n", (int)sent.id, (const char *)(uintptr_t)sent.tag);
	maltcove_free(&m);
	return 0;
}
