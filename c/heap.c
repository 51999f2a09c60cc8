/*
 * The heap of the library: three functions over malloc. A program that defines all three itself has the library take
 * its memory there, as from a pool. They have to fulfil what stands here, since the library's proof rests on it.
 */
#include <stdbool.h>
#include <stddef.h>
#include <stdlib.h>

/* Whether memory was given, and where. Where none was given, `block` must not be null. */
struct rattle_given {
	bool ok;
	void *block;
};

struct rattle_given rattle_alloc(size_t bytes, size_t align);
struct rattle_given rattle_realloc(void *block, size_t kept, size_t bytes, size_t align);
void rattle_dealloc(void *block);

static char nothing[16];

static struct rattle_given given(void *block)
{
	struct rattle_given answer = { block != NULL, block != NULL ? block : nothing };
	return answer;
}

/* Gives a block of so many bytes at an address that `align` divides, a power of two up to 16. */
struct rattle_given rattle_alloc(size_t bytes, size_t align)
{
	return given(malloc(bytes != 0 ? bytes : align));
}

/* Gives a block of so many bytes in place of an older one, with its first `kept` bytes. Where it gives none, the older
 * one stays. */
struct rattle_given rattle_realloc(void *block, size_t kept, size_t bytes, size_t align)
{
	(void)kept;
	return given(realloc(block, bytes != 0 ? bytes : align));
}

/* Takes a block back. */
void rattle_dealloc(void *block)
{
	free(block);
}
