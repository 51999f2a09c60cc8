/*
 * The three functions of heap.c: a block has the size and alignment that were asked for, and keeps its bytes as it
 * grows. Where there is no memory they say so, and the older block stays. Without a sanitizer, which has a heap of its
 * own, a scheduler is opened where the system gives too little memory for it, too.
 */
#define _DEFAULT_SOURCE
#include "layout.h"

#include <stdio.h>
#include <stdlib.h>
#include <string.h>
#include <sys/resource.h>

#if defined __SANITIZE_ADDRESS__
#define OWN_HEAP 1
#elif defined __has_feature
#if __has_feature(address_sanitizer)
#define OWN_HEAP 1
#endif
#endif

struct made {
	bool ok;
	void *block;
};

#ifdef __cplusplus
extern "C" {
#endif
struct made rattle_alloc(size_t bytes, size_t align);
struct made rattle_realloc(void *block, size_t kept, size_t bytes, size_t align);
void rattle_dealloc(void *block);
const char *__asan_default_options(void);

/* The address sanitizer lets malloc answer that there is no memory. By itself it would end the program. */
const char *__asan_default_options(void)
{
	return "allocator_may_return_null=1";
}
#ifdef __cplusplus
}
#endif

static void check_at(bool right, const char *what, int line)
{
	if (!right) {
		fprintf(stderr, "memory.c:%d: wrong: %s\n", line, what);
		exit(1);
	}
}
#define CHECK(what) check_at(what, #what, __LINE__)

/* More bytes than any machine has. */
static const size_t too_many = SIZE_MAX / 2;

/* A block that was given, at an address that `align` divides. */
static unsigned char *block_of(struct made made, size_t align)
{
	CHECK(made.ok && made.block != NULL);
	CHECK((uintptr_t)made.block % align == 0);
	return (unsigned char *)made.block;
}

/* The bytes of a block, each by its place. */
static void fill(unsigned char *block, size_t bytes)
{
	for (size_t i = 0; i < bytes; i++)
		block[i] = (unsigned char)(i * 7 + bytes);
}

static void check_filled(const unsigned char *block, size_t bytes)
{
	for (size_t i = 0; i < bytes; i++)
		CHECK(block[i] == (unsigned char)(i * 7 + bytes));
}

/* Blocks of each size and alignment, which grow, shrink and grow to a mebibyte. */
static void blocks_are_given(void)
{
	for (size_t align = 1; align <= 16; align *= 2) {
		for (size_t bytes = 0; bytes < 100; bytes++) {
			unsigned char *block = block_of(rattle_alloc(bytes, align), align);

			fill(block, bytes);
			block = block_of(rattle_realloc(block, bytes, bytes + 50, align), align);
			check_filled(block, bytes);
			fill(block, bytes + 50);
			fill(block, bytes / 2);
			block = block_of(rattle_realloc(block, bytes / 2, bytes / 2, align), align);
			check_filled(block, bytes / 2);
			block = block_of(rattle_realloc(block, bytes / 2, 1 << 20, align), align);
			check_filled(block, bytes / 2);
			fill(block, 1 << 20);
			rattle_dealloc(block);
		}
	}
}

/* Where there is no memory the answer says so, and `block` is not null; the older block stays, with its bytes. */
static void none_is_given(void)
{
	struct made made = rattle_alloc(too_many, 16);
	unsigned char *block;

	CHECK(!made.ok && made.block != NULL);
	block = block_of(rattle_alloc(100, 16), 16);
	fill(block, 100);
	made = rattle_realloc(block, 100, too_many, 16);
	CHECK(!made.ok && made.block != NULL && made.block != block);
	check_filled(block, 100);
	block = block_of(rattle_realloc(block, 100, 200, 16), 16);
	check_filled(block, 100);
	rattle_dealloc(block);
}

#ifndef OWN_HEAP
/* Opens the greatest scheduler, of some 104 MiB, where the program may have so much memory in all, and answers whether
 * there was enough. */
static bool opens_within(rlim_t mebibytes)
{
	static const char words[] = "limit 1048576";
	static const uint8_t seed[16] = { 0 };
	maltcove m = MALTCOVE_INIT;
	struct rlimit before, within;
	int answer;

	CHECK(getrlimit(RLIMIT_AS, &before) == 0);
	within = before;
	within.rlim_cur = mebibytes << 20;
	CHECK(setrlimit(RLIMIT_AS, &within) == 0);
	answer = maltcove_open(&m, words, strlen(words), seed, 16, NULL);
	CHECK(setrlimit(RLIMIT_AS, &before) == 0);
	CHECK(answer == MALTCOVE_OK || answer == MALTCOVE_MEMORY);
	CHECK(m.is_open == (answer == MALTCOVE_OK) && (m.inner != NULL) == m.is_open);
	maltcove_free(&m);
	return answer == MALTCOVE_OK;
}
#endif

int main(void)
{
	blocks_are_given();
	none_is_given();
#ifndef OWN_HEAP
	for (rlim_t mebibytes = 4; mebibytes <= 100; mebibytes += 4)
		CHECK(!opens_within(mebibytes));
	CHECK(opens_within(1024));
#endif
	puts("memory: what heap.c gives, and that it tells where there is none");
	return 0;
}
