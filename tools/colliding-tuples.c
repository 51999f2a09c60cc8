/* Five-tuples that share one place of the table in which rows by five-tuple are found, as arrivals.

   cc -O2 -o /tmp/colliding-tuples tools/colliding-tuples.c && /tmp/colliding-tuples HASH COUNT > arrivals.csv

   HASH is
   - 32 hexadecimal digits: five-tuples that collide in the hash of that seed. It is SipHash-1-3 with keys of zero, fed
     with the seed and then with the five words of a five-tuple (packet_core: SeededHash, and what hashes a FiveTuple);
   - fixed: those that collide in the hash with a fixed seed that the table had until 27 November 2026 (FoldHasher, fed
     with a five-tuple's fields one by one);
   - none: the first five-tuples that are tried, whatever they hash to.

   Two collide where the 14 low bits of the table's hash are equal: there a table of up to 147,456 five-tuples begins to
   look for both. It takes some 16,000 tries for each. COUNT is 200,000 at most. */
#include <stdint.h>
#include <stdio.h>
#include <stdlib.h>
#include <string.h>

enum { PLACE_BITS = 14, PROTO = 17 };

static const uint8_t source[4] = {10, 0, 0, 1}, destination[4] = {10, 9, 9, 9};

/* SipHash-1-3 */

struct sip {
    uint64_t v0, v1, v2, v3;
};

static uint64_t turned(uint64_t word, int bits)
{
    return word << bits | word >> (64 - bits);
}

static void round_of(struct sip *s)
{
    s->v0 += s->v1;
    s->v2 += s->v3;
    s->v1 = turned(s->v1, 13) ^ s->v0;
    s->v3 = turned(s->v3, 16) ^ s->v2;
    s->v0 = turned(s->v0, 32);
    s->v2 += s->v1;
    s->v0 += s->v3;
    s->v1 = turned(s->v1, 17) ^ s->v2;
    s->v3 = turned(s->v3, 21) ^ s->v0;
    s->v2 = turned(s->v2, 32);
}

static void feed(struct sip *s, uint64_t word)
{
    s->v3 ^= word;
    round_of(s);
    s->v0 ^= word;
}

static uint64_t word_of(const uint8_t *bytes, int count)
{
    uint64_t word = 0;
    for (int i = 0; i < count; i++)
        word |= (uint64_t)bytes[i] << 8 * i;
    return word;
}

/* The state after a seed and both addresses. */
static struct sip fed_with(const uint8_t *seed)
{
    struct sip s = {0x736f6d6570736575, 0x646f72616e646f6d, 0x6c7967656e657261, 0x7465646279746573};
    feed(&s, word_of(seed, 8));
    feed(&s, word_of(seed + 8, 8));
    feed(&s, word_of(source, 4));
    feed(&s, 0);
    feed(&s, word_of(destination, 4));
    feed(&s, 0);
    return s;
}

static uint64_t seeded(struct sip s, uint32_t ports)
{
    uint64_t sport = ports >> 16, dport = ports & 0xffff;
    feed(&s, (uint64_t)PROTO << 48 | sport << 32 | dport);
    feed(&s, (uint64_t)(16 + 5 * 8) << 56);
    s.v2 ^= 0xff;
    round_of(&s);
    round_of(&s);
    round_of(&s);
    return s.v0 ^ s.v1 ^ s.v2 ^ s.v3;
}

/* FoldHasher */

static uint64_t folded(uint64_t state, const uint8_t *bytes, int count)
{
    uint64_t word = count >= 4 ? word_of(bytes, 4) | word_of(bytes + count - 4, 4) << 32
                               : bytes[0] | (uint64_t)bytes[count / 2] << 8 | (uint64_t)bytes[count - 1] << 16;
    unsigned __int128 product = (unsigned __int128)(state ^ word) * (0x9e3779b97f4a7c15 ^ (uint64_t)(2 * count));
    return (uint64_t)product ^ (uint64_t)(product >> 64);
}

/* An address of IPv4: its kind, its length, and each byte. */
static uint64_t folded_address(uint64_t state, const uint8_t *address)
{
    const uint8_t kind[8] = {0}, length[8] = {4};
    state = folded(folded(state, kind, 8), length, 8);
    for (int i = 0; i < 4; i++)
        state = folded(state, address + i, 1);
    return state;
}

static uint64_t fixed(uint64_t state, uint32_t ports)
{
    const uint8_t sport[2] = {ports >> 16 & 255, ports >> 24}, dport[2] = {ports & 255, ports >> 8 & 255};
    return folded(folded(state, sport, 2), dport, 2);
}

static int usage(void)
{
    fprintf(stderr, "usage: colliding-tuples SEED|fixed|none COUNT\n"
                    "SEED has 32 hexadecimal digits, and COUNT is 1 to 200000\n");
    return 2;
}

int main(int argc, char **argv)
{
    if (argc != 3)
        return usage();
    const char *hash = argv[1];
    char *end;
    long wanted = strtol(argv[2], &end, 10);
    int is_fixed = !strcmp(hash, "fixed"), is_any = !strcmp(hash, "none");
    uint8_t seed[16] = {0};
    if (*end || wanted < 1 || wanted > 200000)
        return usage();
    if (!is_fixed && !is_any) {
        if (strlen(hash) != 32 || strspn(hash, "0123456789abcdef") != 32)
            return usage();
        for (int i = 0; i < 16; i++)
            sscanf(hash + 2 * i, "%2hhx", &seed[i]);
    }

    struct sip begun = fed_with(seed);
    const uint8_t proto = PROTO;
    uint64_t state = folded_address(folded_address(folded(0x243f6a8885a308d3, &proto, 1), source), destination);
    long found = 0;
    for (uint64_t ports = 0; ports >> 32 == 0 && found < wanted; ports++) {
        uint64_t number = is_any ? 0 : is_fixed ? fixed(state, ports) : seeded(begun, ports);
        if (((number ^ number >> 32) & ((1 << PLACE_BITS) - 1)) != 0)
            continue;
        printf("enq,%ld,%d,10.0.0.1,10.9.9.9,%u,%u,100,2\n", found, PROTO, (unsigned)(ports >> 16),
               (unsigned)(ports & 0xffff));
        found++;
    }
    return found < wanted;
}
