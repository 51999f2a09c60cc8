/* A model of the places that five-tuples have in a table of flow numbers: how many digests they take, by several mixes.

   cc -O2 -o /tmp/place-model tools/place-model.c && /tmp/place-model

   Each row is a family of five-tuples: of hosts that all send to each other, with no ports, one pair of equal ports, or
   sixteen sources a pair. For each mix it has the digests in 100 packets, the mean and the most of 24 seeds. A table has
   4,096 places with room for two (1,024 flows), and 40,000 packets come at random, after as many that fill the table.
   The mixes: that of commit d814693; a turn by 32 bits; a turn by 16, which TupleWords::spread has; random places. */
#include <stdint.h>
#include <stdio.h>
#include <stdlib.h>
#include <string.h>

enum { PLACES = 4096, SEEDS = 24, PACKETS = 40000, MOST = 1 << 13 };

struct tuple {
    uint8_t src[16], dst[16], proto;
    int is_ipv6;
    uint16_t sport, dport;
};

static uint64_t state = 1;
static uint8_t hosts[64][16];
static struct tuple tuples[MOST];
static int count;

static uint64_t random_word(void) /* splitmix64 */
{
    uint64_t z = state += 0x9e3779b97f4a7c15;
    z = (z ^ z >> 30) * 0xbf58476d1ce4e5b9;
    z = (z ^ z >> 27) * 0x94d049bb133111eb;
    return z ^ z >> 31;
}

static uint64_t turned(uint64_t x, int bits) { return x << bits | x >> (64 - bits); }

static uint64_t mixed(uint64_t word, uint64_t factor)
{
    uint64_t product = word * factor;
    return product ^ product >> 32;
}

static uint64_t low_first(const uint8_t *bytes)
{
    uint64_t word = 0;
    for (int i = 7; i >= 0; i--)
        word = word << 8 | bytes[i];
    return word;
}

static uint64_t high_first(const uint8_t *bytes) { return __builtin_bswap64(low_first(bytes)); }

static unsigned of_the_start(const struct tuple *t, const uint64_t f[2])
{
    uint64_t src, dst;
    if (t->is_ipv6) {
        src = mixed(mixed(high_first(t->src), f[1]) ^ high_first(t->src + 8), f[0]);
        dst = mixed(mixed(high_first(t->dst), f[1]) ^ high_first(t->dst + 8), f[0]);
    } else {
        src = high_first(t->src) >> 32;
        dst = high_first(t->dst) >> 32;
    }
    uint64_t ports = (uint64_t)t->proto << 32 | (uint64_t)t->sport << 16 | t->dport;
    return (mixed(turned(src, 32) ^ dst, f[0]) ^ ports) * f[1] >> 46 & (PLACES - 1);
}

static unsigned by_turn(const struct tuple *t, const uint64_t f[2], int bits)
{
    uint64_t fields = (uint64_t)(t->is_ipv6 ? 3 * 4 : 0) << 56 | (uint64_t)t->proto << 48 | (uint64_t)t->sport << 32 | t->dport;
    uint64_t ends;
    if (t->is_ipv6) {
        uint64_t src = mixed(mixed(low_first(t->src), f[1]) ^ low_first(t->src + 8), f[0]);
        uint64_t dst = mixed(mixed(low_first(t->dst), f[1]) ^ low_first(t->dst + 8), f[0]);
        ends = turned(src, bits) ^ dst ^ fields >> 58;
    } else {
        ends = turned(low_first(t->src), 32) ^ low_first(t->dst);
    }
    uint64_t high = (mixed(ends, f[0]) ^ fields) * f[1] >> 46;
    return (high ^ high >> 9) & (PLACES - 1);
}

static unsigned turned_by_32(const struct tuple *t, const uint64_t f[2]) { return by_turn(t, f, 32); }
static unsigned turned_by_16(const struct tuple *t, const uint64_t f[2]) { return by_turn(t, f, 16); }
static unsigned at_random(const struct tuple *t, const uint64_t f[2]) { (void)t, (void)f; return random_word() & (PLACES - 1); }

static unsigned (*const mixes[])(const struct tuple *, const uint64_t *) = {of_the_start, turned_by_32, turned_by_16, at_random};

/* The digests in 100 packets under those factors. */
static double digests(int mix, const uint64_t factors[2])
{
    static unsigned place[MOST];
    static int later[PLACES], earlier[PLACES];
    int taken = 0;
    for (int i = 0; i < count; i++)
        place[i] = mixes[mix](&tuples[i], factors);
    memset(later, 255, sizeof later);
    memset(earlier, 255, sizeof earlier);
    for (int i = 0; i < 2 * PACKETS; i++) {
        int who = (int)(random_word() % (unsigned)count);
        unsigned at = place[who];
        if (later[at] == who || earlier[at] == who)
            continue;
        earlier[at] = later[at];
        later[at] = who;
        taken += i >= PACKETS;
    }
    return 100.0 * taken / PACKETS;
}

static void row(const char *family, int number, const char *ports)
{
    printf("%-22s %2d hosts, %-12s", family, number, ports);
    for (int mix = 0; mix < 4; mix++) {
        double sum = 0, most = 0;
        for (int seed = 0; seed < SEEDS; seed++) {
            uint64_t factors[2] = {0x9e3779b97f4a7c15, 0xd6e8feb86659fd93};
            if (seed > 0)
                factors[0] = (factors[0] ^ random_word()) | 1, factors[1] = (factors[1] ^ random_word()) | 1;
            double now = digests(mix, factors);
            sum += now;
            most = now > most ? now : most;
        }
        printf("  %5.1f %5.1f", sum / SEEDS, most);
    }
    printf("\n");
}

/* Hosts of a family, which begins with those 16 bytes and varies the bytes from `first` on by the host's number, or by
   random ones. Between any two of them is a five-tuple, or more of several ports. */
static void family(const char *name, const uint8_t front[16], int is_ipv6, int first, int bytes, int random)
{
    static const char *kinds[] = {"no ports", "equal ports", "16 sources"};
    for (int number = 8; number <= 64; number *= 2)
        for (int kind = 0; kind < 3; kind++) {
            if (kind == 2 && number > 16)
                continue;
            count = 0;
            for (int i = 0; i < number; i++) {
                memcpy(hosts[i], front, 16);
                uint64_t value = random ? random_word() : (uint64_t)i + 1;
                for (int k = 0; k < bytes; k++)
                    hosts[i][first + bytes - 1 - k] = (uint8_t)(value >> 8 * k);
            }
            for (int i = 0; i < number; i++)
                for (int k = 0; k < number; k++)
                    for (int port = 0; i != k && port < (kind == 2 ? 16 : 1); port++) {
                        struct tuple *t = &tuples[count++];
                        memset(t, 0, sizeof *t);
                        memcpy(t->src, hosts[i], is_ipv6 ? 16 : 4);
                        memcpy(t->dst, hosts[k], is_ipv6 ? 16 : 4);
                        t->is_ipv6 = is_ipv6;
                        t->proto = kind == 0 ? (is_ipv6 ? 58 : 1) : kind == 1 ? 17 : 6;
                        t->sport = kind == 0 ? 0 : kind == 1 ? 51820 : (uint16_t)(32768 + random_word() % 16384);
                        t->dport = kind == 0 ? 0 : kind == 1 ? 51820 : 443;
                    }
            row(name, number, kinds[kind]);
        }
}

int main(void)
{
    static const uint8_t net[16] = {0x20, 1, 0x0d, 0xb8, 0, 0, 0, 1, 0, 0, 0, 0, 0, 0, 0, 1};
    static const uint8_t card[16] = {0x20, 1, 0x0d, 0xb8, 0, 0, 0, 1, 2, 0x1b, 0x21, 0xff, 0xfe, 0x3c, 0x10, 0};
    static const uint8_t four[16] = {10, 1, 2, 3};
    printf("%-45s  start        turned by 32  turned by 16  at random\n", "");
    family("low numbers", net, 1, 14, 2, 0);
    family("cards of one vendor", card, 1, 13, 3, 1);
    family("cards in sequence", card, 1, 14, 2, 0);
    family("random hosts", net, 1, 8, 8, 1);
    family("subnets", net, 1, 6, 2, 0);
    for (int byte = 0; byte < 16; byte++) {
        char name[32];
        sprintf(name, "byte %d", byte);
        family(name, net, 1, byte, 1, 0);
    }
    family("IPv4 hosts", four, 0, 3, 1, 0);
    family("IPv4 subnets", four, 0, 2, 1, 0);
    family("IPv4 nets", four, 0, 1, 1, 0);
    family("IPv4, random", four, 0, 0, 4, 1);
    return 0;
}
