/* Names that collide in a hash table, and how they do.

   collisions find COUNT fixed           this many names that fall into one group with one tag under the kit's fixed hasher
   collisions find COUNT seeded [SEED]   the same under the seeded hasher, with no seed or with this one
   collisions seed <TEXT                 the seed that the tables of a text have (crates/lucid_seed)
   collisions fullest SEED <NAMES        how many of the names, one a line, fall into the fullest group with this seed */
#include <stdint.h>
#include <stdio.h>
#include <stdlib.h>
#include <string.h>

/* The bits that choose one of the 512 groups of a table of 4,096 names. */
enum { BITS = 9 };
typedef uint64_t u64;
static u64 v0, v1, v2, v3;
static char text[1 << 22];

static u64 turn(u64 x, int k) { return x << k | x >> (64 - k); }

static void round_(void) {
    v0 += v1; v2 += v3; v1 = turn(v1, 13) ^ v0; v3 = turn(v3, 16) ^ v2; v0 = turn(v0, 32);
    v2 += v1; v0 += v3; v1 = turn(v1, 17) ^ v2; v3 = turn(v3, 21) ^ v0; v2 = turn(v2, 32);
}

static void word(u64 m) { v3 ^= m; round_(); v0 ^= m; }

/* SipHash-1-3 with both keys 0, of a seed if there is one, of these bytes, and of a last byte of ones. */
static u64 seeded(const u64 *seed, const char *bytes, u64 size) {
    v0 = 0x736f6d6570736575u; v1 = 0x646f72616e646f6du; v2 = 0x6c7967656e657261u; v3 = 0x7465646279746573u;
    if (seed) word(*seed);
    u64 m, total = size + 1 + (seed ? 8 : 0);
    for (; size >= 8; bytes += 8, size -= 8) { memcpy(&m, bytes, 8); word(m); }
    m = 0;
    memcpy(&m, bytes, size);
    m |= (u64)255 << 8 * size;
    if (size == 7) { word(m); m = 0; }
    word(m | total << 56);
    v2 ^= 255;
    round_(); round_(); round_();
    return v0 ^ v1 ^ v2 ^ v3;
}

static u64 fold(u64 a, u64 b) { unsigned __int128 p = (unsigned __int128)a * b; return (u64)p ^ (u64)(p >> 64); }

/* The fixed hasher of a name of eight bytes. */
static u64 fixed(const char *bytes) {
    u64 name, times = 0x9e3779b97f4a7c15u;
    memcpy(&name, bytes, 8);
    return fold(fold(0x243f6a8885a308d3u ^ name, times ^ 16) ^ (255 | 255 << 8 | 255 << 16), times ^ 2);
}

static uint32_t short_of(u64 hash) { return (uint32_t)(hash ^ hash >> 32); }

static void find(int count, int is_fixed, const u64 *seed) {
    static const char letters[] = "abcdefghijklmnopqrstuvwxyzABCDEFGHIJKLMNOPQRSTUVWXYZ0123456789__";
    uint32_t mask = 0xff000000u | ((1u << BITS) - 1), wanted = 0x5a000001u & mask;
    for (u64 i = 0; count > 0; i++) {
        char name[9] = "n";
        for (int k = 1; k < 8; k++) name[k] = letters[i >> 6 * (7 - k) & 63];
        if ((short_of(is_fixed ? fixed(name) : seeded(seed, name, 8)) & mask) == wanted) { puts(name); count--; }
    }
}

int main(int argc, char **argv) {
    u64 seed = argc > 2 ? strtoull(argv[argc - 1], 0, 10) : 0;
    if (!strcmp(argv[1], "find")) {
        find(atoi(argv[2]), !strcmp(argv[3], "fixed"), argc > 4 ? &seed : 0);
    } else if (!strcmp(argv[1], "seed")) {
        printf("%llu\n", (unsigned long long)seeded(0, text, fread(text, 1, sizeof text, stdin)));
    } else {
        int counts[1 << BITS] = {0}, most = 0;
        while (scanf("%1000s", text) == 1) {
            int *its = &counts[short_of(seeded(&seed, text, strlen(text))) & ((1 << BITS) - 1)];
            if (++*its > most) most = *its;
        }
        printf("%d\n", most);
    }
    return 0;
}
