/* names COUNT BITS: prints so many names of eight letters, one a line. In a hash map of the kit that hashes
   without a seed, and has 2 to the BITS groups, all of them begin at the first group. Whoever looks one of
   them up there goes past those before it. With a seed they are names like others. */
#include <stdint.h>
#include <stdio.h>
#include <stdlib.h>
#include <string.h>

static const char LETTERS[] = "abcdefghijklmnopqrstuvwxyzABCDEFGHIJKLMNOPQRSTUVWXYZ_0123456789";
static const uint64_t FACTOR = 0x9e3779b97f4a7c15u;
static const uint64_t START = 0x243f6a8885a308d3u;

static uint64_t fold(uint64_t one, uint64_t other)
{
    unsigned __int128 product = (unsigned __int128)one * other;
    return (uint64_t)product ^ (uint64_t)(product >> 64);
}

/* The group at which a name of eight letters begins. */
static uint32_t group_of(const char *name, uint32_t groups)
{
    uint64_t word;
    memcpy(&word, name, 8);
    uint64_t hash = fold(fold(word ^ START, FACTOR ^ 16) ^ 0xffffff, FACTOR ^ 2);
    return (uint32_t)(hash ^ hash >> 32) % groups;
}

int main(int count, char **words)
{
    if (count != 3)
        return 2;
    long left = atol(words[1]);
    uint32_t groups = (uint32_t)1 << atoi(words[2]);
    for (uint64_t number = 0; left > 0; number++) {
        char name[] = "na_.....";
        uint64_t rest = number;
        for (int at = 3; at < 8; at++, rest /= 63)
            name[at] = LETTERS[rest % 63];
        if (group_of(name, groups) == 0) {
            puts(name);
            left--;
        }
    }
    return 0;
}
