/* Writes names of six letters and digits whose hashes agree, by the library's own hasher, in the 20 bits that say which
   entries of a table differ: collide COUNT > NAMES, which takes minutes. A script that assigns them would compare each
   with thousands, if that hasher began with its own start; ours begins with a hash of the script's text, and takes as
   long as for any other names:

       cc -O3 bench/collide.c -o collide &&
           ./collide 49000 | sed 's/$/=NewPtr 0/' | time macheap --zone 1048576 >/dev/null
*/
#include <stdint.h>
#include <stdio.h>
#include <stdlib.h>

#define LETTERS 63
static const char letters[] = "ABCDEFGHIJKLMNOPQRSTUVWXYZabcdefghijklmnopqrstuvwxyz0123456789_";
static const uint64_t multiplier = 0x9e3779b97f4a7c15;
static const uint64_t initial = 0x243f6a8885a308d3;

static uint64_t folded(uint64_t a, uint64_t b)
{
    unsigned __int128 product = (unsigned __int128)a * b;
    return (uint64_t)product ^ (uint64_t)(product >> 64);
}

/* The state after one byte more. */
static uint64_t behind(uint64_t state, char byte)
{
    return folded(state ^ (uint64_t)(unsigned char)byte * 0x010101, multiplier ^ 2);
}

int main(int count, char **words)
{
    long left = count > 1 ? atol(words[1]) : 1000;
    uint64_t states[7];
    int at[6] = {0};
    states[0] = folded(initial ^ 6, multiplier ^ 16);
    for (int place = 0; left > 0;) {
        for (; place < 6; place++)
            states[place + 1] = behind(states[place], letters[at[place]]);
        uint32_t hash = (uint32_t)(states[6] ^ states[6] >> 32);
        if ((hash & 0xff000fff) == 0x55000000) {
            for (int it = 0; it < 6; it++)
                putchar(letters[at[it]]);
            putchar('\n');
            left--;
        }
        /* the next name: its first character is a letter */
        for (place = 5; place >= 0 && ++at[place] == (place ? LETTERS : 52); place--)
            at[place] = 0;
        if (place < 0)
            break;
    }
    return 0;
}
