/*
 * Radix sort. For each bit, from the lowest, the keys that have a 0 there move
 * to the front and those that have a 1 behind them, both in the order in which
 * they stand. Every key finds its new place by counting, and sends itself there.
 */
#include <stdio.h>

#define KEYS 16
#define BITS 7

shape [KEYS]line;
int:line key;

/* The rank of each active position among the active ones, from 0. */
int:line rank()
{
    return enumerate(0, CMC_upward, CMC_exclusive, CMC_none, CMC_no_field);
}

void divide(int bit)
{
    int:line place;
    int zeros;

    where (((key >> bit) & 1) == 0) {
        place = rank();
        zeros = += (int:line)1;         /* how many positions are active */
    } else
        place = zeros + rank();
    [place]key = key;                   /* all read before one is written */
}

void show()
{
    int i;

    for (i = 0; i < KEYS; i++)
        printf("%d ", [i]key);
    printf("\n");
}

main()
{
    int bit;

    with (line) {
        key = (pcoord(0) * 37 + 11) % 101;
        show();
        for (bit = 0; bit < BITS; bit++)
            divide(bit);
        show();
    }
}
