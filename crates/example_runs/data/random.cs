/*
 * Random numbers, one generator at each position. A linear congruential
 * generator multiplies its state and adds, modulo 2 to the 32; the upper bits
 * are the number. Two statistics show that the generators differ enough: the
 * mean, and the share of points of a square that lie in a quarter circle.
 */
#include <stdio.h>

#define ROUNDS 8
#define SIDE 32768

shape [512]generators;
unsigned int:generators state;

/* Each position's next number, 0 to SIDE - 1. */
unsigned int:generators draw()
{
    state = state * 1664525 + 1013904223;
    return state >> 17;
}

main()
{
    int round, sum, hits, points;

    with (generators) {
        unsigned int:generators x, y;

        state = pcoord(0) * 2654435769;         /* far apart */
        for (round = 0; round < ROUNDS; round++) {
            x = draw();
            y = draw();
            sum += x + y;
            where (x * x + y * y < SIDE * SIDE)
                hits += (int:generators)1;
        }
        points = ROUNDS * positionsof(generators);
        printf("the mean of %d numbers: %d\n", 2 * points, sum / (2 * points));
        printf("%d of %d points in the circle: ", hits, points);
        printf("pi is about %d thousandths\n", hits * 1000 / (points / 4));
    }
}
