/*
 * The Mandelbrot set in fixed point. Every point of the plane runs
 * z = z * z + c by itself, from 0, as long as z stays within the circle of
 * radius 2, and counts its rounds. Numbers are in 4096ths. What comes out is
 * letters, or a PGM file where PICTURE is 1.
 */
#include <stdio.h>

#define ROWS 15
#define COLUMNS 42
#define ONE 4096
#define BITS 12
#define ROUNDS 20
#define PICTURE 0

shape [ROWS][COLUMNS]plane;
char:plane count;

void iterate()
{
    int:plane x, y, next;
    int:plane c_x = pcoord(1) * 3 * ONE / COLUMNS - 2 * ONE;
    int:plane c_y = (2 * pcoord(0) + 1 - ROWS) * ONE * 6 / (5 * ROWS);
    int i;

    for (i = 0; i < ROUNDS; i++)
        where (x * x + y * y <= 4 * ONE * ONE) {
            next = ((x * x - y * y) >> BITS) + c_x;
            y = ((x * y) >> (BITS - 1)) + c_y;
            x = next;
            count++;
        }
}

/* The longer a point stays, the darker. */
int letter(int rounds)
{
    return rounds == ROUNDS ? '#' : rounds > 7 ? '+' : rounds > 4 ? ':' : rounds > 2 ? '.' : ' ';
}

int grey(int rounds)
{
    return 255 - rounds * 255 / ROUNDS;
}

void show()
{
    int i, j;

    if (PICTURE)
        printf("P5\n%d %d\n255\n", COLUMNS, ROWS);
    for (i = 0; i < ROWS; i++) {
        for (j = 0; j < COLUMNS; j++)
            printf("%c", PICTURE ? grey([i][j]count) : letter([i][j]count));
        if (!PICTURE)
            printf("|\n");
    }
}

main()
{
    with (plane) {
        iterate();
        show();
        where (count == ROUNDS)
            if (!PICTURE)
                printf("%d of %d points stay\n", += (int:plane)1, positionsof(plane));
    }
}
