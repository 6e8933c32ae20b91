/*
 * A wave of water behind a wall with two slits. Each position is a point of
 * the surface with its height now and one step ago; the neighbours pull it
 * towards their mean. The left edge swings. The picture is a PGM file: grey is
 * calm water, black and white are troughs and crests.
 */
#include <stdio.h>

#define ROWS 48
#define COLUMNS 64      /* a multiple of 4 */
#define STEPS 90
#define WALL 20         /* the column of the wall */
#define APART 6         /* from the middle row to the middle of a slit */
#define SLIT 1          /* half of its width */
#define PERIOD 12       /* steps of a full swing */
#define HIGH 16384      /* how far the edge swings */

shape [ROWS][COLUMNS]water;
int:water height, before;
bool:water is_free;     /* neither the rim nor the wall */
unsigned char:water grey;

void build_wall()
{
    int:water off;      /* rows from the middle */

    off = pcoord(0) - ROWS / 2;
    off = off >? -off;
    is_free = pcoord(0) > 0 && pcoord(0) < ROWS - 1 && pcoord(1) > 0 && pcoord(1) < COLUMNS - 1;
    where (pcoord(1) == WALL)
        is_free = off >= APART - SLIT && off <= APART + SLIT;
}

/* One step of time: a quarter of the square of the speed times the bend. */
void advance(int edge)
{
    int:water next;

    where (is_free) {
        next = [. - 1][.]height + [. + 1][.]height + [.][. - 1]height + [.][. + 1]height;
        next = 2 * height - before + ((next - 4 * height) >> 2);
        before = height;
        height = next;
    }
    where (pcoord(1) == 0)
        height = edge;
}

/* A swing that rises and falls by parabolas, for a step of the period. */
int swing(int step)
{
    int half = PERIOD / 2;
    int at = step % half;
    int arc = at * (half - at) * 4 * HIGH / (half * half);

    return step % PERIOD < half ? arc : -arc;
}

void show()
{
    int i, j;

    with (water) {
        grey = (height / 128 + 128) <? 255 >? 0;
        where (pcoord(1) == WALL && !is_free)
            grey = 0;
    }
    printf("P5\n%d %d\n255\n", COLUMNS, ROWS);
    for (i = 0; i < ROWS; i++)
        for (j = 0; j < COLUMNS; j += 4)
            printf("%c%c%c%c", [i][j]grey, [i][j + 1]grey, [i][j + 2]grey, [i][j + 3]grey);
}

main()
{
    int step;

    with (water) {
        build_wall();
        for (step = 1; step <= STEPS; step++)
            advance(swing(step));
    }
    show();
}
