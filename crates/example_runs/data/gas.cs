/*
 * A gas on a grid, after Hardy, de Pazzis and Pomeau. Each position has room
 * for one particle on its way up, down, left and right: four single bits. Two
 * that meet head on leave at right angles; then each particle goes one
 * position further, round the ends of the grid. A dense square bursts, and its
 * sound runs outward. A second shape counts the particles of each tile of the
 * grid; its picture is a PGM file, the denser the brighter.
 */
#include <stdio.h>

#define SIDE 64         /* a power of 2 */
#define TILE 2
#define DENSE 8         /* half the side of the square */
#define STEPS 20

shape [SIDE][SIDE]grid;
shape [SIDE / TILE][SIDE / TILE]tiles;
bool:grid up, down, left, right;
short:tiles count;

/* A bit that is 1 at about one position of four. */
bool:grid sparse(int seed)
{
    unsigned int:grid x;

    x = (pcoord(0) * SIDE + pcoord(1)) * 2654435769u + seed * 40503;
    x = (x ^ (x >> 15)) * 2246822519u;
    return ((x ^ (x >> 13)) & 3) == 0;
}

void fill()
{
    bool:grid dense;

    dense = pcoord(0) >= SIDE / 2 - DENSE && pcoord(0) < SIDE / 2 + DENSE
        && pcoord(1) >= SIDE / 2 - DENSE && pcoord(1) < SIDE / 2 + DENSE;
    up = dense | sparse(1);
    down = dense | sparse(2);
    left = dense | sparse(3);
    right = dense | sparse(4);
}

/* Two that meet head on turn, where the other two ways are free. */
void collide()
{
    bool:grid turn;

    turn = (up & down & !left & !right) | (left & right & !up & !down);
    up ^= turn;
    down ^= turn;
    left ^= turn;
    right ^= turn;
}

void move()
{
    up = [(. + 1) %% dimof(grid, 0)][.]up;
    down = [(. - 1) %% dimof(grid, 0)][.]down;
    left = [.][(. + 1) %% dimof(grid, 1)]left;
    right = [.][(. - 1) %% dimof(grid, 1)]right;
}

void show()
{
    int i, j;

    with (grid)
        [pcoord(0) / TILE][pcoord(1) / TILE]count += up + down + left + right;
    printf("P5\n%d %d\n%d\n", dimof(tiles, 1), dimof(tiles, 0), 4 * TILE * TILE);
    for (i = 0; i < dimof(tiles, 0); i++)
        for (j = 0; j < dimof(tiles, 1); j++)
            printf("%c", [i][j]count);
}

main()
{
    int step;

    with (grid) {
        fill();
        for (step = 0; step < STEPS; step++) {
            collide();
            move();
        }
    }
    show();
}
