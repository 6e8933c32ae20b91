/*
 * The game of life on a torus. Each cell is a position of a grid, and the
 * neighbours of all cells are counted at once. A glider crosses the corner.
 * The sides are written as dimof, and not as SIDE, so that the neighbours that
 * go round are reached by shifts of the grid and not by messages.
 */
#include <stdio.h>

#define SIDE 8
#define SHOWN 4         /* a picture after so many generations */
#define PICTURES 4

shape [SIDE][SIDE]board;
bool:board alive;

/* How many of the eight cells around each cell live. */
int:board neighbours()
{
    int:board row;      /* a cell together with its left and right neighbour */

    row = alive + [.][(. - 1) %% dimof(board, 1)]alive + [.][(. + 1) %% dimof(board, 1)]alive;
    return row - alive + [(. - 1) %% dimof(board, 0)][.]row + [(. + 1) %% dimof(board, 0)][.]row;
}

void advance()
{
    int:board count;

    count = neighbours();
    alive = count == 3 || alive && count == 2;
}

/* Pictures are made one position after the other, since a stream is. */
void show()
{
    int i, j;

    for (i = 0; i < SIDE; i++) {
        for (j = 0; j < SIDE; j++)
            printf("%c", [i][j]alive ? '#' : '.');
        printf("\n");
    }
    printf("%d cells live\n\n", += alive);
}

main()
{
    int picture, generation;

    with (board) {
        [4][5]alive = [5][6]alive = [6][4]alive = [6][5]alive = [6][6]alive = 1;
        show();
        for (picture = 1; picture < PICTURES; picture++) {
            for (generation = 0; generation < SHOWN; generation++)
                advance();
            show();
        }
    }
}
