/*
 * Jacobi relaxation. A square plate is held at 100 degrees along its upper
 * edge and at 0 along the others. Every inner position becomes the mean of its
 * four neighbours, until none changes. Heat is kept in 256ths of a degree.
 */
#include <stdio.h>

#define SIDE 7
#define DEGREE 256

shape [SIDE][SIDE]plate;
int:plate heat;
bool:plate is_inner;

int:current distance(int:current a, int:current b)
{
    return a > b ? a - b : b - a;
}

/* Prints a number in a column of four. */
void column(int value)
{
    if (value < 10)
        printf(" ");
    if (value < 100)
        printf(" ");
    printf("%d ", value);
}

void show()
{
    int i, j;

    for (i = 0; i < SIDE; i++) {
        for (j = 0; j < SIDE; j++)
            column([i][j]heat / DEGREE);
        printf("\n");
    }
}

main()
{
    int rounds, change;

    with (plate) {
        int:plate before;

        where (pcoord(0) == 0)
            heat = 100 * DEGREE;
        is_inner = pcoord(0) > 0 && pcoord(0) < SIDE - 1 && pcoord(1) > 0 && pcoord(1) < SIDE - 1;
        where (is_inner)                /* so no reference leaves the plate */
            do {
                before = heat;
                heat = ([. - 1][.]heat + [. + 1][.]heat + [.][. - 1]heat + [.][. + 1]heat) / 4;
                change = >?= distance(heat, before);
                rounds++;
            } while (change > 0);
        show();
        printf("still after %d rounds\n", rounds);
    }
}
