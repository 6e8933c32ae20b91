/*
 * A sandpile. 100 grains lie on one position of a table. Wherever four or more
 * lie, four fall, one to each neighbour; all such positions fall at once, and
 * so on until none falls. Grains that reach the rim stay there.
 */
#include <stdio.h>

#define SIDE 11
#define GRAINS 100

shape [SIDE][SIDE]table;
int:table grains;
bool:table is_inner, falls;

void show()
{
    int i, j;

    for (i = 1; i < SIDE - 1; i++) {
        for (j = 1; j < SIDE - 1; j++)
            printf("%d ", [i][j]grains);
        printf("\n");
    }
}

main()
{
    int rounds;

    with (table) {
        is_inner = pcoord(0) > 0 && pcoord(0) < SIDE - 1 && pcoord(1) > 0 && pcoord(1) < SIDE - 1;
        [SIDE / 2][SIDE / 2]grains = GRAINS;
        where (is_inner) {
            falls = grains >= 4;
            while (|= falls) {
                grains += [. - 1][.]falls + [. + 1][.]falls + [.][. - 1]falls + [.][. + 1]falls - 4 * falls;
                falls = grains >= 4;
                rounds++;
            }
        }
        show();
        printf("still after %d rounds, with %d grains\n", rounds, += grains);
    }
}
