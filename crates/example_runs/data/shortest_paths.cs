/*
 * The lengths of the shortest paths between all pairs of towns. Position i, j
 * holds the length of the best known way from i to j. For each town k, every
 * pair at once tries the way over k: it gets the two parts from row k and from
 * column k. All lengths are shown where they fit on a page.
 */
#include <stdio.h>

#define TOWNS 8
#define FAR 1000000

shape [TOWNS][TOWNS]pairs;
int:pairs length;

/* One-way roads: to the next town, and from even towns three further. */
void build_roads()
{
    int:pairs ahead;

    ahead = (pcoord(1) - pcoord(0)) %% TOWNS;
    length = FAR;
    where (ahead == 0)
        length = 0;
    where (ahead == 1)
        length = 3 + pcoord(0);
    where (ahead == 3 && pcoord(0) % 2 == 0)
        length = 4;
}

void show()
{
    int i, j;

    for (i = 0; i < TOWNS; i++) {
        for (j = 0; j < TOWNS; j++)
            printf("%d\t", [i][j]length);
        printf("\n");
    }
}

main()
{
    int k;

    with (pairs) {
        build_roads();
        for (k = 0; k < TOWNS; k++)
            length <?= [.][k]length + [k][.]length;
        if (TOWNS <= 16)
            show();
        printf("the longest way: %d\n", >?= length);
    }
}
