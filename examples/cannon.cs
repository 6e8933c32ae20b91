/*
 * The product of two matrices on a torus, after Cannon. Each position holds
 * one element of both factors and of the product. The rows of a and the
 * columns of b are first turned so that factors meet that belong together;
 * then all multiply, add, and pass a to the left and b upward.
 */
#include <stdio.h>

#define SIDE 4

shape [SIDE][SIDE]torus;
int:torus a, b, c;

void multiply()
{
    int step;

    a = [.][(. + pcoord(0)) %% SIDE]a;
    b = [(. + pcoord(1)) %% SIDE][.]b;
    c = 0;
    for (step = 0; step < SIDE; step++) {
        c += a * b;
        a = [.][(. + 1) %% dimof(torus, 1)]a;
        b = [(. + 1) %% dimof(torus, 0)][.]b;
    }
}

main()
{
    int i, j;

    with (torus) {
        a = pcoord(0) * SIDE + pcoord(1) + 1;           /* 1 to 16 */
        b = pcoord(0) == pcoord(1) ? 2 : pcoord(0) - pcoord(1);
        multiply();
        for (i = 0; i < SIDE; i++) {
            for (j = 0; j < SIDE; j++)
                printf("%d\t", [i][j]c);
            printf("\n");
        }
        where (pcoord(0) == pcoord(1))
            printf("trace %d\n", += c);
    }
}
