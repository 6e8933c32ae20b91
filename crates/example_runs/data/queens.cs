/*
 * Five queens on a board of five by five, none of which may take another. There
 * is one position for each way to put one queen into each row: the digits of
 * its number to the base 5 are the columns. All ways are tried at once, and
 * those that are left number themselves and send their numbers to a list.
 */
#include <stdio.h>

#define QUEENS 5
#define ROOM 16         /* solutions that the list has room for */

shape [3125]ways;       /* 5 to the power of 5 */
shape [ROOM]list;
char:ways column[QUEENS];
int:list solution;

/* The columns of the queens of each way. */
void set_up()
{
    int row;
    int:ways rest = pcoord(0);

    for (row = QUEENS - 1; row >= 0; row--) {
        column[row] = rest % QUEENS;
        rest /= QUEENS;
    }
}

/* Where no queen takes another. */
bool:ways is_peaceful()
{
    int row, other;
    int:ways apart;
    bool:ways peaceful = 1;

    for (row = 1; row < QUEENS; row++)
        for (other = 0; other < row; other++)
            where (peaceful) {
                apart = column[row] - column[other];
                peaceful = apart != 0 && apart != row - other && apart != other - row;
            }
    return peaceful;
}

main()
{
    int found, i, power;

    with (ways) {
        set_up();
        where (is_peaceful()) {
            found = += (int:ways)1;
            [enumerate(0, CMC_upward, CMC_exclusive, CMC_none, CMC_no_field)]solution = pcoord(0);
        }
    }
    printf("%d of %d ways\n", found, positionsof(ways));
    for (i = 0; i < found; i++) {
        for (power = 625; power > 0; power /= QUEENS)
            printf("%d ", [i]solution / power % QUEENS);
        printf("\n");
    }
}
