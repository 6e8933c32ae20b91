/*
 * A cellular automaton of one axis. Standard input has the number of the rule,
 * 0 to 255, on a line, and then the first row, '#' for a 1. The three bits
 * around a cell are a number from 0 to 7, and the bit of that number in the
 * rule is the cell's next state. The row is joined at its ends.
 */
#include <stdio.h>

#define WIDTH 31
#define ROWS 16

shape [WIDTH]row;
bool:row cell;
int:row around;         /* a cell and its neighbours as three bits */

/* A decimal number and the byte behind it. */
int read_number()
{
    int byte, number;

    byte = getchar();
    while (byte >= '0' && byte <= '9') {
        number = number * 10 + byte - '0';
        byte = getchar();
    }
    return number;
}

void read_row()
{
    int i;

    for (i = 0; i < WIDTH; i++)
        [i]cell = getchar() == '#';
}

void show()
{
    int i;

    for (i = 0; i < WIDTH; i++)
        printf("%c", [i]cell ? '#' : '.');
    printf("\n");
}

main()
{
    int rule, i;

    with (row) {
        rule = read_number();
        read_row();
        for (i = 0; i < ROWS; i++) {
            show();
            around = [(. - 1) %% dimof(row, 0)]cell * 4 + cell * 2 + [(. + 1) %% dimof(row, 0)]cell;
            cell = (rule >> around) & 1;
        }
    }
}
