/*
 * The sum of two long numbers, which are the two lines of standard input. The
 * digits are added at once, and so are the carries found: where two digits add
 * up to 9 a carry passes through, and everywhere else it is known at the place
 * itself whether one leaves it. So each place asks the nearest one behind it
 * where none passes, which is the greatest of a scan.
 */
#include <stdio.h>

#define DIGITS 40       /* the last digit stands in the last position */

shape [DIGITS]number;
int:number typed, a, b, sum;

/* Reads a line of digits into `typed`, and gives their number. */
int read_line()
{
    int c, length;

    for (c = getchar(); c >= '0' && c <= '9'; c = getchar()) {
        [length]typed = c - '0';
        length++;
    }
    return length;
}

/* The digits of a line, moved to the end of the row. */
int:number read_number()
{
    int blank;
    int:number digit;

    blank = DIGITS - read_line();
    where (pcoord(0) >= blank)
        digit = [. - blank]typed;
    return digit;
}

int:number carries(int:number digits)
{
    int:number known;

    where (digits != 9)
        known = 2 * (DIGITS - pcoord(0)) + (digits > 9);
    return scan(known, 0, CMC_combiner_max, CMC_downward, CMC_none, CMC_no_field, CMC_exclusive) & 1;
}

void show(int:number digit)
{
    int i;

    for (i = 0; i < DIGITS; i++)
        printf("%d", [i]digit);
    printf("\n");
}

main()
{
    with (number) {
        a = read_number();
        b = read_number();
        sum = (a + b + carries(a + b)) % 10;
        show(a);
        show(b);
        show(sum);
    }
}
