/*
 * The depth of brackets in a line of standard input. A '(' counts 1 and a ')'
 * counts -1, so a sum over all bytes up to one is the depth behind it. The
 * line is balanced if the last depth is 0 and none is below.
 */
#include <stdio.h>

#define LENGTH 64       /* longer lines are cut */

shape [LENGTH]line;
char:line byte;

int read_line()
{
    int i, c;

    for (i = 0; i < LENGTH; i++) {
        c = getchar();
        if (c == '\n' || c < 0)
            break;
        [i]byte = c;
    }
    return i;
}

main()
{
    int length, i;

    with (line) {
        int:line step, depth;

        length = read_line();
        where (pcoord(0) < length) {
            step = byte == '(' ? 1 : byte == ')' ? -1 : 0;
            depth = scan(step, 0, CMC_combiner_add, CMC_upward, CMC_none, CMC_no_field, CMC_inclusive);
            for (i = 0; i < length; i++)
                printf("%c", [i]byte);
            printf("\n");
            for (i = 0; i < length; i++)
                printf("%d", [i]depth);
            printf("\ngreatest depth %d, ", >?= depth);
            printf("balanced: %c\n", (+= step) == 0 && (<?= depth) >= 0 ? 'y' : 'n');
        }
    }
}
