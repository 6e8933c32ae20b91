/*
 * The run lengths of a line of standard input. A run begins where a byte
 * differs from the one before it. Within the segments that begin there, a
 * downward sum of ones gives each first byte the length of its run. The first
 * bytes then number themselves and send what they know to a list.
 */
#include <stdio.h>

#define LENGTH 64       /* longer lines are cut */

shape [LENGTH]line;
int:line byte, run_byte, run_length;
bool:line is_first;

/* Reads a line, and gives the number of its bytes. */
int read_line()
{
    int i, c;

    for (i = 0; i < LENGTH; i++) {
        c = getchar();
        if (c == '\n' || c < 0)
            break;
        [i]byte = c;
    }
    return i;
}

main()
{
    int length, runs, i;

    with (line) {
        int:line rest, number;

        length = read_line();
        where (pcoord(0) < length) {
            is_first = 1;
            where (pcoord(0) > 0)
                is_first = byte != [. - 1]byte;
            rest = enumerate(0, CMC_downward, CMC_inclusive, CMC_segment_bit, &is_first);
            where (is_first) {
                number = enumerate(0, CMC_upward, CMC_exclusive, CMC_none, CMC_no_field);
                [number]run_byte = byte;
                [number]run_length = rest;
                runs = += (int:line)1;
            }
        }
        for (i = 0; i < runs; i++)
            printf("%d%c ", [i]run_length, [i]run_byte);
        printf("\n%d bytes, %d runs, the longest of %d\n", length, runs, >?= run_length);
    }
}
