/*
 * The islands of a map, which is read from standard input: 8 lines of 24
 * bytes, '#' for land. Every piece of land begins with its own number as
 * label, and takes the least label around it until none changes; then each
 * island has one label, that of its first piece. A second shape, with one
 * position for each label, names the islands and adds up their sizes.
 */
#include <stdio.h>

#define ROWS 10         /* with a rim of sea, so no reference leaves the map */
#define COLUMNS 26

shape [ROWS][COLUMNS]map;
shape [ROWS * COLUMNS]labels;
bool:map land;
int:map label;
int:labels size, name;

void read_map()
{
    int i, j;

    for (i = 1; i < ROWS - 1; i++) {
        for (j = 1; j < COLUMNS - 1; j++)
            [i][j]land = getchar() == '#';
        getchar();      /* the end of the line */
    }
}

/* Labels all land; the sea has a label above all others. */
void spread()
{
    int:map before;

    label = ROWS * COLUMNS;
    where (land) {
        label = pcoord(0) * COLUMNS + pcoord(1);
        do {
            before = label;
            label = label <? [. - 1][.]label <? [. + 1][.]label;
            label = label <? [.][. - 1]label <? [.][. + 1]label;
        } while (|= (label != before));
    }
}

main()
{
    int i, j, islands;

    with (map) {
        read_map();
        spread();
        where (land)
            [label]size += 1;
    }
    with (labels)
        where (size > 0) {
            name = 'A' + enumerate(0, CMC_upward, CMC_exclusive, CMC_none, CMC_no_field);
            islands = += (int:labels)1;
        }
    for (i = 1; i < ROWS - 1; i++) {
        for (j = 1; j < COLUMNS - 1; j++)
            printf("%c", [i][j]land ? [[i][j]label]name : '.');
        printf("\n");
    }
    with (labels)
        printf("%d islands, the largest of size %d\n", islands, >?= size);
}
