/*
 * List ranking by pointer jumping. A list runs through the positions in no
 * order of theirs. Each position learns how far it is from the end: it adds
 * the distance that its successor knows, and then points to its successor's
 * successor. So 16 nodes need 4 rounds.
 */
#include <stdio.h>

#define NODES 16
#define STRIDE 5
#define LAST 14         /* points to itself */

shape [NODES]nodes;
int:nodes next, distance, order;

main()
{
    int rounds, i;

    with (nodes) {
        next = (pcoord(0) + STRIDE) % NODES;
        [LAST]next = LAST;
        distance = next != pcoord(0);

        while (|= (next != LAST)) {
            distance += [next]distance;
            next = [next]next;
            rounds++;
        }

        /* who knows the distance knows the place in the list too */
        [NODES - 1 - distance]order = pcoord(0);
        printf("%d rounds\nnode:     ", rounds);
        for (i = 0; i < NODES; i++)
            printf("%d ", i);
        printf("\ndistance: ");
        for (i = 0; i < NODES; i++)
            printf("%d ", [i]distance);
        printf("\nthe list: ");
        for (i = 0; i < NODES; i++)
            printf("%d ", [i]order);
        printf("\n");
    }
}
