/*
 * Bitonic sort. In each step every position looks at the key of a partner,
 * whose number differs from its own in one bit, and the pair keeps the lesser
 * key at one end and the greater at the other. 32 keys need 15 steps.
 */
#include <stdio.h>

#define KEYS 32

shape [KEYS]line;
int:line key;

/* One step: runs of `size` keys are sorted up and down in turn. */
void exchange(int size, int distance)
{
    int:line other;
    bool:line is_lower, is_upward;

    other = [. ^ distance]key;
    is_lower = (pcoord(0) & distance) == 0;
    is_upward = (pcoord(0) & size) == 0;
    where (is_lower == is_upward)
        key <?= other;
    else
        key >?= other;
}

void show()
{
    int i;

    for (i = 0; i < KEYS; i++)
        printf("%d ", [i]key);
    printf("\n");
}

main()
{
    int size, distance, steps;

    with (line) {
        key = (pcoord(0) * pcoord(0) * 7 + 5) % 64;
        show();
        for (size = 2; size <= KEYS; size *= 2)
            for (distance = size / 2; distance > 0; distance /= 2) {
                exchange(size, distance);
                steps++;
            }
        show();
        /* each position but the last compares itself with the next */
        where (pcoord(0) < KEYS - 1)
            printf("%d steps, %d pairs out of order\n", steps, += (key > [. + 1]key));
    }
}
