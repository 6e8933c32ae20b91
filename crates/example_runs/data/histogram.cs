/*
 * A histogram by a send with a combiner. Each number below 1024 counts its own
 * bits that are 1, and sends a 1 to the bin of that count. Messages that meet
 * in a bin are added, so the bins become the binomial coefficients 10 over k.
 */
#include <stdio.h>

#define BITS 10
#define STAR 12         /* numbers for one star of a bar */

shape [1024]numbers;
shape [BITS + 1]bins;
int:bins count;

main()
{
    int k, star;

    with (numbers) {
        int:numbers ones;

        for (k = 0; k < BITS; k++)
            ones += (pcoord(0) >> k) & 1;
        [ones]count += 1;
    }
    for (k = 0; k <= BITS; k++) {
        printf("%d\t%d\t", k, [k]count);
        for (star = STAR; star <= [k]count; star += STAR)
            printf("*");
        printf("\n");
    }
    with (bins)
        printf("all\t%d\nmost\t%d\n", += count, >?= count);
}
