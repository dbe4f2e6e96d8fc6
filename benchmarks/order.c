/* Numbers put in order. */
#include "results.h"

#include <stdlib.h>

/* The order of two numbers, for qsort. */
static int rising(const void *a, const void *b)
{
    double l = *(const double *)a, r = *(const double *)b;
    return (l > r) - (l < r);
}

/* Puts the least first. */
void sort(double *numbers, size_t count)
{
    qsort(numbers, count, sizeof numbers[0], rising);
}
