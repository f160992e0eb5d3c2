/* Sorts a thousand numbers, and prints the least, the middle and the greatest. */
#include <stdio.h>
#include <stdlib.h>

static int ascending(const void *a, const void *b) {
    double x = *(const double *)a, y = *(const double *)b;
    return x < y ? -1 : x > y;
}

int main(void) {
    enum { COUNT = 1000 };
    double *numbers = malloc(COUNT * sizeof *numbers);
    unsigned long seed = 1;
    if (numbers == NULL)
        return 1;
    for (int i = 0; i < COUNT; i++) {
        seed = seed * 1103515245 + 12345;
        numbers[i] = seed >> 8;
    }
    qsort(numbers, COUNT, sizeof *numbers, ascending);
    printf("%.4f %.4f %.4f\n", numbers[0] / 16, numbers[COUNT / 2] / 16, numbers[COUNT - 1] / 16);
    free(numbers);
    return 0;
}
