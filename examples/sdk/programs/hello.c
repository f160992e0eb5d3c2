#include <stdio.h>

int main(void) {
    printf("Hello, %s: %d of %s are %.2f\n", "world", 7, "nine", 7.0 / 9);
    return 7;
}
