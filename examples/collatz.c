/* Follows the sequence of Collatz from 27, keeps its numbers in a table, and ends with how many there are. */
static unsigned table[128];
int main(void) {
    unsigned count = 0;
    for (unsigned n = 27; n != 1; n = n & 1 ? n + n + n + 1 : n >> 1)
        table[count++ & 127] = n;
    return count;
}
