/* Adds up the bytes of the recorded input, writes the sum, and ends with its lowest seven bits. */
static long call(long number, long a0, void *a1, long a2) {
    register long n asm("a7") = number, x asm("a0") = a0, z asm("a2") = a2;
    register void *y asm("a1") = a1;
    asm volatile("ecall" : "+r"(x) : "r"(n), "r"(y), "r"(z) : "memory");
    return x;
}
static unsigned char buffer[8];
unsigned total;
int main(void) {
    long count;
    while ((count = call(63, 0, buffer, sizeof buffer)) > 0)
        for (long i = 0; i < count; i++)
            total += buffer[i];
    call(64, 1, &total, sizeof total);
    return total & 127;
}
