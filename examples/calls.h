/* The system calls of the machine, for programs without a C library. */
static inline long call(long number, long a0, long a1, long a2) {
    register long n asm("a7") = number, x asm("a0") = a0, y asm("a1") = a1, z asm("a2") = a2;
    asm volatile("ecall" : "+r"(x) : "r"(n), "r"(y), "r"(z) : "memory");
    return x;
}

static inline long read(int descriptor, void *bytes, unsigned long most) {
    return call(63, descriptor, (long)bytes, (long)most);
}

static inline long write(int descriptor, const void *bytes, unsigned long count) {
    return call(64, descriptor, (long)bytes, (long)count);
}
