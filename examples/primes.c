/* Adds up the primes below 40, works out the product of their squares modulo 9973, and ends with its remainder by 128. */
static unsigned is_prime(unsigned n) {
    for (unsigned d = 2; d * d <= n; d++)
        if (n % d == 0)
            return 0;
    return n > 1;
}
int main(void) {
    unsigned sum = 0, product = 1;
    for (unsigned n = 0; n < 40; n++)
        if (is_prime(n)) {
            sum += n;
            product = product * n * n % 9973;
        }
    return (int)(product / sum * 1000 + product % sum) % 128;
}
