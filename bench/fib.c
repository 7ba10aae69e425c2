#include <stdint.h>
#include <stdio.h>

static void fib(volatile int64_t *r, int64_t n) {
    if (n < 2) {
        r[0] = r[0] + n;
    } else {
        fib(r, n - 1);
        fib(r, n - 2);
    }
}

int main(void) {
    static volatile int64_t r[1];
    for (int k = 0; k < 20; k++) fib(r, 24);
    printf("%lld\n", (long long)r[0]);
}
