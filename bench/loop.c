#include <stdint.h>
#include <stdio.h>

int main(void) {
    static volatile int64_t m[1024];
    int64_t n = 20000000, i = 0;
    while (i < n) {
        m[i % 1024] = m[i % 1024] + i;
        i = i + 1;
    }
    printf("%lld %lld\n", (long long)m[0], (long long)m[1023]);
}
