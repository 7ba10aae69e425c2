#include <stdint.h>
#include <stdio.h>

int main(void) {
    static int64_t a[4096];
    for (int64_t i = 0; i < 4096; i++) a[i] = i * 7919 % 4096;
    for (int64_t i = 1; i < 4096; i++) {
        int64_t x = a[i], j = i;
        while (j > 0 && a[j - 1] > x) {
            a[j] = a[j - 1];
            j = j - 1;
        }
        a[j] = x;
    }
    printf("%lld %lld %lld\n", (long long)a[0], (long long)a[1], (long long)a[4095]);
}
