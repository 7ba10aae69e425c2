#include <stdint.h>
#include <stdio.h>

int main(void) {
    static int64_t a[16384], b[16384], c[16384];
    for (int64_t i = 0; i < 16384; i++) {
        a[i] = i % 100;
        b[i] = i % 77;
    }
    for (int64_t i = 0; i < 128; i++)
        for (int64_t j = 0; j < 128; j++) {
            int64_t sum = 0;
            for (int64_t k = 0; k < 128; k++) sum = sum + a[i * 128 + k] * b[k * 128 + j];
            c[i * 128 + j] = sum;
        }
    printf("%lld %lld %lld\n", (long long)c[0], (long long)c[1], (long long)c[16383]);
}
