#include <stdint.h>
#include <stdio.h>

static int64_t m[1048576];

static void twice(int64_t *a, int64_t len) {
    if (len == 1) {
        a[0] = a[0] * 2;
    } else {
        int64_t half = len / 2;
        twice(a, half);
        twice(a + half, len - half);
    }
}

int main(void) {
    for (int64_t i = 0; i < 1048576; i++) m[i] = i;
    twice(m, 1048576);
    printf("%lld %lld %lld\n", (long long)m[0], (long long)m[1], (long long)m[1048575]);
}
