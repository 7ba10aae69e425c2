#include <stdint.h>
#include <stdio.h>

int main(void) {
    static unsigned char marks[2000000];
    int64_t count = 0;
    for (int64_t i = 2; i < 2000000; i++) {
        if (marks[i] == 0) {
            count = count + 1;
            for (int64_t k = i + i; k < 2000000; k = k + i) marks[k] = 1;
        }
    }
    printf("%lld\n", (long long)count);
}
