def main():
    a, b, c, i = [0] * 16384, [0] * 16384, [0] * 16384, 0
    while i < 16384:
        a[i] = i % 100
        b[i] = i % 77
        i = i + 1
    i = 0
    while i < 128:
        j = 0
        while j < 128:
            sum, k = 0, 0
            while k < 128:
                sum = sum + a[i * 128 + k] * b[k * 128 + j]
                k = k + 1
            c[i * 128 + j] = sum
            j = j + 1
        i = i + 1
    print(c[0], c[1], c[16383])


main()
