def main():
    a, i = [0] * 4096, 0
    while i < 4096:
        a[i] = i * 7919 % 4096
        i = i + 1
    i = 1
    while i < 4096:
        x, j = a[i], i
        while j > 0 and a[j - 1] > x:
            a[j] = a[j - 1]
            j = j - 1
        a[j] = x
        i = i + 1
    print(a[0], a[1], a[4095])


main()
