def double(a, at, length):
    if length == 1:
        a[at] = a[at] * 2
    else:
        half = length // 2
        double(a, at, half)
        double(a, at + half, length - half)


def main():
    m, i = [0] * 1048576, 0
    while i < 1048576:
        m[i] = i
        i = i + 1
    double(m, 0, 1048576)
    print(m[0], m[1], m[1048575])


main()
