def main():
    m, n, i = [0] * 1024, 20000000, 0
    while i < n:
        m[i % 1024] = m[i % 1024] + i
        i = i + 1
    print(m[0], m[1023])


main()
