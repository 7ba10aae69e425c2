def main():
    marks, count, i = bytearray(2000000), 0, 2
    while i < 2000000:
        if marks[i] == 0:
            count = count + 1
            k = i + i
            while k < 2000000:
                marks[k] = 1
                k = k + i
        i = i + 1
    print(count)


main()
