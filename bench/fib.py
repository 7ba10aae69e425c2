def fib(r, n):
    if n < 2:
        r[0] = r[0] + n
    else:
        fib(r, n - 1)
        fib(r, n - 2)


def main():
    r = [0]
    for k in range(20):
        fib(r, 24)
    print(r[0])


main()
