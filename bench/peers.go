// The kernels of bench/peers.sh by goroutines: the result of a kernel, and the minimum of up to 20 times in nanoseconds.
package main

import (
	"fmt"
	"os"
	"runtime"
	"strconv"
	"sync"
	"time"
)

// both runs the first function as a goroutine and the second one here, and waits for the first.
func both(one, other func()) {
	var all sync.WaitGroup
	all.Add(1)
	go func() {
		one()
		all.Done()
	}()
	other()
	all.Wait()
}

func tree(n int, all *sync.WaitGroup) {
	if n > 1 {
		all.Add(1)
		go func() {
			tree(n-1, all)
			all.Done()
		}()
		tree(n-2, all)
	}
}

func leaf(n int64) int64 {
	if n < 2 {
		return n
	}
	return leaf(n-1) + leaf(n-2)
}

func fib(n int64) int64 {
	if n <= 16 {
		return leaf(n)
	}
	var one, other int64
	both(func() { one = fib(n - 1) }, func() { other = fib(n - 2) })
	return one + other
}

func insertion(s []int64) {
	for i := 1; i < len(s); i++ {
		x, j := s[i], i
		for ; j > 0 && s[j-1] > x; j-- {
			s[j] = s[j-1]
		}
		s[j] = x
	}
}

func merge(x, y, out []int64) {
	i, j := 0, 0
	for k := range out {
		if j == len(y) || i < len(x) && x[i] <= y[j] {
			out[k] = x[i]
			i++
		} else {
			out[k] = y[j]
			j++
		}
	}
}

// sort sorts s in place, or into t. Parts of up to 4,096 are sorted without goroutines.
func sort(s, t []int64, into bool) {
	if len(s) <= 32 {
		insertion(s)
		if into {
			copy(t, s)
		}
		return
	}
	half := len(s) / 2
	if len(s) <= 4096 {
		sort(s[:half], t[:half], !into)
		sort(s[half:], t[half:], !into)
	} else {
		both(func() { sort(s[:half], t[:half], !into) }, func() { sort(s[half:], t[half:], !into) })
	}
	if into {
		merge(s[:half], s[half:], t)
	} else {
		merge(t[:half], t[half:], s)
	}
}

func numbers(piece []int64, first int) {
	x, times, plus := int64(1), int64(1103515245), int64(12345)
	for steps := first; steps > 0; steps /= 2 {
		if steps%2 == 1 {
			x = (x*times + plus) % 2147483648
		}
		plus = (times*plus + plus) % 2147483648
		times = times * times % 2147483648
	}
	for i := range piece {
		x = (x*1103515245 + 12345) % 2147483648
		piece[i] = x
	}
}

func disorder(a []int64, from, to int) int {
	count := 0
	for i := from; i < to && i+1 < len(a); i++ {
		if a[i] > a[i+1] {
			count++
		}
	}
	return count
}

// each runs a function for 0 to n - 1, each as a goroutine, and waits for all.
func each(n int, one func(k int)) {
	var all sync.WaitGroup
	all.Add(n)
	for k := 0; k < n; k++ {
		go func(k int) {
			one(k)
			all.Done()
		}(k)
	}
	all.Wait()
}

func mergeSort() string {
	a, scratch := make([]int64, 262144), make([]int64, 262144)
	wrong := make([]int, 64)
	each(64, func(k int) { numbers(a[k*4096:(k+1)*4096], k*4096) })
	sort(a, scratch, false)
	each(64, func(k int) { wrong[k] = disorder(a, k*4096, (k+1)*4096) })
	total := 0
	for _, it := range wrong {
		total += it
	}
	return fmt.Sprintln(total, a[0], a[len(a)-1])
}

func product(a, b, c []int64, n int) {
	rows := len(c) / n
	if rows <= 1 {
		for j := range c {
			sum := int64(0)
			for k := 0; k < n; k++ {
				sum += a[k] * b[k*n+j]
			}
			c[j] = sum
		}
		return
	}
	half := rows / 2 * n
	both(func() { product(a[:half], b, c[:half], n) }, func() { product(a[half:], b, c[half:], n) })
}

func matrixProduct() string {
	n := 128
	a, b, c := make([]int64, n*n), make([]int64, n*n), make([]int64, n*n)
	for i := range a {
		a[i] = int64(i%7 - 3)
		b[i] = int64(i%5 - 2)
	}
	product(a, b, c, n)
	sum := int64(0)
	for _, it := range c {
		sum = (sum*31 + it) % 1000000007
	}
	return fmt.Sprintln(c[0], c[33], c[16383], sum)
}

func fits(board []int64, row, column int64) bool {
	for i := int64(0); i < row; i++ {
		if board[i] == column || board[i]+row-i == column || board[i]-row+i == column {
			return false
		}
	}
	return true
}

func place(board []int64, row, n int64) int64 {
	if row == n {
		return 1
	}
	count := int64(0)
	for column := int64(0); column < n; column++ {
		if fits(board, row, column) {
			board[row] = column
			count += place(board, row+1, n)
		}
	}
	return count
}

func starts(first, length, n int64) int64 {
	if length == 1 {
		board := make([]int64, n)
		board[0], board[1] = first/n, first%n
		if fits(board, 1, first%n) {
			return place(board, 2, n)
		}
		return 0
	}
	half := length / 2
	var one, other int64
	both(func() { one = starts(first, half, n) }, func() { other = starts(first+half, length-half, n) })
	return one + other
}

func kernel(name string) string {
	switch name {
	case "tree":
		var all sync.WaitGroup
		tree(24, &all)
		all.Wait()
		return ""
	case "fib_tasks":
		return fmt.Sprintln(fib(30))
	case "merge_sort":
		return mergeSort()
	case "matrix_product":
		return matrixProduct()
	case "queens":
		return fmt.Sprintln(starts(0, 100, 10))
	}
	os.Exit(2)
	return ""
}

func main() {
	if len(os.Args) < 3 {
		os.Exit(2)
	}
	workers, _ := strconv.Atoi(os.Args[2])
	runtime.GOMAXPROCS(workers)
	best, all := int64(-1), int64(0)
	result := ""
	for turn := 0; turn < 20 && (turn < 3 || all < 2000000000); turn++ {
		from := time.Now()
		result = kernel(os.Args[1])
		took := time.Since(from).Nanoseconds()
		if best < 0 || took < best {
			best = took
		}
		all += took
	}
	fmt.Print(result)
	fmt.Println(best)
}
