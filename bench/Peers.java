// The kernels of bench/peers.sh by Java's pool: the result of a kernel, and the minimum of up to 20 times in nanoseconds.
import java.util.concurrent.ForkJoinPool;
import java.util.concurrent.RecursiveAction;
import java.util.function.IntConsumer;

class Peers {
    private static class Task extends RecursiveAction {
        private final Runnable body;

        Task(Runnable body) {
            this.body = body;
        }

        @Override
        protected void compute() {
            body.run();
        }
    }

    // Runs the first part as a task and the second one here, and waits for the first.
    private static void both(Runnable one, Runnable other) {
        Task task = new Task(one);
        task.fork();
        other.run();
        task.join();
    }

    private static void tree(int n) {
        if (n > 1) both(() -> tree(n - 1), () -> tree(n - 2));
    }

    private static long leaf(long n) {
        return n < 2 ? n : leaf(n - 1) + leaf(n - 2);
    }

    private static long fib(long n) {
        if (n <= 16) return leaf(n);
        long[] numbers = new long[2];
        both(() -> numbers[0] = fib(n - 1), () -> numbers[1] = fib(n - 2));
        return numbers[0] + numbers[1];
    }

    private static void insertion(long[] s, int from, int to) {
        for (int i = from + 1; i < to; i++) {
            long x = s[i];
            int j = i;
            for (; j > from && s[j - 1] > x; j--) s[j] = s[j - 1];
            s[j] = x;
        }
    }

    private static void merge(long[] s, long[] out, int from, int middle, int to) {
        for (int i = from, j = middle, k = from; k < to; k++)
            out[k] = j == to || i < middle && s[i] <= s[j] ? s[i++] : s[j++];
    }

    // Sorts a part of s in place, or into t. Parts of up to 4,096 are sorted without tasks.
    private static void sort(long[] s, long[] t, int from, int to, boolean into) {
        if (to - from <= 32) {
            insertion(s, from, to);
            if (into) System.arraycopy(s, from, t, from, to - from);
            return;
        }
        int middle = from + (to - from) / 2;
        if (to - from <= 4096) {
            sort(s, t, from, middle, !into);
            sort(s, t, middle, to, !into);
        } else {
            both(() -> sort(s, t, from, middle, !into), () -> sort(s, t, middle, to, !into));
        }
        if (into) merge(s, t, from, middle, to);
        else merge(t, s, from, middle, to);
    }

    private static void numbers(long[] a, int from, int to) {
        long x = 1, times = 1103515245, plus = 12345;
        for (int steps = from; steps > 0; steps /= 2) {
            if (steps % 2 == 1) x = (x * times + plus) % 2147483648L;
            plus = (times * plus + plus) % 2147483648L;
            times = times * times % 2147483648L;
        }
        for (int i = from; i < to; i++) a[i] = x = (x * 1103515245 + 12345) % 2147483648L;
    }

    private static long disorder(long[] a, int from, int to) {
        long count = 0;
        for (int i = from; i < to && i + 1 < a.length; i++) if (a[i] > a[i + 1]) count++;
        return count;
    }

    // Runs a part for each of the numbers below n as a task, and waits for all.
    private static void each(int n, IntConsumer part) {
        Task[] tasks = new Task[n];
        for (int k = 0; k < n; k++) {
            int number = k;
            tasks[k] = new Task(() -> part.accept(number));
            tasks[k].fork();
        }
        for (Task task : tasks) task.join();
    }

    private static String mergeSort() {
        long[] a = new long[262144], scratch = new long[262144], wrong = new long[64];
        each(64, k -> numbers(a, k * 4096, (k + 1) * 4096));
        sort(a, scratch, 0, a.length, false);
        each(64, k -> wrong[k] = disorder(a, k * 4096, (k + 1) * 4096));
        long total = 0;
        for (long it : wrong) total += it;
        return total + " " + a[0] + " " + a[a.length - 1];
    }

    private static void product(long[] a, long[] b, long[] c, int n, int from, int to) {
        if (to - from <= 1) {
            for (int j = 0; j < n; j++) {
                long sum = 0;
                for (int k = 0; k < n; k++) sum += a[from * n + k] * b[k * n + j];
                c[from * n + j] = sum;
            }
            return;
        }
        int middle = from + (to - from) / 2;
        both(() -> product(a, b, c, n, from, middle), () -> product(a, b, c, n, middle, to));
    }

    private static String matrixProduct() {
        int n = 128;
        long[] a = new long[n * n], b = new long[n * n], c = new long[n * n];
        for (int i = 0; i < n * n; i++) {
            a[i] = i % 7 - 3;
            b[i] = i % 5 - 2;
        }
        product(a, b, c, n, 0, n);
        long sum = 0;
        for (long it : c) sum = (sum * 31 + it) % 1000000007;
        return c[0] + " " + c[33] + " " + c[16383] + " " + sum;
    }

    private static boolean fits(long[] board, int row, long column) {
        for (int i = 0; i < row; i++)
            if (board[i] == column || board[i] + row - i == column || board[i] - row + i == column) return false;
        return true;
    }

    private static long place(long[] board, int row, int n) {
        if (row == n) return 1;
        long count = 0;
        for (int column = 0; column < n; column++)
            if (fits(board, row, column)) {
                board[row] = column;
                count += place(board, row + 1, n);
            }
        return count;
    }

    private static long starts(int first, int length, int n) {
        if (length == 1) {
            long[] board = new long[n];
            board[0] = first / n;
            board[1] = first % n;
            return fits(board, 1, first % n) ? place(board, 2, n) : 0;
        }
        long[] numbers = new long[2];
        int half = length / 2;
        both(() -> numbers[0] = starts(first, half, n), () -> numbers[1] = starts(first + half, length - half, n));
        return numbers[0] + numbers[1];
    }

    private static String kernel(String name) {
        switch (name) {
            case "tree":
                tree(24);
                return "";
            case "fib_tasks":
                return "" + fib(30);
            case "merge_sort":
                return mergeSort();
            case "matrix_product":
                return matrixProduct();
            case "queens":
                return "" + starts(0, 100, 10);
            default:
                throw new IllegalArgumentException(name);
        }
    }

    public static void main(String[] words) {
        ForkJoinPool pool = new ForkJoinPool(Integer.parseInt(words[1]));
        long best = Long.MAX_VALUE, all = 0;
        String[] result = new String[1];
        for (int turn = 0; turn < 20 && (turn < 3 || all < 2000000000L); turn++) {
            long from = System.nanoTime();
            pool.invoke(new Task(() -> result[0] = kernel(words[0])));
            long took = System.nanoTime() - from;
            best = Math.min(best, took);
            all += took;
        }
        if (!result[0].isEmpty()) System.out.println(result[0]);
        System.out.println(best);
    }
}
