//! The kernels of bench/peers.sh by rayon: the result of a kernel, and the minimum of up to 20 times in nanoseconds.
use std::time::Instant;

fn tree<'s>(scope: &rayon::Scope<'s>, n: u32) {
    if n > 1 {
        scope.spawn(move |scope| tree(scope, n - 1));
        tree(scope, n - 2);
    }
}

fn leaf(n: i64) -> i64 {
    if n < 2 { n } else { leaf(n - 1) + leaf(n - 2) }
}

fn fib(n: i64) -> i64 {
    if n <= 16 {
        return leaf(n);
    }
    let (one, other) = rayon::join(|| fib(n - 1), || fib(n - 2));
    one + other
}

fn insertion(s: &mut [i64]) {
    for i in 1..s.len() {
        let (x, mut j) = (s[i], i);
        while j > 0 && s[j - 1] > x {
            s[j] = s[j - 1];
            j -= 1;
        }
        s[j] = x;
    }
}

fn merge(x: &[i64], y: &[i64], out: &mut [i64]) {
    let (mut i, mut j) = (0, 0);
    for to in out.iter_mut() {
        if j == y.len() || i < x.len() && x[i] <= y[j] {
            *to = x[i];
            i += 1;
        } else {
            *to = y[j];
            j += 1;
        }
    }
}

/// Sorts `s` in place, or into `t`. Parts of up to 4,096 are sorted without tasks.
fn sort(s: &mut [i64], t: &mut [i64], into: bool) {
    let length = s.len();
    if length <= 32 {
        insertion(s);
        if into {
            t.copy_from_slice(s);
        }
        return;
    }
    let (sl, sr) = s.split_at_mut(length / 2);
    let (tl, tr) = t.split_at_mut(length / 2);
    if length <= 4096 {
        sort(sl, tl, !into);
        sort(sr, tr, !into);
    } else {
        rayon::join(|| sort(sl, tl, !into), || sort(sr, tr, !into));
    }
    if into {
        merge(sl, sr, t);
    } else {
        merge(tl, tr, s);
    }
}

fn numbers(piece: &mut [i64], first: usize) {
    let (mut x, mut times, mut plus, mut steps): (i64, i64, i64, usize) = (1, 1103515245, 12345, first);
    while steps > 0 {
        if steps % 2 == 1 {
            x = (x * times + plus) % 2147483648;
        }
        plus = (times * plus + plus) % 2147483648;
        times = times * times % 2147483648;
        steps /= 2;
    }
    for it in piece.iter_mut() {
        x = (x * 1103515245 + 12345) % 2147483648;
        *it = x;
    }
}

fn merge_sort() -> String {
    let (mut a, mut scratch, mut wrong) = (vec![0; 262144], vec![0; 262144], vec![0; 64]);
    rayon::scope(|scope| {
        for (k, piece) in a.chunks_mut(4096).enumerate() {
            scope.spawn(move |_| numbers(piece, k * 4096));
        }
    });
    sort(&mut a, &mut scratch, false);
    let all = &a;
    rayon::scope(|scope| {
        for (k, count) in wrong.iter_mut().enumerate() {
            let end = all.len().min(k * 4096 + 4097);
            scope.spawn(move |_| *count = all[k * 4096..end].windows(2).filter(|it| it[0] > it[1]).count());
        }
    });
    format!("{} {} {}\n", wrong.iter().sum::<usize>(), a[0], a[a.len() - 1])
}

fn product(a: &[i64], b: &[i64], c: &mut [i64], n: usize) {
    let rows = c.len() / n;
    if rows <= 1 {
        for (j, to) in c.iter_mut().enumerate() {
            *to = (0..n).map(|k| a[k] * b[k * n + j]).sum();
        }
        return;
    }
    let half = rows / 2 * n;
    let (al, ar) = a.split_at(half);
    let (cl, cr) = c.split_at_mut(half);
    rayon::join(|| product(al, b, cl, n), || product(ar, b, cr, n));
}

fn matrix_product() -> String {
    let n = 128;
    let a: Vec<i64> = (0..n * n).map(|i| i as i64 % 7 - 3).collect();
    let b: Vec<i64> = (0..n * n).map(|i| i as i64 % 5 - 2).collect();
    let mut c = vec![0; n * n];
    product(&a, &b, &mut c, n);
    let sum = c.iter().fold(0, |sum, it| (sum * 31 + it) % 1000000007);
    format!("{} {} {} {}\n", c[0], c[33], c[16383], sum)
}

fn fits(board: &[i64], row: usize, column: i64) -> bool {
    (0..row).all(|i| {
        let apart = (row - i) as i64;
        board[i] != column && board[i] + apart != column && board[i] - apart != column
    })
}

fn place(board: &mut [i64], row: usize, n: usize) -> i64 {
    if row == n {
        return 1;
    }
    let mut count = 0;
    for column in 0..n as i64 {
        if fits(board, row, column) {
            board[row] = column;
            count += place(board, row + 1, n);
        }
    }
    count
}

fn starts(first: usize, length: usize, n: usize) -> i64 {
    if length == 1 {
        let mut board = vec![0; n];
        board[0] = (first / n) as i64;
        board[1] = (first % n) as i64;
        return if fits(&board, 1, board[1]) { place(&mut board, 2, n) } else { 0 };
    }
    let half = length / 2;
    let (one, other) = rayon::join(|| starts(first, half, n), || starts(first + half, length - half, n));
    one + other
}

fn kernel(name: &str) -> String {
    match name {
        "tree" => {
            rayon::scope(|scope| tree(scope, 24));
            String::new()
        }
        "fib_tasks" => format!("{}\n", fib(30)),
        "merge_sort" => merge_sort(),
        "matrix_product" => matrix_product(),
        "queens" => format!("{}\n", starts(0, 100, 10)),
        _ => std::process::exit(2),
    }
}

fn main() {
    let words: Vec<String> = std::env::args().collect();
    let workers = words[2].parse().unwrap();
    let pool = rayon::ThreadPoolBuilder::new().num_threads(workers).build().unwrap();
    let (mut best, mut all, mut turn) = (u128::MAX, 0, 0);
    let mut result = String::new();
    while turn < 20 && (turn < 3 || all < 2_000_000_000) {
        let from = Instant::now();
        result = pool.install(|| kernel(&words[1]));
        let took = from.elapsed().as_nanos();
        best = best.min(took);
        all += took;
        turn += 1;
    }
    print!("{result}");
    println!("{best}");
}
