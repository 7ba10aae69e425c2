# What bench/tasks.sh and bench/peers.sh share: the programs with many tasks, their inputs, and how a command is timed. Both
# read this file in the folder bench/, with a folder $made for what is made. Not a command.

# The programs that test a single cost, and the kernels of docs/COOKBOOK.md at larger sizes; each with its number of tasks.
single='blocks:1024 halves:65536 readers:1024 wide_readers:100 tree:75025 fib_tasks:987 quicksort_tiny:87273
    ntt_tiny:49151 parallel_merge_sort_tiny:75797'
kernels='reduce:512 prefix_sum:769 histogram:65 merge_sort:192 parallel_merge_sort:709 quicksort:293
    matrix_product:128 lu:321 floyd_warshall:513 jacobi:2561 life:4097 blur:273 segmented_sieve:64
    mandelbrot:128 bfs:467 match:65 lcs:1025 queens:100 ntt:199'
# Kernels and a loop in another form: with `split` in place of `parts`, or the other way round.
forms='jacobi_split:2521 histogram_split:64 matrix_product_parts:129 turns:1 turns_split:1 turns_while:1'

# names LIST: prints the names of a list
names() {
    for it in $1; do echo "${it%:*}"; done
}

# tasks_of NAME: prints the number of tasks of a program
tasks_of() {
    for it in $single $kernels $forms; do [ "${it%:*}" != "$1" ] || echo "${it#*:}"; done
}

# Prints the bytes of standard input as a JSON list.
bytes() {
    echo "[$(od -An -v -tu1 | tr -s ' \n' , | sed 's/^,//; s/,$//')]"
}

# letters SEED: prints 1,024 pseudo-random letters from A to D
letters() {
    awk -v x="$1" 'BEGIN { for (i = 0; i < 1024; i++) { x = x * 16807 % 2147483647; printf "%c", 65 + x % 4 } }'
}

# Makes the inputs of the programs that have one.
make_inputs() {
    echo "{\"x\": $(letters 1 | bytes), \"y\": $(letters 2 | bytes)}" >"$made/lcs.json"
    yes 'the cat sat on the mat; then the other cat went there. ' | tr -d '\n' | head -c 1048576 >"$made/match.txt"
}

# input_of NAME: prints the option for the input of a program, if it has one
input_of() {
    [ ! -e "$made/$1.json" ] || echo "--input $made/$1.json"
    [ ! -e "$made/$1.txt" ] || echo "--text text=$made/$1.txt"
}

# once CMD..: sets $took to the time of a command in microseconds, or `failed`, and $held to its memory in MB; its output goes
# to $made/out
once() {
    from=$(date +%s%N)
    timeout 120 time -f %M -o "$made/memory" "$@" >"$made/out" 2>/dev/null || { took=failed held=0; return; }
    took=$(( ($(date +%s%N) - from) / 1000 ))
    held=$(( $(tail -n 1 "$made/memory") / 1024 ))
}

# least CMD..: sets $best to the minimum of three times (of one, if it takes over 5 s), or `failed`, and $most to the maximum
# memory
least() {
    best= most=0
    for turn in 1 2 3; do
        once "$@"
        [ "$took" != failed ] || { best=failed; return; }
        [ "$held" -le "$most" ] || most=$held
        if [ -z "$best" ] || [ "$took" -lt "$best" ]; then best=$took; fi
        [ "$took" -le 5000000 ] || break
    done
}

# over ONE OTHER: prints ONE divided by OTHER
over() {
    case $1$2 in
        *failed*) echo - ;;
        *) awk "BEGIN { printf \"%.2f\", $1 / ($2 ? $2 : 1) }" ;;
    esac
}

# ms TIME [DIGITS]: prints microseconds as milliseconds
ms() {
    case $1 in
        failed) echo failed ;;
        *) awk "BEGIN { printf \"%.${2:-0}f\", $1 / 1000 }" ;;
    esac
}
