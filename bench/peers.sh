#!/bin/sh
# Times afx next to others, in this one run, and prints the tables that README takes:
#
#     serial    `serial` next to Lua, LuaJIT's interpreter, Python and C, by bench/run.sh: the other's time divided by that of
#               afx.
#     tasks     `run` next to rayon, oneTBB, Java's pool and Go, on 1, 2 and 4 workers and the same tasks: the minimum in
#               milliseconds, without the start of the process. A '!' marks a result that differs from that of afx.
#     old       with AFX_OLD, this program next to that one, in turn for each kernel of docs/COOKBOOK.md at a larger size: the
#               minimum of three times in milliseconds, as `old > new`; then the new program's medians.
#
# Above the tables is how the loop compares with that of the others. The tables of two machines can be compared only if these
# ratios are about the same, since they show how fast indirect jumps are.
#
# Peers that aren't installed are left out. Not a test and not part of CI: times mean nothing on a machine that does other
# work.
#
#     sh bench/peers.sh [serial|tasks|old..]      AFX='../afx' names another program to time, AFX_OLD an older one
#                                                 PROGRAMS='tree queens' names the programs of `tasks` and `old`
set -u
cd "$(dirname -- "$0")" || exit 1
afx=${AFX:-../afx}
old=${AFX_OLD:-}
made=$(mktemp -d) && trap 'rm -rf "$made"' EXIT
. ./programs.sh
missing=

peers='Lua 5.4,LuaJIT (interpreter only),Python 3,C (-O2)'

# Prints how the loop compares with that of the others.
loop_line() {
    AFX="$afx serial --steps 1000000000" sh run.sh loop | awk -v peers="$peers" '
        $1 == "loop" {
            split(peers, names, ",")
            printf "The loop takes %s ms in `afx serial`", $2
            for (i = 3; i <= NF; i++) {
                peer++
                if ($i == "-" || $i == "failed") continue
                gsub(/[()]/, "", $(i + 1))
                printf ", %s times as long in %s", $(i + 1), names[peer]
                i++
            }
            print "."
        }'
}

# The `serial` table: the rows of bench/run.sh become columns.
serial_table() {
    AFX="$afx serial --steps 1000000000" sh run.sh >"$made/rows"
    awk -v peers="$peers" '
        $1 == "not" || $1 == "kernel" { next }
        {
            names[++count] = $1
            column = 0
            for (i = 3; i <= NF; i++) {
                column++
                if ($i == "-" || $i == "failed") cells[column, count] = $i
                else { cells[column, count] = $(i + 1); gsub(/[()]/, "", cells[column, count]); i++ }
                if ($i != "-") found[column] = 1
            }
        }
        END {
            split(peers, titles, ",")
            line = "| |"
            rule = "|---|"
            for (k = 1; k <= count; k++) { line = line " " names[k] " |"; rule = rule "---|" }
            print line "\n" rule
            for (p = 1; p <= 4; p++) {
                if (!found[p]) continue
                line = "| " titles[p] " |"
                for (k = 1; k <= count; k++) line = line " " cells[p, k] " |"
                print line
            }
        }' "$made/rows"
    sed -n 's/^not found:/\nNot found:/p' "$made/rows"
}

# own_time NAME WORKERS: prints the time of a program with afx, minus that of the empty program
own_time() {
    least $afx run "$made/empty.afx" --workers "$2"
    empty=$best
    least $afx run "$1.afx" --steps 1000000000 --tasks "$(tasks_of "$1")" --workers "$2"
    cp "$made/out" "$made/$1.wanted"
    case $best$empty in
        *failed*) echo failed ;;
        *) ms $((best > empty ? best - empty : 0)) 1 ;;
    esac
}

# peer_time NAME WORKERS CMD..: prints the time that a peer prints in its last line, after its result
peer_time() {
    name=$1 workers=$2
    shift 2
    timeout 120 "$@" "$name" "$workers" >"$made/out" 2>/dev/null || { echo failed; return; }
    mark=
    sed '$d' "$made/out" | cmp -s - "$made/$name.wanted" || mark=!
    echo "$(ms $(( $(tail -n 1 "$made/out") / 1000 )) 1)$mark"
}

# task_row TITLE TIMER [CMD..]: prints the row of a pool: for each program, the times on 1, 2 and 4 workers
task_row() {
    title=$1 timer=$2
    shift 2
    printf '| %s |' "$title"
    for program in $same; do
        printf ' %s, %s, %s |' "$($timer "$program" 1 "$@")" "$($timer "$program" 2 "$@")" "$($timer "$program" 4 "$@")"
    done
    echo
}

# The `tasks` table.
same=${PROGRAMS:-tree fib_tasks merge_sort matrix_product queens}
task_table() {
    echo 'main { }' >"$made/empty.afx"
    printf '| ms on 1, 2, 4 workers |'
    printf ' %s |' $same
    printf '\n|---|'
    printf '%.0s---|' $same
    echo
    task_row afx own_time
    mkdir -p "$made/rayon/src" && cp peers.rs "$made/rayon/src/main.rs"
    printf '[package]\nname = "peers"\nversion = "0.1.0"\nedition = "2021"\n[dependencies]\nrayon = "1"\n' \
        >"$made/rayon/Cargo.toml"
    if (cd "$made/rayon" && cargo build --release --offline) >/dev/null 2>&1; then
        task_row rayon peer_time "$made/rayon/target/release/peers"
    else missing="$missing rayon"; fi
    if c++ -O2 -o "$made/tbb" peers.cc -ltbb 2>/dev/null; then task_row oneTBB peer_time "$made/tbb"
    else missing="$missing oneTBB"; fi
    if javac -d "$made" Peers.java 2>/dev/null; then task_row "Java's pool" peer_time java -cp "$made" Peers
    else missing="$missing Java"; fi
    if go build -o "$made/go" peers.go 2>/dev/null; then task_row Go peer_time "$made/go"
    else missing="$missing Go"; fi
    [ -z "$missing" ] || printf '\nNot found:%s\n' "$missing"
}

# one_time NAME MODE WHO CMD..: times a command once, and notes the time; an output that differs is a failure
one_time() {
    name=$1 mode=$2 who=$3
    shift 3
    once "$@"
    [ -e "$made/$name.wanted" ] || cp "$made/out" "$made/$name.wanted"
    cmp -s "$made/out" "$made/$name.wanted" || took=failed
    echo "$name $mode $who $took" >>"$made/times"
}

# compare NAME: times a program with both afx, in turn
compare() {
    file=$1.afx
    input=$(input_of "$1")
    steps='--steps 1000000000'
    for turn in 1 2 3; do
        one_time "$1" serial new $afx serial "$file" $input $steps
        one_time "$1" serial old $old serial "$file" $input $steps
        for workers in 1 4; do
            many="$steps --tasks $(tasks_of "$1") --workers $workers"
            one_time "$1" $workers new $afx run "$file" $input $many
            one_time "$1" $workers old $old run "$file" $input $many
        done
    done
}

# The `old` table, from the times of all programs.
old_table() {
    make_inputs
    for program in ${PROGRAMS:-$(names "tree:0 halves:0 $kernels")}; do compare "$program"; done
    awk -v kernels=" $(names "$kernels" | tr '\n' ' ')" '
        !($1 in seen) { seen[$1] = 1; names[++count] = $1 }
        {
            key = $1 " " $2 " " $3
            if ($4 == "failed") failed[key] = 1
            if (!(key in best) || $4 < best[key]) best[key] = $4
        }
        function cell(name, mode) {
            a = name " " mode " old"
            b = name " " mode " new"
            return (a in failed ? "failed" : sprintf("%.1f", best[a] / 1000)) " > " \
                (b in failed ? "failed" : sprintf("%.1f", best[b] / 1000))
        }
        function ratio(name, one, other) {
            one = name " " one " new"
            other = name " " other " new"
            return one in failed || other in failed ? "-" : sprintf("%.2f", best[one] / best[other])
        }
        function median(list, n) {
            for (i = 1; i <= n; i++)
                for (j = i + 1; j <= n; j++)
                    if (list[j] < list[i]) { swap = list[i]; list[i] = list[j]; list[j] = swap }
            return n % 2 ? list[(n + 1) / 2] : (list[n / 2] + list[n / 2 + 1]) / 2
        }
        END {
            print "| ms, old > new | serial | 1 worker | 4 workers | 1 worker over serial | serial over 4 workers |"
            print "|---|---|---|---|---|---|"
            for (k = 1; k <= count; k++) {
                name = names[k]
                one = ratio(name, 1, "serial")
                four = ratio(name, "serial", 4)
                printf "| %s | %s | %s | %s | %s | %s |\n", name, cell(name, "serial"), cell(name, 1), cell(name, 4), one, four
                if (one != "-" && index(kernels, " " name " ")) ones[++n] = one + 0
                if (four != "-" && index(kernels, " " name " ")) fours[++m] = four + 0
            }
            if (n) printf "\nMedian of %d kernels: one worker takes %.2f times the time of `serial`.\n", n, median(ones, n)
            if (m) printf "Median of %d kernels: `serial` takes %.2f times the time of 4 workers.\n", m, median(fours, m)
        }' "$made/times"
}

if [ $# -eq 0 ]; then
    set -- serial tasks
    [ -z "$old" ] || set -- serial tasks old
fi
for part; do
    case $part in
        serial | tasks) ;;
        old) [ -n "$old" ] || { echo 'old: AFX_OLD names no program' >&2; exit 2; } ;;
        *) echo "no part '$part'" >&2; exit 2 ;;
    esac
done
echo "Measured on $(nproc) processors, $(sed -n 's/^model name[^:]*: //p' /proc/cpuinfo | head -n 1)."
loop_line
for part; do
    echo
    case $part in
        serial) serial_table ;;
        tasks) task_table ;;
        old) old_table ;;
    esac
done
