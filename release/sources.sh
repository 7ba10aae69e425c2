# Functions for ./afx, tests/release.sh and .ci/run, which read this file with `.`. They work in the top folder of the
# repository, whose name is in $top.

# Prints the program's crate and all crates that it depends on, dependencies first.
needed_crates() {
    awk -F: '
        !/^#/ && NF > 1 { split($1, head, " "); below[head[1]] = $2 }
        function walk(name, names, count, at) {
            if (!(name in below) || name in seen) return
            seen[name] = 1
            count = split(below[name], names, " ")
            for (at = 1; at <= count; at++) walk(names[at])
            print name
        }
        END { walk("afx") }' "$top/crates.txt"
}

# Prints the lines of crates.txt for these crates. The line of a crate has its dependencies.
crate_lines() {
    needed_crates | awk -F'[ :]' 'NR == FNR { needed[$1] = 1; next } $1 in needed' - "$top/crates.txt"
}

# Prints the folders of these crates that have sources, one per line.
source_folders() (
    cd "$top"
    for name in $(needed_crates); do
        for part in src specs proofs; do
            [ ! -d "crates/$name/$part" ] || echo "crates/$name/$part"
        done
    done
)

# Prints the names of the files that the program is built from, sorted, one per line.
source_files() (
    cd "$top"
    echo HANDLES
    # (without quotes: names without spaces)
    find $(source_folders) -type f | LC_ALL=C sort
)

# Prints the sum of all sources: of the lines of crates.txt and of each file with its name.
sum_of_sources() (
    cd "$top"
    { crate_lines; source_files | tr '\n' '\0' | xargs -0 sha256sum; } | sha256sum | cut -d ' ' -f 1
)

# Prints the sum of one file.
sum_of_file() { sha256sum <"$1" | cut -d ' ' -f 1; }

# Prints the value of a key in release/SOURCES.
named_in_release() { sed -n "s/^$1: //p" "$top/release/SOURCES"; }
