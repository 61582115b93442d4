# What the benchmarks share that build a static library or a program. The caller has set `here`, its own folder.
#
# They are built in a folder outside of the repository, which may have one crates.txt
# alone: KPART_BENCH names it, and it keeps the proofs for the next run.
top=$(dirname "$(dirname "$here")")
room=${KPART_BENCH:-${TMPDIR:-/tmp}/kpart-bench}
kit=$(dirname "$(dirname "$(readlink -f "$(command -v rt)")")")

# The repository's crates below one, and itself; nothing of the kit's.
below() {
    grep -q "^${1}[: ]" "$top/crates.txt" || return 0
    for crate in $(sed -n "s/^$1\( [^:]*\)\{0,1\}://p" "$top/crates.txt"); do below "$crate"; done
    echo "$1"
}

# over LINE FILE DEP.. lays out the crate that a line of crates.txt names, from a file of the caller's folder, and what it stands on.
over() {
    name=${1%%[ :]*}
    echo "$1" >"$room/crates.new"
    mkdir -p "$room/crates/$name/src"
    cp "$here/$2" "$room/crates/$name/src/$kind.rt"
    shift 2
    for crate in $(for dep in "$@"; do below "$dep"; done | awk '!seen[$0]++'); do
        grep "^${crate}[: ]" "$top/crates.txt" >>"$room/crates.new"
        mkdir -p "$room/crates/$crate"
        for part in src specs proofs; do
            rm -rf "$room/crates/$crate/$part"
            if [ -d "$top/crates/$crate/$part" ]; then
                cp -Rp "$top/crates/$crate/$part" "$room/crates/$crate/$part"
            fi
        done
        # What the repository's own checks kept.
        if [ -d "$top/crates/$crate/out" ] && [ ! -d "$room/crates/$crate/out" ]; then
            cp -Rp "$top/crates/$crate/out" "$room/crates/$crate/out"
        fi
    done
    mv "$room/crates.new" "$room/crates.txt"
    cp "$top/HANDLES" "$room/HANDLES"
}

# built NAME WORD.. builds the crate of this name by a command of rt.
built() {
    (cd "$room/crates/$1" && shift && rt "$@") >"$room/build.log" 2>&1 || {
        tail -n 20 "$room/build.log" >&2
        exit 1
    }
}

# library NAME FILE DEP.. builds the static library of this name, over these, from a file of the caller's folder.
library() {
    crate_name=$1 file=$2
    shift 2
    kind=lib
    over "$crate_name staticlib: $*" "$file" "$@"
    built "$crate_name" lib --jobs 1
}

# program NAME FILE DEP.. likewise builds the program of this name, and runs it once on the words in `tried`.
program() {
    crate_name=$1 file=$2
    shift 2
    kind=main
    over "$crate_name: $*" "$file" "$@"
    built "$crate_name" run --jobs 1 -- ${tried:-}
}

# driver NAME FILE LIBRARY builds the program of this name from a Rust file of the caller's folder.
driver() {
    rustc -O -g -C target-cpu=x86-64-v2 --edition 2024 "$here/$2" -o "$room/$1" \
        -L "$room/crates/$3/out" -l "static=$3" -L "$kit/c" -l static=libc_c
}
