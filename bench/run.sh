#!/bin/sh
# Instructions per byte of the proved receiver and of a plain one, on four inputs, as callgrind counts them.
# Needs rt, rustc and valgrind. Run it from anywhere; it builds into target/bench.
set -eu
here=$(cd "$(dirname "$0")" && pwd)
root=$(cd "$here/.." && pwd)
kit=$(dirname "$(rt doc)")
out="$root/target/bench"
bytes=${1:-200000}

(cd "$root/crates/bench_abi" && rt lib >/dev/null)
mkdir -p "$out"
rustc -C opt-level=3 -L "$root/crates/bench_abi/out" -C link-arg="$kit/c/libos_c.a" -C link-arg="$kit/c/liblibc_c.a" -o "$out/bench" "$here/bench.rs"

count() {
    valgrind --tool=callgrind --callgrind-out-file="$out/callgrind.out" --toggle-collect="$2" "$out/bench" "$1" "$3" "$bytes" 2>"$out/log" >"$out/told.$1"
    awk '/Collected/ { print $4 }' "$out/log"
}

printf '%-12s %10s %10s   (instructions per byte, %s bytes)\n' input proved plain "$bytes"
for input in packets12 packets259 noise nested; do
    proved=$(count proved receive_crc16 "$input")
    plain=$(count plain plain_crc16 "$input")
    cmp -s "$out/told.proved" "$out/told.plain" || { echo "$input: the answers differ"; exit 1; }
    read -r length _ <"$out/told.proved"
    awk -v i="$input" -v a="$proved" -v b="$plain" -v n="$length" 'BEGIN { printf "%-12s %10.1f %10.1f\n", i, a / n, b / n }'
done
