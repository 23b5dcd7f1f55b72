#!/usr/bin/env bash
# Times the proved code beside plain C built with -O3: the frame reader and writer on the longest line, the program `learn`, and each role's step.
set -euo pipefail
cd "$(dirname "$0")/.."
tools/library.sh frame_bench
tools/library.sh speckleewe
tools/program.sh learn
mkdir -p target/bench
gcc -O3 -o target/bench/frame_bench bench/frame_bench.c crates/frame_bench/out/libframe_bench.a
target/bench/frame_bench
bench/learn.sh crates/learn/out/learn
for program in cross roles; do
    gcc -O3 -Wall -Wextra -Iinclude -o "target/bench/$program" "bench/$program.c" bench/calls.c bench/plain_*.c crates/speckleewe/out/libspeckleewe.a
    "target/bench/$program"
done
