#!/usr/bin/env bash
# Builds the simulated cluster against the static library given first and
# runs it.
set -eu
here=$(cd -- "$(dirname -- "$0")" && pwd)
. "$here/../model/build.sh"

if [ $# -lt 1 ] || [ ! -f "$1" ]; then
    cat >&2 <<'TEXT'
usage: run.sh LIBRARY [SEED [COUNT]]
       run.sh LIBRARY --run SEED
Runs COUNT simulated clusters with liars over the library's leader, acceptor,
view change and learner, and looks after each step whether the learners agree
and what leaders propose. With --run, one run by its own seed, with every line
that is handed in.
TEXT
    exit 2
fi
library=$(realpath -- "$1")
shift

out=$here/../../target/cluster
build_models "$out"
build_program "$out" cluster "$here/src/main.rs" "$library"
exec "$out/cluster" "$@"
