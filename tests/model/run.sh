#!/usr/bin/env bash
# Builds a program against the static library given first and runs it.
set -eu
here=$(cd -- "$(dirname -- "$0")" && pwd)
. "$here/build.sh"

usage() {
    cat >&2 <<'TEXT'
usage: run.sh LIBRARY [ROLE] [SEED [COUNT]]
       run.sh LIBRARY --self
Compares a role of the static library with its model on random frames, at
least COUNT of them. ROLE is learner (if none is given), viewchange, acceptor
or leader. With --self only the models run, on cases worked out by hand.
TEXT
    exit 2
}

if [ $# -lt 1 ] || [ ! -f "$1" ]; then
    usage
fi
library=$(realpath -- "$1")
shift

out=$here/../../target/model
build_models "$out"
case ${1-} in
--self)
    build_program "$out" self-test "$here/src/bin/selftest.rs"
    exec "$out/self-test"
    ;;
learner | viewchange | acceptor | leader)
    role=$1
    shift
    ;;
'' | [0-9]*) role=learner ;;
*) usage ;;
esac
build_program "$out" "$role-model" "$here/src/bin/$role.rs" "$library"
exec "$out/$role-model" "$@"
