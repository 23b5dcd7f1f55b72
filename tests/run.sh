#!/usr/bin/env bash
# All tests. `rt ci`, the toolchain's gate, proves every crate, tries the edits of must-fail/ and runs each program; the tests after it take the library
# and the programs from a check of the same files, and build what they need in target/. Stops at the first that fails. The last line is `N passed,
# M failed`; the exit status is 0 only if everything passed.
set -euo pipefail
cd "$(dirname "$0")/.."
log=$(mktemp)
passed=0 failed=1
ended() {
    status=$?
    rm -f "$log"
    if [ $status -ne 0 ]; then echo "$passed passed, $failed failed"; fi
}
trap ended EXIT

# pass COMMAND...: a test that passes if the command does
pass() {
    local began=$SECONDS
    "$@"
    passed=$((passed + 1))
    echo "passed: $* ($((SECONDS - began)) s)"
}

# count PATTERN: what the last command that wrote to the log counted, or 0
count() {
    local counted
    counted=$(sed -n "s/$1/\1/p" "$log" | tail -n 1)
    echo "${counted:-0}"
}

# gate: `rt ci`, with its own count of what passed and failed. An edit of must-fail/ that can't be applied or read tells nothing of a contract, and
# `rt ci` passes all the same; here it fails.
gate() {
    local began=$SECONDS status=0 bad
    rt ci | tee "$log" || status=$?
    passed=$((passed + $(count '^\([0-9]*\) passed, [0-9]* failed$')))
    if [ $status -ne 0 ]; then
        failed=$(count '^[0-9]* passed, \([1-9][0-9]*\) failed$')
        [ "$failed" -ne 0 ] || failed=1
        return $status
    fi
    bad=$(count '^rt: ok.*, \([0-9]*\) bad.*$')
    if [ "$bad" -ne 0 ]; then
        echo "rt ci: $bad edits of must-fail/ are bad" >&2
        failed=$bad
        return 1
    fi
    grep -q '^rt: ok' "$log"
    grep -q '^[1-9][0-9]* passed, 0 failed$' "$log"
    echo "passed: rt ci ($((SECONDS - began)) s)"
}

# checked: a check of every crate, which keeps what the library, the programs and the wrong programs are built and tried over; `rt ci` keeps its own
checked() {
    rt all check >"$log" 2>&1 || {
        cat "$log"
        return 1
    }
}

pass python3 -B tests/evidence.py
gate
pass checked
pass tools/library.sh speckleewe
pass tools/program.sh learn
pass python3 -B tests/axioms.py
python3 -B tests/wrong_programs.py | tee "$log"
passed=$((passed + $(count '^\([0-9]*\) refused, 0 failed$')))
pass python3 -B tests/tables/site_lines.py --check crates/site_lines
pass tests/learn.sh crates/learn/out/learn
library=crates/speckleewe/out/libspeckleewe.a
pass tests/layout/run.sh
pass tests/layout/library.sh $library
pass tests/symbols.sh $library
pass python3 tests/stack.py $library
pass tests/example.sh $library
pass tests/site_lines/run.sh $library
pass tests/fuzz/run.sh $library
pass tests/model/run.sh $library --self
for role in learner viewchange acceptor leader; do
    pass tests/model/run.sh $library $role
done
pass tests/cluster/run.sh $library
echo "all tests took $SECONDS s"
echo "$passed passed, 0 failed"
