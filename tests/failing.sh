#!/usr/bin/env bash
# tests/run failing: shows that a case that fails counts as one. The gate runs it first and ends if it fails, since all other parts count by
# what it tries: the runner of the tests, unittest in part tools, a fault that nothing notices, and the sum of the gate. It judges by none
# of them. Without the toolchain it is one of the parts of 'python3 -m tests'. The last line is 'N passed, M failed'.
set -u
cd -- "$(dirname -- "${BASH_SOURCE[0]}")/.." || exit 2
export PYTHONPATH=tools:reference:include
passed=0 failed=0

# ends NAME WANTED COMMAND WORDS..: a case: these are the last line that a command prints and its status
ends() {
    local name=$1 wanted=$2 said status
    shift 2
    said=$("$@" 2>&1)
    status=$?
    said="$(tail -n 1 <<<"$said"), status $status"
    if [ "$said" = "$wanted" ]; then
        passed=$((passed + 1))
    else
        failed=$((failed + 1))
        printf 'failing: FAILED: %s\n    wanted: %s\n    found:  %s\n' "$name" "$wanted" "$said"
    fi
}

# cases LINE: runs a line of Python with cases
cases() { python3 -B -c "from tests.runner import Cases; from tests.mutants import *; cases = Cases('planted'); $1; cases.finish()"; }
# counts LINE: runs a line of bash with what the gate counts by
counts() { bash -c ". tests/counts && $1 && finish"; }

one="0 passed, 1 failed, status 1"
ends "a condition that doesn't hold" "$one" cases "cases.holds('', False)"
ends "a text that differs" "$one" cases "cases.same('', 'a', 'b')"
ends "a command with another status" "$one" cases "cases.succeeds('', 'false')"
ends "a command that prints something else" "$one" cases "cases.prints('', 'a', 'echo b')"
ends "a part beside others" "$one" cases "cases.side_by_side({'': (Cases.holds, '', False)})"
ends "no case at all" "$one" cases "pass"
ends "a case that passes" "1 passed, 0 failed, status 0" cases "cases.holds('', True)"
ends "a test of sokotool that fails" "$one" python3 -B -m tests.tools /bin/true none
fault="Fault('', '', '', (), ())"
ends "a fault that no test notices" "$one" cases "judge(cases, $fault, ('', '5 passed, 0 failed'))"
ends "a fault whose test doesn't end" "$one" cases "judge(cases, $fault, ('', ''))"
ends "a test that fails without a fault" "$one" cases "judge_whole(cases, '', ('', '5 passed, 1 failed'))"
ends "a part of the gate that fails" "4 passed, 1 failed, status 1" counts "part 5 bash -c 'echo 4 passed, 1 failed; exit 1'"
ends "a part that fails and ends well" "4 passed, 2 failed, status 1" counts "part 5 echo 4 passed, 1 failed"
ends "a part that prints a failure and counts none" "5 passed, 1 failed, status 1" \
    counts "part 5 bash -c 'echo \"p: FAILED: a\"; echo 5 passed, 0 failed'"
ends "a part that ends badly" "5 passed, 1 failed, status 1" counts "part 5 bash -c 'echo 5 passed, 0 failed; exit 1'"
ends "a part that passes" "5 passed, 0 failed, status 0" counts "part 5 echo 5 passed, 0 failed"
echo "$passed passed, $failed failed"
test "$failed" = 0
