#!/bin/bash
# The C face. For stores of both lengths: the calls on a store and their refusal numbers, stores that are not well formed, and
# recorded runs replayed, also on damaged stores; recorded pairs of reports; relay envelopes; slips; the journal, with
# power cuts after any byte; the plain engine beside the station; and how much stack the calls take.
set -euo pipefail
cd "$(dirname "$0")/.."
tools/archive >/dev/null
mkdir -p target/tests
for test in calls stores replay reports envelopes slips journal plain stack; do
    cc -std=c11 -O2 -Wall -Wextra -Werror -pthread -o "target/tests/$test" "tests/$test.c" target/archive/libstation.a
done
target/tests/calls
target/tests/stores
target/tests/replay host/second/tests/data/*.txt
target/tests/replay -d 1 host/second/tests/data/*.txt
target/tests/replay -l host/second/tests/data/large/*.txt
target/tests/replay -l -d 1 host/second/tests/data/large/*.txt
target/tests/reports host/second/tests/data/reports.txt
target/tests/envelopes
target/tests/slips
target/tests/journal
target/tests/plain host/second/tests/data/{sim-001,settings,quorums,fuzz-002,fuzz-008}.txt
target/tests/stack host/second/tests/data/{sim-001,fuzz-002}.txt
