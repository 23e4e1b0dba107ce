#!/bin/bash
# The host side: the Rust crates' tests, both examples of docs/HOST.md, the store's check against a plain one, the programs
# in lockstep with the plain engine beside them, and groups with faulty leaders; with small stores and large. Everything goes
# into target/.
set -euo pipefail
cd "$(dirname "$0")/.."
tools/archive >/dev/null
export CARGO_NET_OFFLINE=true
(cd host && cargo test --release --quiet && cargo build --release --quiet --bins --examples)
built=$PWD/target/host/release
place=$PWD/target/tests/host
rm -rf "$place"
mkdir -p "$place/c" "$place/rust"

# both examples print what docs/HOST.md says, and keep the same journals
cc -std=c11 -O2 -Wall -Wextra -Werror -o "$place/example" examples/host.c target/archive/libstation.a
"$place/example" "$place/c" >"$place/c.txt"
"$built/examples/host" "$place/rust" >"$place/rust.txt"
sed -n '/^Both print the same/,$s/^    //p' docs/HOST.md >"$place/said.txt"
diff "$place/said.txt" "$place/c.txt"
diff "$place/said.txt" "$place/rust.txt"
for own in 0 1 2; do
    cmp "$place/c/station-$own.journal" "$place/rust/station-$own.journal"
done
echo "both examples do as docs/HOST.md says"

# the long one beside the others; the plain engine beside both on 01's bench, at the limits and with wrong parents, up to 250
# inputs each
"$built/compare" >"$place/compare.txt" 2>&1 &
compared=$!
"$built/check"
"$built/compare" --plain 250 --inputs 1
"$built/simulate" --many 300
"$built/simulate" --large --many 20
"$built/simulate" --envelopes --many 20
"$built/simulate" --svg "$place/group.svg"
cmp "$place/group.svg" docs/group.svg
status=0
wait $compared || status=$?
cat "$place/compare.txt"
exit $status
