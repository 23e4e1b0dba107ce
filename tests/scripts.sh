#!/bin/bash
# The script program against the second program, which says to the byte what must be printed: of the test scripts, of random
# runs as compare prints them, and of a journal's records; the plain engine must print the same as the station. Then printed
# messages are handed over again, in words and in hex; and README's run.
set -euo pipefail
cd "$(dirname "$0")/.."
export CARGO_NET_OFFLINE=true
tools/archive >/dev/null
(cd host && cargo build --release --quiet -p compare -p journal -p station --bins --examples)
tell=target/host/release/tell
place=target/tests/scripts
rm -rf "$place"
mkdir -p "$place"

# the second program doesn't say what is wrong with a bad line, nor the mask of a lock
comparable() { sed -E 's/(not taken: ).*/\1/; s/^(  lock: .* mask) .*/\1/' "$1"; }
scripts=0
for script in tests/scripts/*.txt; do
    tools/play "$script" | diff "${script%.txt}.out" -
    "$tell" "$script" | diff - <(comparable "${script%.txt}.out")
    scripts=$((scripts + 1))
done
"$tell" crates/play/stdin | diff - <(comparable crates/play/stdout)
scripts=$((scripts + 1))
echo "$scripts test scripts print what they must, and what the second program says"

for seed in $(seq 1 20); do
    "$tell" --run "$seed" >"$place/run.txt"
    tools/play "$place/run.txt" >"$place/played.txt"
    "$tell" "$place/run.txt" | diff - "$place/played.txt"
    cat "$place/played.txt" >>"$place/all.txt"
done
echo "20 random runs print what the second program says"

# the plain engine, whose calls work through all inputs before them: short scripts
for script in examples/first.txt crates/play/stdin tests/scripts/*.txt; do
    tools/play --plain "$script" 2>"$place/engine.txt" | cmp - <(tools/play "$script")
    grep -x 'the plain engine answers' "$place/engine.txt" >/dev/null
done
[ -z "$(tools/play examples/first.txt 2>&1 >/dev/null)" ]
echo "the plain engine prints the test scripts alike"

# the journals of the example host, as scripts
target/host/release/examples/host "$place" >/dev/null
for own in 0 1 2; do
    target/host/release/journal --script 3 2 "$own" "$place/station-$own.journal" >"$place/journal.txt"
    tools/play "$place/journal.txt" >"$place/journal.played"
    "$tell" "$place/journal.txt" | diff - <(comparable "$place/journal.played")
    target/host/release/journal 3 2 "$own" "$place/station-$own.journal" | sed -n '/^log: /,$p' |
        diff - <(sed -n 's/^line [0-9]*: \(log: \)/\1/; /^log: /,/^line /p' "$place/journal.played" | sed '$d')
done
echo "three journals as scripts print what the second program says, and the same log"

# printed messages as lines of a script: the words, and the bytes behind the field's head, each to a fresh station
grep -E '^  to ' "$place/all.txt" | sed -n '1,2000p' >"$place/messages.txt"
sed -E 's/^  to [a-z0-9]+: /fresh 3 2 0\n/' "$place/messages.txt" >"$place/words.txt"
sed -E 's/^  to (all: .* # 10.{4}|[0-9]+: .* # 11.{6})/fresh 3 2 0\nmessage /' "$place/messages.txt" >"$place/hex.txt"
for form in words hex; do tools/play "$place/$form.txt" >"$place/$form.played"; done
cmp "$place/words.played" "$place/hex.played"
tail -n 1 "$place/words.played" | grep ' 0 bad$' >/dev/null
echo "$(wc -l <"$place/messages.txt") printed messages are taken again, in words and in hex alike"

# README shows the first script, which is also the one that the program's own run in `rt ci` takes, and what it prints with the hex
# cut short
cmp examples/first.txt crates/play/stdin
sed -n '/`examples\/first.txt`:$/,/^It prints/{/^    \|^$/{s/^    //;p}}' README.md | sed '1d;$d' | diff - examples/first.txt
tools/play examples/first.txt | sed -E 's/( # .{12}).*/\1../' | diff <(sed -n '/^It prints the following/,/^Any message/s/^    //p' README.md) -
echo "README's run is as it says"
