#!/bin/sh
# box.sh: times `box` at 63 neighbours and 256 blocks, with ways that change what is gone by, ways that don't, ways taken back,
# packets and turns, beside an independent program in plain Rust (box.rs), and compares what the two write, byte by byte. Run by hand; it
# needs rustc. Each time is the best of nine; that of the start, which each begins with, is taken off before things are counted.
# `valgrind`, where it is there, counts instructions, the start's taken off too.
root=$(cd "$(dirname "$0")/.." && pwd) || exit 1
work=$(mktemp -d) || exit 1
trap 'rm -rf "$work"' EXIT
rustc -O --edition 2021 -o "$work/other" "$root/bench/box.rs" || exit 1
python3 "$root/bench/make_things.py" "$work" > "$work/counts" || exit 1
"$root/bin/box" --help >/dev/null || exit 1
ours=$root/crates/village_box/out/village_box
# seconds of each of the two over a file, the best of nine in turn; what each writes last stands in a file
best() { python3 -c 'import subprocess,sys,time
things, work, *programs = sys.argv[1:]
best = [9e9, 9e9]
for _ in range(9):
    for k, program in enumerate(programs):
        with open(f"{work}/out{k}", "wb") as out, open(things, "rb") as data:
            start = time.perf_counter()
            subprocess.run([program, f"{work}/box.ties", f"{work}/box.blocks", "32"], stdin=data, stdout=out, check=True)
            best[k] = min(best[k], time.perf_counter() - start)
print(*best)' "$1" "$work" "$ours" "$work/other"; }
instructions() {
    command -v valgrind >/dev/null || { echo 0; return; }
    valgrind --tool=callgrind --callgrind-out-file=/dev/null "$1" "$work/box.ties" "$work/box.blocks" 32 < "$2" 2>&1 >/dev/null | sed -n 's/.*Collected : *//p'
}
while read -r name count; do
    things=$work/$name.things
    seconds=$(best "$things") || exit 1
    cmp "$work/out0" "$work/out1" || exit 1
    python3 - "$name" "$count" $seconds "$(wc -c < "$work/out0")" "$(instructions "$ours" "$things")" "$(instructions "$work/other" "$things")" "$work/base" <<'PYTHON'
import os, sys
name, count, ours, other, size, mine, theirs, base = sys.argv[1:]
count, now = int(count), [float(ours), float(other), int(mine), int(theirs)]
before = list(map(float, open(base).read().split())) if os.path.exists(base) else [0] * 4
if name == 'start': open(base, 'w').write(' '.join(map(str, now)))
seconds, each = [a - b for a, b in zip(now[:2], before)], [(a - b) / count for a, b in zip(now[2:], before[2:])]
rate = [f'{count / s:,.0f}' if s > 0 else '?' for s in seconds]
print(f'{name}: {count} things, box {seconds[0]:.3f} s, plain Rust {seconds[1]:.3f} s; a second {rate[0]} and {rate[1]}; '
      f'instructions for each {each[0]:,.0f} and {each[1]:,.0f}; the same {size} bytes')
PYTHON
done < "$work/counts"
