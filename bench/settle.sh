#!/bin/sh
# settle.sh: times `settle` on 64 networks that are all tied to each other, every link up, with 256 blocks, and on the sixty
# villages, beside an independent program in plain Rust (settle.rs), and compares what the two print. Run by hand; it needs
# rustc. Each time is the best of five.
root=$(cd "$(dirname "$0")/.." && pwd) || exit 1
work=$(mktemp -d) || exit 1
trap 'rm -rf "$work"' EXIT
rustc -O --edition 2021 -o "$work/other" "$root/bench/settle.rs" || exit 1
python3 - "$root" "$work" <<'PYTHON' || exit 1
import sys
root, work = sys.argv[1:]
def lines(ties, down=()):
    n, pairs = ties[1], [tuple(ties[k:k + 2]) for k in range(4, len(ties), 3)]
    return "".join(f"turn {i} {j} up\n" for i, j in pairs if (i, j) not in down)
def blocks(homes):
    return bytes([17, len(homes) >> 8, len(homes) & 255]) + b"".join(
        bytes([10, 0, k, 0, 10, 0, k, 255, home]) for k, home in enumerate(homes))
def write(name, ties, homes):
    open(f"{work}/{name}.ties", "wb").write(ties)
    open(f"{work}/{name}.lines", "w").write(lines(ties))
    open(f"{work}/{name}.blocks", "wb").write(blocks(homes))
# each network is a customer of every higher one; and the same where every third pair are peers
pairs = [(i, j) for i in range(64) for j in range(i + 1, 64)]
for name, kind in (("dense", lambda i, j: 1), ("peers", lambda i, j: 2 if (i + j) % 3 == 0 else 1)):
    body = b"".join(bytes([i, j, kind(i, j)]) for i, j in pairs)
    write(name, bytes([16, 64, len(pairs) >> 8, len(pairs) & 255]) + body, [k % 64 for k in range(256)])
# a chain of customers, the longest paths
body = b"".join(bytes([i, i + 1, 1]) for i in range(63))
write("chain", bytes([16, 64, 0, 63]) + body, [k % 64 for k in range(256)])
sixty = open(f"{root}/examples/sixty.ties", "rb").read()
write("sixty", sixty, [k % 60 for k in range(256)])
PYTHON
"$root/bin/settle" --help >/dev/null || exit 1
best() { for _ in 1 2 3 4 5; do python3 -c 'import subprocess,sys,time
start = time.perf_counter(); subprocess.run(sys.argv[2:], stdout=open(sys.argv[1], "wb"), check=True); print(f"{time.perf_counter() - start:.4f}")' "$@"; done | sort -n | head -n 1; }
for name in dense peers chain sixty; do
    ours=$(best "$work/ours" "$root/crates/settle/out/settle" "$work/$name.ties" "$work/$name.blocks" "$work/$name.lines") || exit 1
    other=$(best "$work/theirs" "$work/other" "$work/$name.ties" "$work/$name.blocks" "$work/$name.lines") || exit 1
    cmp "$work/ours" "$work/theirs" || exit 1
    echo "$name: settle $ours s, plain Rust $other s, the same $(wc -l < "$work/ours") lines"
done
