#!/bin/sh
# test_boxes.sh: boxes run together, over several examples, in several orders; compared with what `settle` prints. Run by hand.
here=$(cd "$(dirname "$0")" && pwd) || exit 1
for name in a c d e loop sixteen; do
    echo "$name:"
    python3 "$here/boxes.py" "$here/$name.ties" "$here/$name.blocks" 1 2 3 4 5 || exit 1
done
