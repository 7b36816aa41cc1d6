#!/bin/sh
# The committed pictures are those that tools/pictures.py draws from crates.txt, docs/SPEED.md and the layout's rule.
top=$(cd "$(dirname "$0")/.." && pwd)
. "$top/tools/common.sh"
need python3 python3
exec python3 tools/pictures.py --check
