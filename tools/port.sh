#!/usr/bin/env bash
# Brings a checkout of an older Rattle to the spelling of today's: the kit's port.py, then this repository's own names,
# types and must-fail edits. It proves nothing and mends no proof. docs/PORT.md says at which commit it ran.
#
#     tools/port.sh OLD NEW
#
# OLD and NEW are two checkouts of the commit before, outside this one; NEW is rewritten in place, OLD stays. Takes some
# five minutes.
set -euo pipefail
tools=$(cd -- "$(dirname -- "$0")" && pwd)
old=$(cd -- "$1" && pwd)
new=$(cd -- "$2" && pwd)
work=$(mktemp -d)
trap 'rm -rf "$work"' EXIT
kit=$(dirname "$(rt doc)")

cd "$new"
python3 "$kit/port/port.py"
python3 "$tools/turn_edits.py" "$old" "$new" "$work/edits" --write
python3 "$tools/respell.py" --lemmas --docs --write
python3 "$tools/copy_types.py" "$new"
python3 "$tools/add_auto.py" "$new"
for crate in crates/*/; do
    (cd "$crate" && rt fmt)
done
