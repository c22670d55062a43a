#!/usr/bin/env bash
# Runs the built program with little stack: bash bench/stack.sh [KILOBYTES]     (256 where none are given)
#
# It builds nothing: build the program first, by `rt run` or `rt ci` in crates/heapgov. A script with the
# longest statement and a SELECT is run; the program must answer as it does with any stack. It ends with
# 0 where it does.
set -u
here=$(cd "$(dirname "$0")/.." && pwd)
program=$here/crates/heapgov/out/heapgov
kilobytes=${1:-256}
if [ ! -x "$program" ]; then
    echo "stack: $program is not there; build it first" >&2
    exit 2
fi
folder=$(mktemp -d)
trap 'rm -rf "$folder"' EXIT
# 64 rows of 16 numbers with a sign, which is the line of the most tokens that may stand
row="(-1,-2,-3,-4,-5,-6,-7,-8,-9,-1,-2,-3,-4,-5,-6,-7)"
rows=$row
for _ in $(seq 63); do rows=$rows,$row; done
{
    echo "CREATE TABLE w (a INTEGER,b INTEGER,c INTEGER,d INTEGER,e INTEGER,f INTEGER,g INTEGER,h INTEGER,i INTEGER,j INTEGER,k INTEGER,l INTEGER,m INTEGER,n INTEGER,o INTEGER,p INTEGER)"
    echo "INSERT INTO w VALUES $rows"
    echo "SELECT * FROM w"
} > "$folder/script"
{
    echo "created"
    echo "rows 64"
    for _ in $(seq 64); do echo "row * -1,-2,-3,-4,-5,-6,-7,-8,-9,-1,-2,-3,-4,-5,-6,-7"; done
    echo "end *"
} > "$folder/expected"
(cd "$folder" && ulimit -s "$kilobytes" && "$program" < script > replies)
status=$?
if [ $status -ne 0 ] || ! cmp -s "$folder/expected" "$folder/replies"; then
    echo "stack: with $kilobytes KB the program ended with $status, and its replies are not those that it should give" >&2
    exit 1
fi
echo "stack: $kilobytes KB suffice"
