#!/usr/bin/env bash
# How long 50,000 transactions take on a graph of 100,000 vertices where half of them abort, beside the same transactions
# where none does. What aborts is done and taken back. The graph's own load is timed alone and taken off both.
# It wants the built program: run `rt run` in crates/graph_cases once, or rt ci. Give a number of transactions and a number
# of vertices to try other sizes.
set -eu
top=$(cd "$(dirname "$0")/.." && pwd)
program=$top/crates/graph_cases/out/graph_cases
folder=$(mktemp -d)
trap 'rm -rf "$folder"' EXIT
# The program runs the scripts of these files; all but the last have one look at nothing here.
for name in people refusals values undirected walks many chain buckets; do
    printf 'section\ntxn\nhas 1\nend\n' >"$folder/$name"
done
script() {
    awk -v transactions="$1" -v vertices="$2" -v every="$3" 'BEGIN {
        print "section\ntxn\nnewlabel KNOWS\nnewlabel SEEN\nnewtype age int\nend"
        for (id = 0; id < vertices; id++) {
            if (id % 1000 == 0) print "txn"
            print "vertex " id
            if (id % 1000 == 999 || id == vertices - 1) print "end"
        }
        for (t = 0; t < transactions; t++) {
            source = t * 7919 % vertices
            target = (t * 104729 + 1) % vertices
            print "txn\nset " source " age " t "\ntag " target " SEEN\nedge " source " " target " KNOWS"
            print "eset " source " 0 age " t "\nunset " source " age\nvertex " vertices + t
            print (every && t % every == 0 ? "abort" : "end")
        }
    }' >"$folder/aborts"
}
seconds() { local from=$EPOCHREALTIME; "$@"; local to=$EPOCHREALTIME; awk -v a="$from" -v b="$to" 'BEGIN { printf "%.2f", b - a }'; }
run() { (cd "$folder" && "$program" >answers); }
transactions=${1:-50000}
vertices=${2:-100000}
script 0 "$vertices" 0
load=$(seconds run)
script "$transactions" "$vertices" 0
none=$(seconds run)
script "$transactions" "$vertices" 2
half=$(seconds run)
grep -q aborted "$folder/answers"
awk -v l="$load" -v n="$none" -v h="$half" -v t="$transactions" -v v="$vertices" \
    'BEGIN { printf "%d transactions on %d vertices (loaded in %s s): none aborts %.2f s, half abort %.2f s, ratio %.2f\n", t, v, l, n - l, h - l, (h - l) / (n - l) }'
