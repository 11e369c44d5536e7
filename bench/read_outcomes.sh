#!/usr/bin/env bash
# How long it takes to read an output of about 60 MB and to print it again, beside awk splitting the same file into words
# and counting them. The output has every outcome and every reply.
# It wants the built program: run `rt run` in crates/text_cases once, or rt ci. Give a number of transactions to try
# another size.
set -eu
top=$(cd "$(dirname "$0")/.." && pwd)
program=$top/crates/text_cases/out/text_cases
folder=$(mktemp -d)
trap 'rm -rf "$folder"' EXIT
awk -v transactions="${1:-3200}" 'BEGIN {
    for (t = 1; t <= transactions; t++) {
        print "1." t " w " t - 1
        for (i = 0; i < 40; i++) {
            id = t * 7919 + i
            print " done\n yes\n no\n exists\n novertex " id "\n noedge\n nolabel\n notype\n noprop\n wrongkind\n notmany\n haslabel\n lackslabel\n toolarge"
            print " edge " id " 0\n labels KNOWS A\n props name=\"Ada, \\\"Countess\\\" of Lovelace " i "\" age=-20\n value \"a\\\\b\"\n values 5 3 true \"x y\""
            print " edges out:" id ":0:" i " in:" i ":1:" id " und:" id ":2:" i "\n ids " id " " id + 1 " " id + 2 "\n levels " id ":0 " id + 1 ":1\n parts " id ":7\n count " i
        }
        print "2." t " aborted\n3." t " full 3 " t "\n4." t " r " t "\n count 7"
    }
    print "writes " transactions
}' >"$folder/output"
seconds() { local from=$EPOCHREALTIME; "$@"; local to=$EPOCHREALTIME; awk -v a="$from" -v b="$to" 'BEGIN { printf "%.2f", b - a }'; }
count_by_awk() { awk '{ words += NF } END { print words }' "$folder/output" >"$folder/count"; }
print_again() { "$program" "$folder/output" output >"$folder/printed"; }
ours=$(seconds print_again)
theirs=$(seconds count_by_awk)
cmp "$folder/output" "$folder/printed"
awk -v o="$ours" -v t="$theirs" -v bytes="$(stat -c %s "$folder/output")" \
    'BEGIN { printf "%d bytes: read and printed in %s s, counted by awk in %s s, ratio %.2f\n", bytes, o, t, o / t }'
