#!/usr/bin/env bash
# How long it takes to read a script of about 60 MB and to print it again, beside awk splitting the same file into words
# and counting them. The script has every call, with texts and constraints.
# It wants the built program: run `rt run` in crates/text_cases once, or rt ci. Give a number of transactions to try
# another size.
set -eu
top=$(cd "$(dirname "$0")/.." && pwd)
program=$top/crates/text_cases/out/text_cases
folder=$(mktemp -d)
trap 'rm -rf "$folder"' EXIT
awk -v transactions="${1:-2400}" 'BEGIN {
    print "section"
    for (t = 0; t < transactions; t++) {
        print "txn\nnewlabel KNOWS\nnewtype name text many\nnewtype age int"
        for (i = 0; i < 40; i++) {
            id = t * 7919 + i
            print "vertex " id "\nhas " id "\ntag " id " KNOWS\nuntag " id " KNOWS\ntags " id
            print "set " id " name \"Ada, \\\"Countess\\\" of Lovelace " i "\"\nadd " id " age " i - 20 "\nget " id " name"
            print "unset " id " age\nprops " id "\nedge " id " " i " KNOWS\nuedge " id " " i "\ncut " id " 0\ntarget " id " 1"
            print "etag " id " 0 A\neuntag " id " 0 A\netags " id " 0\neset " id " 0 since 1843\neadd " id " 0 note \"a\\\\b\""
            print "eget " id " 0 since\neunset " id " 0 since\neprops " id " 0\ndegree " id " any\nnear " id " und"
            print "edges " id " out where has KNOWS and prop since >= 1843 or lacks A and prop note <> \"x y\""
            print "find KNOWS where prop age < 0 or prop name = \"Byron\"\ndrop " id
        }
        print "end\nall\nhood " t " 3\nlevels " t "\nparts\nscan KNOWS where prop age > 7\nscan *\nvertices\narcs\nabort"
    }
}' >"$folder/script"
seconds() { local from=$EPOCHREALTIME; "$@"; local to=$EPOCHREALTIME; awk -v a="$from" -v b="$to" 'BEGIN { printf "%.2f", b - a }'; }
count_by_awk() { awk '{ words += NF } END { print words }' "$folder/script" >"$folder/count"; }
print_again() { "$program" "$folder/script" >"$folder/printed"; }
ours=$(seconds print_again)
theirs=$(seconds count_by_awk)
cmp "$folder/script" "$folder/printed"
awk -v o="$ours" -v t="$theirs" -v bytes="$(stat -c %s "$folder/script")" \
    'BEGIN { printf "%d bytes: read and printed in %s s, counted by awk in %s s, ratio %.2f\n", bytes, o, t, o / t }'
