#!/usr/bin/env bash
# How long `levels` and `parts` take on a graph of 100,000 vertices and 1,000,000 edges, beside python's igraph on the same
# graph (Debian: python3-igraph), and, where that isn't there, beside `sort` of the list of edges by number. All times are
# the processor's. The program is run on a script without walks as well, and what that takes is taken off; each walk is
# made twenty times. It wants a program that runs on load files: ./gdi prove, or another whose path PROGRAM has. Give a
# number of vertices and a number of edges to try other sizes.
set -eu
top=$(cd "$(dirname "$0")/.." && pwd)
folder=$(mktemp -d)
trap 'rm -rf "$folder"' EXIT
python3 - "${PROGRAM:-$top/gdi}" "$folder" "${1:-100000}" "${2:-1000000}" <<'END'
import os, subprocess, sys, time

try:
    import igraph
except ImportError:
    igraph = None

program, folder = sys.argv[1], sys.argv[2]
vertices, edges = int(sys.argv[3]), int(sys.argv[4])
path = lambda name: os.path.join(folder, name)
rounds = 20

# Every other edge leads onwards to one of the next 200 vertices, and the others anywhere: few levels, one large part.
ends = [(n * 7919 % vertices, (n * 7919 + 1 + n % 200) % vertices if n % 2 else (n * 104729 + 1) % vertices) for n in range(edges)]
with open(path("vertices"), "w") as out:
    out.write(":ID,:LABEL\n")
    out.writelines(f"{id},\n" for id in range(vertices))
with open(path("edges"), "w") as out:
    out.write(":START_ID,:END_ID,:TYPE\n")
    out.writelines(f"{source},{target},\n" for source, target in ends)

def took(words):
    child = subprocess.Popen(words, stdout=subprocess.DEVNULL)
    _, status, used = os.wait4(child.pid, 0)
    if status:
        sys.exit(f"{words[0]} failed: {os.waitstatus_to_exitcode(status)}")
    return used.ru_utime + used.ru_stime

def run(calls):
    with open(path("script"), "w") as out:
        out.write("section\nall\n" + "".join(f"{call}\n" for call in calls) + "end\n")
    return took([program, "run", "--blocks=800000", "--vertices", path("vertices"), "--edges", path("edges"), path("script")])

def own(job):
    start = time.process_time()
    for _ in range(rounds):
        job()
    return (time.process_time() - start) / rounds

without = run(["vertices"])
ours = {call: (run([call] * rounds) - without) / rounds for call in ("levels 0", "parts")}
if igraph:
    graph = igraph.Graph(n=vertices, edges=ends, directed=True)
    theirs = {"levels 0": own(lambda: graph.distances(source=[0], mode="out")), "parts": own(lambda: graph.connected_components(mode="weak"))}
    name = f"igraph {igraph.__version__}"
else:
    sort = took(["sort", "-t,", "-k1,1n", "-k2,2n", path("edges"), "-o", path("sorted")])
    theirs = dict.fromkeys(ours, sort)
    name = "sort"
for call in ours:
    print(f"{vertices} vertices, {edges} edges: {call} {ours[call]:.2f} s, {name} {theirs[call]:.2f} s, ratio {ours[call] / theirs[call]:.1f}")
END
