#!/usr/bin/env bash
# How long a load of 100,000 vertices, each with two labels and three properties, and 300,000 edges, each with one
# property, takes beside python's csv module, which reads the same files into lists. The program is run on an empty load
# as well, and what that takes is taken off. Both times are the best of three, and memory is the most that the program had.
# It wants a program that runs on load files. Give a number of vertices and a number of edges to try other sizes.
set -eu
top=$(cd "$(dirname "$0")/.." && pwd)
vertices=${1:-100000}
edges=${2:-300000}
folder=$(mktemp -d)
trap 'rm -rf "$folder"' EXIT
printf 'section\ntxn\nhas 1\nend\n' >"$folder/script"
printf ':ID,:LABEL\n' >"$folder/no_vertices"
printf ':START_ID,:END_ID,:TYPE\n' >"$folder/no_edges"
"$top/gdi" run "$folder/script" >"$folder/answer"
python3 - "$top/gdi" "$folder" "$vertices" "$edges" <<'END'
import csv, os, subprocess, sys, time

program, folder = sys.argv[1], sys.argv[2]
vertices, edges = int(sys.argv[3]), int(sys.argv[4])
path = lambda name: os.path.join(folder, name)

with open(path("vertices"), "w") as out:
    out.write(":ID,:LABEL,name:text,age:int,known:bool\n")
    for id in range(vertices):
        out.write(f'{id},Person;Town{id % 7},"Name, {id}",{id % 90},{"true" if id % 2 else "false"}\n')
with open(path("edges"), "w") as out:
    out.write(":START_ID,:END_ID,:TYPE,since:int\n")
    for n in range(edges):
        out.write(f"{n * 7919 % vertices},{(n * 104729 + 1) % vertices},KNOWS,{1800 + n % 200}\n")

def best(job):
    times = []
    for _ in range(3):
        start = time.perf_counter()
        job()
        times.append(time.perf_counter() - start)
    return min(times)

most = 0

def load(v, e):
    global most
    words = [program, "run", "--blocks=800000", "--vertices", path(v), "--edges", path(e), path("script")]
    child = subprocess.Popen(words, stdout=subprocess.DEVNULL)
    _, status, used = os.wait4(child.pid, 0)
    if status:
        sys.exit(f"the load of {v} and {e} failed: {os.waitstatus_to_exitcode(status)}")
    most = max(most, used.ru_maxrss)

def read():
    for name in ("vertices", "edges"):
        with open(path(name), newline="") as file:
            list(csv.reader(file))

empty = best(lambda: load("no_vertices", "no_edges"))
full = best(lambda: load("vertices", "edges"))
lists = best(read)
size = os.path.getsize(path("vertices")) + os.path.getsize(path("edges"))
print(f"{vertices} vertices, {edges} edges: load {full - empty:.2f} s, lists of python {lists:.2f} s, "
      f"ratio {(full - empty) / lists:.2f}; {most / 1024:.0f} MB for {size / 1048576:.0f} MB of files")
END
