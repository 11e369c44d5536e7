#!/usr/bin/env bash
# How long 50,000 transactions, four of five of them reads, take on a graph of 10,000 vertices and 20,000 edges, beside
# the command sqlite3 that does the same in memory, with a table of vertices, one of edges and indexes. Both read a text
# and write their answers to a file. Each is timed on the load alone as well, and what that takes is taken off; times are
# the best of three. Then `check` of the program's output is timed beside its `run`, both with the load.
# It wants a program that was proved and built (`./gdi prove`). Give a number of transactions and a number of vertices to
# try other sizes.
set -eu
top=$(cd "$(dirname "$0")/.." && pwd)
transactions=${1:-50000}
vertices=${2:-10000}
folder=$(mktemp -d)
trap 'rm -rf "$folder"' EXIT
python3 - "$top/gdi" "$folder" "$transactions" "$vertices" <<'END'
import os, subprocess, sys, time

program, folder = sys.argv[1], sys.argv[2]
transactions, vertices = int(sys.argv[3]), int(sys.argv[4])
path = lambda name: os.path.join(folder, name)

# A transaction as the lines of a script, and as statements.
def transaction(t):
    i, j = t * 7919 % vertices, (t * 104729 + 1) % vertices
    kind = t % 10
    if kind == 0:
        return f"set {i} age {t}", f"UPDATE vertices SET age = {t} WHERE id = {i};"
    if kind == 5:
        return f"edge {i} {j} KNOWS", f"INSERT INTO edges VALUES ({i}, {j}, 'KNOWS');"
    if kind in (1, 4, 6):
        return f"get {i} age", f"SELECT age FROM vertices WHERE id = {i};"
    if kind in (2, 7, 9):
        return f"near {i} any", (f"SELECT target FROM edges WHERE source = {i} UNION "
                                 f"SELECT source FROM edges WHERE target = {i} ORDER BY 1;")
    return f"degree {i} out", f"SELECT count(*) FROM edges WHERE source = {i};"

def script(name, count):
    with open(path(name), "w") as out:
        out.write("section\ntxn\nnewlabel Person\nnewlabel KNOWS\nnewtype age int\nend\n")
        for first in range(0, vertices, 1000):
            out.write("txn\n")
            for i in range(first, min(first + 1000, vertices)):
                out.write(f"vertex {i}\ntag {i} Person\nset {i} age {i % 90}\n")
            out.write("end\n")
        for first in range(0, 2 * vertices, 1000):
            out.write("txn\n")
            for n in range(first, min(first + 1000, 2 * vertices)):
                out.write(f"edge {n * 31 % vertices} {(n * 17 + n // vertices + 1) % vertices} KNOWS\n")
            out.write("end\n")
        for t in range(count):
            out.write(f"txn\n{transaction(t)[0]}\nend\n")

def statements(name, count):
    with open(path(name), "w") as out:
        out.write("CREATE TABLE vertices (id INTEGER PRIMARY KEY, label TEXT, age INTEGER);\n"
                  "CREATE TABLE edges (source INTEGER, target INTEGER, label TEXT);\n"
                  "CREATE INDEX by_source ON edges (source, target);\nCREATE INDEX by_target ON edges (target, source);\n")
        for first in range(0, vertices, 1000):
            out.write("BEGIN;\n")
            for i in range(first, min(first + 1000, vertices)):
                out.write(f"INSERT INTO vertices VALUES ({i}, 'Person', {i % 90});\n")
            out.write("COMMIT;\n")
        for first in range(0, 2 * vertices, 1000):
            out.write("BEGIN;\n")
            for n in range(first, min(first + 1000, 2 * vertices)):
                out.write(f"INSERT INTO edges VALUES ({n * 31 % vertices}, {(n * 17 + n // vertices + 1) % vertices}, 'KNOWS');\n")
            out.write("COMMIT;\n")
        for t in range(count):
            out.write(f"BEGIN;\n{transaction(t)[1]}\nCOMMIT;\n")

def best(words, source, answers):
    times = []
    for _ in range(3):
        with open(source) as given, open(path(answers), "w") as out:
            start = time.perf_counter()
            child = subprocess.run(words, stdin=given, stdout=out)
            times.append(time.perf_counter() - start)
        if child.returncode:
            sys.exit(f"{' '.join(words)} failed: {child.returncode}")
    return min(times)

script("load.gdi", 0)
script("all.gdi", transactions)
statements("load.sql", 0)
statements("all.sql", transactions)
run = lambda name: best([program, "run", path(name)], os.devnull, name + ".out")
sqlite = lambda name: best(["sqlite3", ":memory:"], path(name), name + ".out")
load, whole = run("load.gdi"), run("all.gdi")
sqlite_load, sqlite_whole = sqlite("load.sql"), sqlite("all.sql")
print(f"{transactions} transactions on {vertices} vertices: {whole - load:.3f} s, sqlite3 {sqlite_whole - sqlite_load:.3f} s, "
      f"ratio {(whole - load) / (sqlite_whole - sqlite_load):.3f}; with the load {whole:.3f} s, sqlite3 {sqlite_whole:.3f} s, "
      f"ratio {whole / sqlite_whole:.3f}")

checking = [program, "check", path("all.gdi"), path("all.gdi.out")]
probe = subprocess.run(checking, stdout=subprocess.PIPE, stderr=subprocess.PIPE)
if probe.returncode == 0 and probe.stdout == b"legal\n":
    check = best(checking, os.devnull, "verdict")
    print(f"check {check:.3f} s, {check / whole:.2f} of the run")
else:
    print("check isn't there or tells no legal run: " + (probe.stdout + probe.stderr).decode().strip())
END
