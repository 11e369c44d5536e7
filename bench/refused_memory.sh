#!/usr/bin/env bash
# Has each allocation of a run, a check and a drill fail in turn, and counts what comes of it: the program is done and has
# written all, or there is no memory and nothing is written. Any other end is told, and is a fault.
# It wants the built program (`./gdi prove`) and a C compiler, whose code stands in for the C library's `malloc`.
set -eu
top=$(cd "$(dirname "$0")/.." && pwd)
program=$top/crates/gdi_shell/out/gdi_shell
folder=$(mktemp -d)
trap 'rm -rf "$folder"' EXIT
cat >"$folder/failing.c" <<'CODE'
#include <errno.h>
#include <stddef.h>
#include <stdio.h>
#include <stdlib.h>
void *__libc_malloc(size_t);
void *__libc_calloc(size_t, size_t);
void *__libc_realloc(void *, size_t);
void *__libc_memalign(size_t, size_t);
static long number, failing;
static int fails(void) {
    if (number == 0) {
        const char *word = getenv("FAILING");
        failing = word ? atol(word) : 0;
    }
    number++;
    if (number == failing) errno = ENOMEM;
    return number == failing;
}
void *malloc(size_t bytes) { return fails() ? NULL : __libc_malloc(bytes); }
void *calloc(size_t count, size_t bytes) { return fails() ? NULL : __libc_calloc(count, bytes); }
void *realloc(void *old, size_t bytes) { return fails() ? NULL : __libc_realloc(old, bytes); }
void *aligned_alloc(size_t align, size_t bytes) { return fails() ? NULL : __libc_memalign(align, bytes); }
int posix_memalign(void **to, size_t align, size_t bytes) {
    if (fails()) return ENOMEM;
    *to = __libc_memalign(align, bytes);
    return *to ? 0 : ENOMEM;
}
__attribute__((destructor)) static void tell(void) {
    const char *name = getenv("COUNTED");
    FILE *file = name ? fopen(name, "w") : NULL;
    if (file) {
        fprintf(file, "%ld\n", number);
        fclose(file);
    }
}
CODE
cc -shared -fPIC -O1 -o "$folder/failing.so" "$folder/failing.c"
faults=0

# Runs the program with these words once for each allocation.
try_all() {
    local all done=0 none=0 status
    COUNTED=$folder/count LD_PRELOAD=$folder/failing.so "$program" "$@" >"$folder/whole"
    all=$(cat "$folder/count")
    for ((at = 1; at <= all; at++)); do
        status=0
        FAILING=$at LD_PRELOAD=$folder/failing.so "$program" "$@" >"$folder/taken" 2>"$folder/told" || status=$?
        if [ "$status" = 0 ] && cmp -s "$folder/taken" "$folder/whole"; then
            done=$((done + 1))
        elif [ "$status" = 10 ] && [ ! -s "$folder/taken" ]; then
            none=$((none + 1))
        else
            faults=$((faults + 1))
            echo "allocation $at of $1: status $status, $(wc -c <"$folder/taken") bytes written"
        fi
    done
    echo "$1: $all allocations, done all the same at $done of them, no memory and nothing written at $none"
}

cd "$top/examples/social"
try_all run --vertices people.csv --edges ties.csv changes.gdi
try_all check --vertices people.csv --edges ties.csv changes.gdi changes.out
try_all drill 4 1
[ "$faults" = 0 ]
