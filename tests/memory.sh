#!/bin/sh
# Refuses the program one request for memory after another, the first, the second and so on until a call asks for no more, and looks
# at how the call ends: with status 9, the line `out of memory`, nothing created and nothing on standard output, or as it ends
# without a refusal. The requests are counted and refused by a few lines of C that are loaded before the C library.
# It says how many requests each call makes, and nothing else where all is as it should be.
# usage: tests/memory.sh PROGRAM
. "$(dirname -- "$0")/lib.sh" && program=$(whole "$1") || exit 2
command -v gcc >/dev/null || {
    echo "memory: gcc is not installed"
    exit 0
}
in_folder
cat >refuse.c <<'END'
#define _GNU_SOURCE
#include <dlfcn.h>
#include <errno.h>
#include <stdio.h>
#include <stdlib.h>
#include <string.h>
#include <unistd.h>
static long asked, refused;
static void *(*real_malloc)(size_t), *(*real_calloc)(size_t, size_t), *(*real_realloc)(void *, size_t), *(*real_aligned)(size_t, size_t);
static int (*real_memalign)(void **, size_t, size_t);
static void (*real_free)(void *);
static int ready;
static char early[65536];
static size_t early_used;
__attribute__((constructor)) static void begin(void) {
    real_malloc = dlsym(RTLD_NEXT, "malloc");
    real_calloc = dlsym(RTLD_NEXT, "calloc");
    real_realloc = dlsym(RTLD_NEXT, "realloc");
    real_aligned = dlsym(RTLD_NEXT, "aligned_alloc");
    real_memalign = dlsym(RTLD_NEXT, "posix_memalign");
    real_free = dlsym(RTLD_NEXT, "free");
    char *word = getenv("REFUSED");
    refused = word ? atol(word) : 0;
    ready = 1;
}
__attribute__((destructor)) static void end(void) {
    char *path = getenv("ASKED"), line[32];
    FILE *file;
    ready = 0;
    if (path && (file = fopen(path, "w"))) {
        snprintf(line, sizeof line, "%ld\n", asked);
        fputs(line, file);
        fclose(file);
    }
}
static int is_refused(void) { return ready && ++asked == refused; }
static void *before(size_t size) {
    void *found = early + early_used;
    early_used += (size + 15) & ~(size_t)15;
    return early_used <= sizeof early ? found : NULL;
}
void *malloc(size_t size) {
    if (!real_malloc) return before(size);
    if (is_refused()) { errno = ENOMEM; return NULL; }
    return real_malloc(size);
}
void *calloc(size_t count, size_t size) {
    if (!real_calloc) return before(count * size);
    if (is_refused()) { errno = ENOMEM; return NULL; }
    return real_calloc(count, size);
}
void *realloc(void *old, size_t size) {
    if (is_refused()) { errno = ENOMEM; return NULL; }
    return real_realloc(old, size);
}
void free(void *old) {
    if ((char *)old >= early && (char *)old < early + sizeof early) return;
    if (real_free) real_free(old);
}
void *aligned_alloc(size_t align, size_t size) {
    if (is_refused()) { errno = ENOMEM; return NULL; }
    return real_aligned(align, size);
}
int posix_memalign(void **to, size_t align, size_t size) {
    if (is_refused()) return ENOMEM;
    return real_memalign(to, align, size);
}
END
gcc -O1 -shared -fPIC -o refuse.so refuse.c -ldl || exit 2
cp "$examples"/programs/*.dk "$examples"/programs/*.pgm "$tests"/reports/*.dk "$examples"/sim/*.v . || exit 2
printf 'P5\n4 3\n255\n\001\002\003\004\005\006\007\010\011\012\013\014' >square.pgm

# refuses WHAT OUT WORD..: each request of a call, of which OUT is the file that it creates, if it does
refuses() {
    what=$1 out=$2
    shift 2
    rm -f "$out"
    ASKED=asked.txt LD_PRELOAD=./refuse.so "$program" "$@" >wanted.out 2>wanted.err
    wanted=$?
    asked=$(cat asked.txt)
    [ ! -e "$out" ] || mv "$out" wanted.file
    number=1
    while [ "$number" -le "$asked" ]; do
        rm -f "$out"
        REFUSED=$number LD_PRELOAD=./refuse.so "$program" "$@" >stdout 2>stderr
        got=$?
        if [ $got = 9 ] && [ "$(cat stderr)" = 'out of memory' ] && [ ! -s stdout ] && [ ! -e "$out" ]; then
            :
        elif [ $got = $wanted ] && cmp -s stdout wanted.out && cmp -s stderr wanted.err && { [ ! -e "$out" ] || cmp -s "$out" wanted.file; }; then
            :
        else
            wrong "$what: request $number of $asked: status $got, '$(head -c 80 stderr)'"
        fi
        number=$((number + 1))
    done
    echo "$what: $asked requests"
    rm -f wanted.file
}

refuses 'run of a copy' out.pgm run copy.dk gradient.pgm out.pgm
refuses 'run of the square and shifted copy' out.pgm run square.dk square.pgm out.pgm
refuses 'run with two inputs and outputs' out.pgm run two_cameras.dk cameras.pgm out.pgm
refuses 'eval of the Gaussian' out.pgm eval gaussian3.dk scene.pgm out.pgm
refuses 'compile of the Sobel filter' out.v compile sobel.dk out.v
refuses 'cut of the Sobel filter' out.dk cut 2 sobel.dk out.dk
refuses 'narrow of the Sobel filter' out.dk narrow sobel.dk out.dk
refuses 'widen of the Sobel filter' out.dk widen 2 sobel.dk out.dk
refuses 'plan of the Sobel filter' out.none plan sobel.dk
refuses 'sim of a line buffer' out.pgm sim line_buffer.v 3072 scene.pgm out.pgm
refuses 'trace of a line buffer' out.vcd trace line_buffer.v 200 scene.pgm out.vcd
refuses 'make 7' out.none make 7
[ "$failed" = 0 ]
