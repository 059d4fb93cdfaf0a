"""Refuses one allocation of a program that is run. A small library, which is loaded before the program, counts those that
the program itself makes (and not the C library for it), and gives no memory for the one of a number. Needs a C compiler.
"""
import os
import subprocess

PRELOAD = r"""
#define _GNU_SOURCE
#include <dlfcn.h>
#include <errno.h>
#include <fcntl.h>
#include <stdatomic.h>
#include <stdint.h>
#include <stdio.h>
#include <stdlib.h>
#include <string.h>
#include <sys/mman.h>
static atomic_long *made;
static long refused = -1;
static uintptr_t first, last;
static void *(*real_malloc)(size_t), *(*real_realloc)(void *, size_t);
__attribute__((constructor)) static void begin(void) {
    real_malloc = dlsym(RTLD_NEXT, "malloc");
    real_realloc = dlsym(RTLD_NEXT, "realloc");
    char line[512], name[256], end[256] = "";
    FILE *maps = fopen("/proc/self/maps", "r");
    while (fgets(line, sizeof line, maps)) {
        uintptr_t from, to;
        *name = 0;
        if (sscanf(line, "%lx-%lx %*s %*s %*s %*s %255s", &from, &to, name) < 2) continue;
        if (!*end) { strcpy(end, name); first = from; }
        if (!strcmp(end, name)) last = to;
    }
    fclose(maps);
    made = mmap(0, sizeof *made, PROT_READ | PROT_WRITE, MAP_SHARED, open(getenv("MADE"), O_RDWR), 0);
    refused = atol(getenv("REFUSED"));
}
static int refuses(void *caller) {
    if (refused < 0 || (uintptr_t)caller < first || (uintptr_t)caller >= last) return 0;
    return atomic_fetch_add(made, 1) + 1 == refused;
}
void *malloc(size_t size) {
    if (!real_malloc) real_malloc = dlsym(RTLD_NEXT, "malloc");
    if (refuses(__builtin_return_address(0))) { errno = ENOMEM; return 0; }
    return real_malloc(size);
}
void *realloc(void *old, size_t size) {
    if (!real_realloc) real_realloc = dlsym(RTLD_NEXT, "realloc");
    if (refuses(__builtin_return_address(0))) { errno = ENOMEM; return 0; }
    return real_realloc(old, size);
}
"""


def build(folder):
    """Builds the library in a folder, and gives its path."""
    source, library = folder / "refuse.c", folder / "refuse.so"
    source.write_text(PRELOAD)
    subprocess.run(["cc", "-O1", "-shared", "-fPIC", "-o", library, source, "-ldl"], check=True)
    return library


def count_file(library):
    return library.with_name("made")


def begin(library, number):
    """Begins to count, and gives the environment in which a program has its allocation of this number refused."""
    count_file(library).write_bytes(bytes(8))
    return dict(os.environ, LD_PRELOAD=str(library), REFUSED=str(number), MADE=str(count_file(library)))


def made(library):
    """How many allocations were made, with the one that was refused."""
    return int.from_bytes(count_file(library).read_bytes(), "little")
