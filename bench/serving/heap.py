"""What the server's memory is made of where it has most: the same run as `serving.crowd`, with a small library loaded before
the program that counts the bytes which live by the sizes of their blocks. A list that grows is one block, so that the
journal and each table's history are found by the sizes of their entries. Needs a C compiler.

python3 -m serving.heap TABLES SEATS DOORS MINUTES"""
import pathlib
import struct
import subprocess
import sys
import tempfile

from serving import crowd, server

# how many sizes the library keeps, and what it keeps of each: the size, the bytes that live, and those that lived at the most
SIZES, ROW = 4096, struct.Struct("3Q")
PRELOAD = r"""
#define _GNU_SOURCE
#include <dlfcn.h>
#include <fcntl.h>
#include <pthread.h>
#include <stdint.h>
#include <stdlib.h>
#include <string.h>
#include <sys/mman.h>
#include <unistd.h>
#define BLOCKS (1 << 21)
static struct block { uintptr_t at; unsigned row; } blocks[BLOCKS];
static struct row { size_t size, live, most; } *rows;
static size_t live, most;
static pthread_mutex_t lock = PTHREAD_MUTEX_INITIALIZER;
static void *(*real_malloc)(size_t), *(*real_realloc)(void *, size_t);
static void (*real_free)(void *);
__attribute__((constructor)) static void begin(void) {
    char program[256] = "";
    real_malloc = dlsym(RTLD_NEXT, "malloc");
    real_realloc = dlsym(RTLD_NEXT, "realloc");
    real_free = dlsym(RTLD_NEXT, "free");
    if (readlink("/proc/self/exe", program, 255) > 0 && strstr(program, "floor_desk"))
        rows = mmap(0, SIZES * sizeof *rows, PROT_READ | PROT_WRITE, MAP_SHARED, open(getenv("HEAP"), O_RDWR), 0);
}
static unsigned home(uintptr_t at) { return (at >> 4) * 2654435761u % BLOCKS; }
static unsigned slot_of(uintptr_t at) {
    unsigned slot = home(at);
    while (blocks[slot].at && blocks[slot].at != at) slot = (slot + 1) % BLOCKS;
    return slot;
}
static void there(void *block, size_t size) {
    unsigned row = size % SIZES;
    while (rows[row].size && rows[row].size != size) row = (row + 1) % SIZES;
    rows[row].size = size;
    rows[row].live += size;
    blocks[slot_of((uintptr_t)block)] = (struct block){(uintptr_t)block, row};
    live += size;
    if (live > most + most / 256) {
        most = live;
        for (row = 0; row < SIZES; row++) rows[row].most = rows[row].live;
    }
}
static void gone(void *block) {
    unsigned slot = slot_of((uintptr_t)block), next = slot;
    if (!blocks[slot].at) return;
    live -= rows[blocks[slot].row].size;
    rows[blocks[slot].row].live -= rows[blocks[slot].row].size;
    for (;;) {
        blocks[slot].at = 0;
        do {
            next = (next + 1) % BLOCKS;
            if (!blocks[next].at) return;
        } while ((next - home(blocks[next].at)) % BLOCKS < (next - slot) % BLOCKS);
        blocks[slot] = blocks[next];
        slot = next;
    }
}
void *malloc(size_t size) {
    if (!real_malloc) begin();
    if (!rows) return real_malloc(size);
    pthread_mutex_lock(&lock);
    void *block = real_malloc(size);
    if (block) there(block, size);
    pthread_mutex_unlock(&lock);
    return block;
}
void *realloc(void *old, size_t size) {
    if (!real_realloc) begin();
    if (!rows) return real_realloc(old, size);
    pthread_mutex_lock(&lock);
    if (old) gone(old);
    void *block = real_realloc(old, size);
    if (block) there(block, size);
    pthread_mutex_unlock(&lock);
    return block;
}
void free(void *block) {
    if (!real_free) begin();
    if (!rows || !block) return real_free(block);
    pthread_mutex_lock(&lock);
    gone(block);
    real_free(block);
    pthread_mutex_unlock(&lock);
}
"""


def main(*words):
    folder = pathlib.Path(tempfile.mkdtemp())
    source, library, heap = folder / "heap.c", folder / "heap.so", folder / "heap"
    source.write_text(PRELOAD)
    subprocess.run(["cc", "-O1", f"-DSIZES={SIZES}", "-shared", "-fPIC", "-o", library, source, "-ldl", "-lpthread"],
                   check=True)
    heap.write_bytes(bytes(SIZES * ROW.size))
    server.PROGRAM[:] = ["env", f"LD_PRELOAD={library}", f"HEAP={heap}", *server.PROGRAM]
    crowd.main(*map(int, words[:3]), float(words[3]))
    rows = sorted(((most, size) for size, _, most in ROW.iter_unpack(heap.read_bytes()) if most), reverse=True)
    print(f"{sum(most for most, _ in rows)} bytes lived at the most:")
    for most, size in rows[:30]:
        print(f"{most:12} in {most // size} blocks of {size}")


if __name__ == "__main__":
    main(*sys.argv[1:])
