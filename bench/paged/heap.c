// Tries page/heap.c on this machine: blocks of many sizes, taken, grown and given back by chance. Every block is aligned to
// 16, holds what was written to it, and overlaps no other and no other's header.
#include <stdio.h>
#include <stdlib.h>
#include <string.h>
#include <sys/mman.h>

#define MOST 2000
#define MEMORY (1ull << 28)
#define FIRST 0x10000ull // the memory stands at the front of this process's, as the heap counts from 0
unsigned char __heap_base;
static unsigned long long pages = 16, limit = MEMORY >> 16;
static unsigned long long size_of(int it) { return pages; }
static unsigned long long grown(int it, unsigned long long more) {
    if (pages + more > limit) return (unsigned long long)-1;
    pages += more;
    return pages - more;
}
#define __builtin_wasm_memory_size size_of
#define __builtin_wasm_memory_grow grown
#include HEAP
#undef __builtin_wasm_memory_size
#undef __builtin_wasm_memory_grow

typedef struct { unsigned char *at; unsigned long long size; unsigned char mark; } Block;
static Block blocks[MOST];
static unsigned long long seed = 7;
static unsigned long long chance(unsigned long long n) { return (seed = seed * 6364136223846793005ull + 1442695040888963407ull) >> 33, (seed >> 33) % n; }
static void stop(const char *what) { printf("%s\n", what); exit(1); }

static void look(Block *block, int among) {
    if ((unsigned long long)block->at % 16) stop("a block isn't aligned");
    if ((unsigned long long)block->at < FIRST || (unsigned long long)(block->at + block->size) > pages * 65536) stop("a block is outside the memory");
    for (unsigned long long i = 0; i < block->size; i++) if (block->at[i] != block->mark) stop("a block lost what it held");
    for (int i = 0; i < among; i++) {
        Block *other = &blocks[i];
        if (other == block || !other->at) continue;
        if (block->at < other->at + other->size && other->at - 16 < block->at + block->size) stop("two blocks overlap");
    }
}

static unsigned long long some_size(void) { return chance(8) ? chance(300) : chance(200000); }

int main(void) {
    int flags = MAP_PRIVATE | MAP_ANONYMOUS | MAP_FIXED_NOREPLACE;
    if (mmap((void *)FIRST, MEMORY, PROT_READ | PROT_WRITE, flags, -1, 0) != (void *)FIRST) stop("no memory at the front");
    top = FIRST;
    for (int turn = 0; turn < 200000; turn++) {
        Block *block = &blocks[chance(MOST)];
        if (!block->at) {
            block->size = some_size();
            Tried tried = rattle_alloc(block->size, 16);
            block->at = tried.ok ? (unsigned char *)tried.p : 0;
        } else if (chance(3)) {
            look(block, turn % 16 ? 0 : MOST);
            rattle_dealloc(block->at);
            block->at = 0;
        } else {
            unsigned long long now = some_size(), kept = now < block->size ? now : block->size;
            Tried tried = rattle_realloc(block->at, kept, now, 16);
            if (tried.ok) {
                block->at = (unsigned char *)tried.p;
                block->size = kept;
                look(block, 0);
                block->size = now;
            }
        }
        if (block->at) memset(block->at, block->mark = (unsigned char)turn, block->size);
    }
    for (int i = 0; i < MOST; i++) if (blocks[i].at) look(&blocks[i], MOST);
    limit = pages;
    for (int i = 0; i < 64; i++) if (!rattle_alloc(1 << 22, 16).ok) { printf("tried\n"); return 0; }
    stop("want of memory isn't told");
}
