// The heap of the page's module, in the place of the C library's malloc, realloc and free (see the kit's libc/c/heap.c).
// A block has 16 << k bytes behind a header of 16, and each k has a list of its free blocks. So blocks are aligned to 16,
// none is ever joined or split, and at most half of a block is not asked for. It serves wasm64 and wasm32.
typedef unsigned long long u64;
typedef unsigned char u8;
typedef __UINTPTR_TYPE__ place;

typedef struct Head {
    struct Head *next;
    u64 k;
} Head;

_Static_assert(sizeof(Head) == 16, "");

// As the C ABI of x86-64 gives back { bool, pointer }: the engine's module reads both as words.
typedef struct {
    u64 ok, p;
} Tried;

enum { KINDS = 36 };

static Head *free_of[KINDS];
static u64 top;
extern u8 __heap_base;

static u64 kind_of(u64 n) {
    u64 k = 0;
    while (k < KINDS && (16ull << k) < n) k++;
    return k;
}

// Whether the memory reaches so far, or grew to do so. It grows by a quarter at least, where it may, since an engine may copy
// all of it each time.
static int has(u64 end) {
    u64 have = (u64)__builtin_wasm_memory_size(0) << 16;
    if (end <= have) return 1;
    u64 least = (end - have + 65535) >> 16, more = have >> 18, most = sizeof(place) == 4 ? 65535 : 1ull << 40;
    if ((have >> 16) + least > most) return 0;
    if (more > least && (have >> 16) + more <= most && __builtin_wasm_memory_grow(0, (place)more) != (place)-1) return 1;
    return __builtin_wasm_memory_grow(0, (place)least) != (place)-1;
}

static void *taken(u64 n) {
    u64 k = kind_of(n);
    if (k == KINDS) return 0;
    Head *head = free_of[k];
    if (head) {
        free_of[k] = head->next;
    } else {
        if (!top) top = ((u64)(place)&__heap_base + 15) & ~15ull;
        u64 end = top + sizeof(Head) + (16ull << k);
        if (!has(end)) return 0;
        head = (Head *)(place)top;
        top = end;
    }
    head->k = k;
    return head + 1;
}

Tried rattle_alloc(u64 n, u64 align) {
    void *p = taken(n);
    return (Tried){p != 0, (u64)(place)p};
}

void rattle_dealloc(void *p) {
    Head *head = (Head *)p - 1;
    head->next = free_of[head->k];
    free_of[head->k] = head;
}

Tried rattle_realloc(void *p, u64 kept, u64 n, u64 align) {
    if (n <= 16ull << ((Head *)p - 1)->k) return (Tried){1, (u64)(place)p};
    void *now = taken(n);
    if (now) {
        __builtin_memcpy(now, p, (place)kept);
        rattle_dealloc(p);
    }
    return (Tried){now != 0, (u64)(place)now};
}

// For the page's script: a block for bytes that it passes, or 0. (The attribute export_name would also give the module a
// table with 64-bit indices, which engines took later than 64-bit memory.)
#ifdef __wasm__
__asm__(".export_name page_take, page_take");
#endif
void *page_take(u64 n) { return taken(n); }
