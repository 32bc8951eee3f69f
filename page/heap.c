/* The memory of the WebAssembly module: what a C library gives elsewhere. A block has 16 bytes before it, which hold its class; those that are
 * freed wait in a list for each power of two. Nothing here is proved. */
typedef __SIZE_TYPE__ size_t;
typedef __UINT64_TYPE__ uint64_t;

struct tried {
    _Bool ok;
    void *p;
};

struct block {
    struct block *next;
    uint64_t kind;
};

extern unsigned char __heap_base;
static unsigned char *top;
static struct block *free_blocks[48];

void *malloc(size_t size) {
    uint64_t kind = 5;
    while (((uint64_t)1 << kind) < size + 16) kind++;
    if (kind >= 32) return 0;
    struct block *block = free_blocks[kind];
    if (block) {
        free_blocks[kind] = block->next;
    } else {
        if (!top) top = &__heap_base;
        uint64_t from = ((uint64_t)top + 15) & ~(uint64_t)15, to = from + ((uint64_t)1 << kind), is = __builtin_wasm_memory_size(0) * 65536;
        if (to > is && __builtin_wasm_memory_grow(0, (to - is + 65535) / 65536) == (size_t)-1) return 0;
        top = (unsigned char *)to;
        block = (struct block *)from;
    }
    block->kind = kind;
    return block + 1;
}

void free(void *p) {
    if (!p) return;
    struct block *block = (struct block *)p - 1;
    block->next = free_blocks[block->kind];
    free_blocks[block->kind] = block;
}

/* What the library calls, under the names that it has for them. Where there is no memory, a pointer is answered that isn't null. */
static unsigned char none;

struct tried rattle_alloc(size_t size, size_t align) {
    (void)align;
    void *p = malloc(size);
    return (struct tried){p != 0, p ? p : &none};
}

struct tried rattle_realloc(void *p, size_t kept, size_t size, size_t align) {
    (void)align;
    struct block *block = (struct block *)p - 1;
    if (((uint64_t)1 << block->kind) >= size + 16) return (struct tried){1, p};
    void *made = malloc(size);
    if (!made) return (struct tried){0, &none};
    __builtin_memcpy(made, p, kept < size ? kept : size);
    free(p);
    return (struct tried){1, made};
}

void rattle_dealloc(void *p) { free(p); }

/* The product of two 128-bit numbers, which the compiler calls to find whether one of 64 bits overflows. */
__int128 __multi3(__int128 a, __int128 b) {
    uint64_t x = (uint64_t)a, y = (uint64_t)b, mask = 0xffffffff;
    uint64_t low = (x & mask) * (y & mask), one = (x >> 32) * (y & mask), two = (x & mask) * (y >> 32);
    uint64_t carry = ((low >> 32) + (one & mask) + (two & mask)) >> 32;
    uint64_t high = (x >> 32) * (y >> 32) + (one >> 32) + (two >> 32) + carry;
    high += x * (uint64_t)(b >> 64) + (uint64_t)(a >> 64) * y;
    return (__int128)(((unsigned __int128)high << 64) | (low + ((one + two) << 32)));
}
