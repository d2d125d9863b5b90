// The heap of the WebAssembly module: the three C functions that the proved code rests on, over the memory above the module's own data.
// Nothing proves it.
//
// A block is a header of 16 bytes and then the bytes. Its size is one of the classes below, four to each doubling; a freed block goes on the
// list of its class. New blocks are cut from the end of what is used, and the memory grows as they need it. The last block grows and shrinks
// in place. Blocks are aligned to 16.

typedef unsigned long long u64;
typedef unsigned char u8;

extern u8 __heap_base;

typedef struct Block {
    u64 size;           // of what comes after the header
    struct Block *next; // on its class's list, while it is free
    u64 : 32;
} Block;

_Static_assert(sizeof(Block) == 16, "a header keeps blocks aligned");

typedef struct {
    u64 ok;
    u64 block;
} Tried;

#define PAGE 65536ULL
#define LIMIT 0x100000000ULL
#define CLASSES 256

static Block *free_blocks[CLASSES];
static u64 used; // where the last block ends
static Block *last;

static u64 memory_size(void) {
    return (u64)__builtin_wasm_memory_size(0) * PAGE;
}

// The number of the class of the smallest blocks that hold n bytes, and their size. From 16 to 64 in steps of 16, then four to each doubling.
static int class_of(u64 n, u64 *size) {
    if (n <= 64) {
        u64 steps = n ? (n + 15) / 16 : 1;
        *size = steps * 16;
        return (int)steps - 1;
    }
    int top = 63 - __builtin_clzll(n - 1); // 2^top <= n - 1 < 2^(top + 1), top >= 6
    u64 step = 1ULL << (top - 2);
    u64 steps = (n - 1 - (1ULL << top)) / step + 1; // 1 to 4
    *size = (1ULL << top) + steps * step;
    return 4 + (top - 6) * 4 + (int)steps - 1;
}

// Whether the memory now reaches up to this address.
static int reaches(u64 end) {
    u64 size = memory_size();
    if (end <= size) {
        return 1;
    }
    if (end > LIMIT) {
        return 0;
    }
    u64 pages = (end - size + PAGE - 1) / PAGE;
    // A little ahead, since each growth costs a call of the engine.
    u64 ahead = size / 8 / PAGE;
    if (size + (pages + ahead) * PAGE <= LIMIT && __builtin_wasm_memory_grow(0, pages + ahead) != (__SIZE_TYPE__)-1) {
        return 1;
    }
    return __builtin_wasm_memory_grow(0, pages) != (__SIZE_TYPE__)-1;
}

static Block *take(u64 n) {
    u64 size;
    if (n > LIMIT) {
        return 0;
    }
    int class = class_of(n, &size);
    Block *block = free_blocks[class];
    if (block) {
        free_blocks[class] = block->next;
        return block;
    }
    if (!used) {
        used = ((u64)(__SIZE_TYPE__)&__heap_base + 15) / 16 * 16;
    }
    if (!reaches(used + 16 + size)) {
        return 0;
    }
    block = (Block *)(__SIZE_TYPE__)used;
    block->size = size;
    used += 16 + size;
    last = block;
    return block;
}

static void give(Block *block) {
    if (block == last) {
        used -= 16 + block->size;
        last = 0; // which block is the last one now isn't known
        return;
    }
    u64 size;
    int class = class_of(block->size, &size);
    block->next = free_blocks[class];
    free_blocks[class] = block;
}

static u64 address(Block *block) {
    return (u64)(__SIZE_TYPE__)(block + 1);
}

Tried rattle_alloc(u64 n, u64 align) {
    (void)align; // at most 16
    Block *block = take(n);
    return (Tried){block != 0, block ? address(block) : 16};
}

Tried rattle_realloc(void *p, u64 kept, u64 n, u64 align) {
    (void)align;
    Block *block = (Block *)p - 1;
    u64 size;
    if (n > LIMIT) {
        return (Tried){0, (u64)(__SIZE_TYPE__)p};
    }
    class_of(n, &size);
    if (block == last) {
        if (!reaches((u64)(__SIZE_TYPE__)p + size)) {
            return (Tried){0, (u64)(__SIZE_TYPE__)p};
        }
        block->size = size;
        used = (u64)(__SIZE_TYPE__)p + size;
        return (Tried){1, (u64)(__SIZE_TYPE__)p};
    }
    if (size == block->size) {
        return (Tried){1, (u64)(__SIZE_TYPE__)p};
    }
    Block *moved = take(n);
    if (!moved) {
        return (Tried){0, (u64)(__SIZE_TYPE__)p};
    }
    __builtin_memcpy(moved + 1, p, kept);
    give(block);
    return (Tried){1, address(moved)};
}

void rattle_dealloc(void *p) {
    give((Block *)p - 1);
}

// For the host: room for n bytes, 0 where there is none. It stays until it is given back.
__attribute__((export_name("jslint_take"))) void *jslint_take(u64 n) {
    Block *block = take(n);
    return block ? block + 1 : 0;
}

__attribute__((export_name("jslint_give"))) void jslint_give(void *p) {
    rattle_dealloc(p);
}
