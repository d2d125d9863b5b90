/* The three C functions that the proved code of libjslint.a rests on, over malloc; they stand in libjslint.a. Nothing proves them.
   The toolchain's compiler has no headers, so the few names that are needed stand here. */
typedef __SIZE_TYPE__ size_t;

void *malloc(size_t size);
void *realloc(void *block, size_t size);
void free(void *block);

/* Whether memory was given, and where. */
typedef struct {
    size_t is_given;
    void *block;
} Tried;

/* What a refused request answers beside the refusal: an address that nobody reads. */
static _Alignas(16) char nothing[16];

Tried rattle_alloc(size_t size, size_t align) {
    (void)align; /* at most 16, as malloc aligns */
    void *block = malloc(size ? size : 1);
    return (Tried){block != 0, block ? block : nothing};
}

Tried rattle_realloc(void *block, size_t kept, size_t size, size_t align) {
    (void)kept, (void)align; /* realloc keeps what fits */
    void *moved = realloc(block, size ? size : 1);
    return (Tried){moved != 0, moved ? moved : block};
}

void rattle_dealloc(void *block) {
    free(block);
}
