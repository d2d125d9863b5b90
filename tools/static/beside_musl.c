/* What the program's object and the toolchain's C ask of glibc and musl hasn't, how musl's heap keeps small pieces and lets larger ones grow, and copies of few
 * bytes, which musl makes slowly. Of the toolchain's clang, which has no headers, it asks none. */

typedef unsigned long size_t;
long write(int, const void *, size_t);
long syscall(long, ...);
int __real_main(int, char **, char **);
void *__real_memcpy(void *, const void *, size_t);
void *__real_memmove(void *, const void *, size_t);
void *__real_realloc(void *, size_t);
void *__real___mmap(void *, size_t, int, int, int, long);

typedef void constructor(int, char **, char **);
extern constructor *const __init_array_start[], *const __init_array_end[];

/* The state of musl's heap, as musl 1.2.3 has it (src/malloc/mallocng/meta.h). */
struct heap {
    unsigned long secret;
    int is_ready;
    unsigned maps;
    void *free_meta_head, *free_meta;
    size_t free_metas, free_meta_areas, meta_area_shift;
    void *first_meta_area, *last_meta_area;
    unsigned char *free_areas;
    void *active[48];
    size_t used[48];
    unsigned char unmapped_at[32], bounces[32];
    unsigned char now;
    unsigned long end;
};
extern struct heap __malloc_context __attribute__((visibility("hidden")));

/* musl gives the last memory of a size back to the system when nothing of that size is in use, unless it had to take it again a hundred times. Here each of the
 * 32 sizes for which it counts that (128 to 26,192 bytes) counts as taken again that often when the program begins. */
static void keep_memory(void)
{
    for (int size = 0; size < 32; size++)
        __malloc_context.bounces[size] = 255;
}

/* musl's heap uses a mapping of one or two pages as soon as it has it. So the system puts the pages there at once, and needn't be asked for each when it is met
 * (mmap(2); a mapping that may not be used stays as it is). */
enum { TWO_PAGES = 8192, POPULATE = 0x8000 };

void *__wrap___mmap(void *at, size_t size, int use, int how, int file, long from)
{
    return __real___mmap(at, size, use, size <= TWO_PAGES && use ? how | POPULATE : how, file, from);
}

/* From MAPPED bytes on a piece is a mapping of its own, which the system lets grow without a copy; below, musl copies it to another place each time. So one that
 * grows to GROWING bytes gets such a mapping at once: what it doesn't use of it takes no memory. */
enum { GROWING = 16384, MAPPED = 131052 };

void *__wrap_realloc(void *piece, size_t count)
{
    void *mapped = count >= GROWING && count < MAPPED ? __real_realloc(piece, MAPPED) : 0;
    return mapped ? mapped : __real_realloc(piece, count);
}

/* glibc hands its constructors the program's words, and the toolchain's keeps them. musl hands them nothing: so they are called in front of main, and not
 * where musl would call them. */
void __libc_start_init(void)
{
}

int __wrap_main(int count, char **words, char **environment)
{
    keep_memory();
    for (constructor *const *each = __init_array_start; each < __init_array_end; each++)
        (*each)(count, words, environment);
    return __real_main(count, words, environment);
}

long __write(int file, const void *bytes, size_t count)
{
    return write(file, bytes, count);
}

/* statx(2): 332 is its number in Linux on x86-64. */
int statx(int folder, const char *name, int flags, unsigned mask, void *found)
{
    return syscall(332, folder, name, flags, mask, found);
}

/* What the processor has by a leaf of CPUID, in eax, ebx, ecx and edx, and what of it may be used: the program asks whether it has what it was compiled for,
 * x86-64-v2. So of the leaves as glibc numbers them (<sys/platform/x86.h>) there are two, and of these the features of x86-64-v2: SSE3, SSSE3, CMPXCHG16B,
 * SSE4.1, SSE4.2 and POPCNT in ecx of the one, LAHF in ecx of the other. None of them asks anything of the system, as those of AVX do. */
struct leaf { unsigned has[4], usable[4]; };

const struct leaf *__x86_get_cpuid_feature_leaf(unsigned number)
{
    static const struct { unsigned asked, ecx; } known[] = {{1, 1 | 1 << 9 | 1 << 13 | 1 << 19 | 1 << 20 | 1 << 23}, {0, 0}, {0x80000001, 1}};
    static struct leaf found[3];
    struct leaf *leaf = &found[number < 3 ? number : 1];
    if (leaf != &found[1]) {
        __asm__("cpuid" : "=a"(leaf->has[0]), "=b"(leaf->has[1]), "=c"(leaf->has[2]), "=d"(leaf->has[3]) : "0"(known[number].asked), "2"(0));
        leaf->usable[2] = leaf->has[2] & known[number].ecx;
    }
    return leaf;
}

/* Bytes as one number, which may lie anywhere. */
typedef unsigned short two __attribute__((aligned(1), may_alias));
typedef unsigned int four __attribute__((aligned(1), may_alias));
typedef unsigned long eight __attribute__((aligned(1), may_alias));
typedef long long sixteen __attribute__((vector_size(16), aligned(1), may_alias));

/* Copies between sizeof(type) and 2 * sizeof(type) bytes: the first of them and the last, which may overlap. */
#define COPY_ENDS(type) do { \
    type first = *(const type *)from, last = *(const type *)(from + count - sizeof(type)); \
    *(type *)to = first; \
    *(type *)(to + count - sizeof(type)) = last; \
} while (0)

/* Copies at most 32 bytes, reading all before it writes any, so that the two places may overlap. */
static inline void copy_few(char *to, const char *from, size_t count)
{
    if (count >= 16)
        COPY_ENDS(sixteen);
    else if (count >= 8)
        COPY_ENDS(eight);
    else if (count >= 4)
        COPY_ENDS(four);
    else if (count >= 2)
        COPY_ENDS(two);
    else if (count)
        *to = *from;
}

void *__wrap_memcpy(void *to, const void *from, size_t count)
{
    if (count > 32)
        return __real_memcpy(to, from, count);
    copy_few(to, from, count);
    return to;
}

void *__wrap_memmove(void *to, const void *from, size_t count)
{
    if (count > 32)
        return __real_memmove(to, from, count);
    copy_few(to, from, count);
    return to;
}
