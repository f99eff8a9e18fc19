/* The memory of the WebAssembly module. Freed blocks wait in a list for each size. The last block can grow and be given
 * back, so that a text that grows is not copied. `balisecheck_take` and `balisecheck_give` are for the bytes of callers. */
typedef __SIZE_TYPE__ size;

/* What the module reads. After a refusal the address is not used. */
struct tried { size is_given; void *at; };

/* A block begins 8 bytes before a multiple of 16, with the number of its size. If it is free, the next one follows. */
struct block { size kind; struct block *next; };
enum { HEAD = 8, UNIT = 16, SMALL = 64, STEPS = 4, KINDS = SMALL + 32 * STEPS, PAGE = 1 << 16, PIECE = 1 << 20 };

extern char __heap_base;
struct tried rattle_alloc(size, size), rattle_realloc(void *, size, size, size);
void rattle_dealloc(void *), balisecheck_give(void *), balisecheck_limit(size);
void *balisecheck_take(size);

static struct block *freed[KINDS];
static char *end;
static size limit = (size)1 << 40; /* of all bytes together */

/* The number of the least size that has room: multiples of 16 up to 1024, then four sizes up to each power of two. */
static size kind_of(size count) {
    size last = (count + HEAD - 1) / UNIT;
    if (last < SMALL) return last;
    size power = 63 - (size)__builtin_clzl(last);
    return SMALL + (power - 6) * STEPS + (last >> (power - 2) & (STEPS - 1));
}

static size size_of(size kind) {
    if (kind < SMALL) return (kind + 1) * UNIT;
    size power = (kind - SMALL) / STEPS + 6, step = (kind - SMALL) % STEPS;
    return ((size)1 << (power - 2)) * (STEPS + step + 1) * UNIT;
}

static char *start(void) { return (char *)(((size)&__heap_base + UNIT - 1) / UNIT * UNIT + HEAD); }

/* Moves the end of all blocks, and returns whether there is memory for that. */
static int ends_at(char *wanted) {
    size have = __builtin_wasm_memory_size(0) * PAGE, need = (size)wanted, more = (have / 8 + PIECE) / PAGE;
    if (need - (size)start() > limit) return 0;
    if (need > have) {
        size least = (need - have + PAGE - 1) / PAGE;
        if (__builtin_wasm_memory_grow(0, least > more ? least : more) == (size)-1 &&
            __builtin_wasm_memory_grow(0, least) == (size)-1)
            return 0;
    }
    end = wanted;
    return 1;
}

static struct tried given(char *block, size kind) {
    ((struct block *)block)->kind = kind;
    return (struct tried){1, block + HEAD};
}

static struct tried refused(void) { return (struct tried){0, &__heap_base}; }

struct tried rattle_alloc(size count, size align) {
    (void)align; /* (at most 16) */
    if (count > limit) return refused();
    size kind = kind_of(count ? count : 1);
    struct block *block = freed[kind];
    if (block) {
        freed[kind] = block->next;
        return (struct tried){1, (char *)block + HEAD};
    }
    char *at = end ? end : start();
    return ends_at(at + size_of(kind)) ? given(at, kind) : refused();
}

void rattle_dealloc(void *old) {
    struct block *block = (struct block *)((char *)old - HEAD);
    if ((char *)block + size_of(block->kind) == end) {
        end = (char *)block;
        return;
    }
    block->next = freed[block->kind];
    freed[block->kind] = block;
}

struct tried rattle_realloc(void *old, size kept, size count, size align) {
    char *block = (char *)old - HEAD;
    size had = ((struct block *)block)->kind, kind;
    if (count > limit) return refused();
    kind = kind_of(count ? count : 1);
    if (kind <= had) return (struct tried){1, old};
    if (block + size_of(had) == end) return ends_at(block + size_of(kind)) ? given(block, kind) : refused();
    struct tried other = rattle_alloc(count, align);
    if (other.is_given) {
        __builtin_memcpy(other.at, old, kept < count ? kept : count);
        rattle_dealloc(old);
    }
    return other;
}

/* Null if there is no memory. */
void *balisecheck_take(size count) {
    struct tried tried = rattle_alloc(count, UNIT);
    return tried.is_given ? tried.at : 0;
}

void balisecheck_give(void *old) { rattle_dealloc(old); }

/* From now on all blocks together have at most this many bytes, which is at most 2 to the power of 40. */
void balisecheck_limit(size most) { limit = most; }
