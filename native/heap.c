/* The memory of the library: its code makes these three calls, here by malloc, realloc and free. Blocks of no bytes
 * get as many as their alignment, since malloc may answer null for none. After a refusal the address is not used. */
typedef __SIZE_TYPE__ size;
extern void *malloc(size), *realloc(void *, size), free(void *);

struct tried { _Bool is_given; void *at; };

static struct tried tried(void *at) {
    static char nowhere;
    return (struct tried){at != 0, at ? at : &nowhere};
}

struct tried rattle_alloc(size count, size align) { return tried(malloc(count ? count : align)); }
struct tried rattle_realloc(void *old, size kept, size count, size align) {
    (void)kept;
    return tried(realloc(old, count ? count : align));
}
void rattle_dealloc(void *old) { free(old); }
