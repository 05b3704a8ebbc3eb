/* Is loaded before a program, refuses it allocations and threads, and counts what it asks for.
   Which are refused and what was asked for stands in a page of the file whose descriptor the
   environment names as REFUSING: who starts the program maps it too (running.py). The declarations
   are the C library's own; it needs no header, so the kit's clang is enough. */
typedef unsigned long size_t;
typedef unsigned long pthread_t;
typedef void *body(void *);
typedef int create(pthread_t *, const void *, body *, void *);

extern char *getenv(const char *);
extern void *mmap(void *, size_t, int, int, int, long);
extern void *dlsym(void *, const char *);
extern int *__errno_location(void);
extern void *__libc_malloc(size_t);
extern void *__libc_calloc(size_t, size_t);
extern void *__libc_realloc(void *, size_t);
extern void *__libc_memalign(size_t, size_t);

enum { READ_AND_WRITE = 3, SHARED = 1, NO_MEMORY = 12, NO_THREAD = 11, PAGE = 4096 };
#define NEXT ((void *)-1L)

/* What of one kind is refused, from the first on and before the last, and how often it was asked
   for. Numbers are from 1. */
struct kind {
    size_t first, last, asked;
};

static struct { struct kind allocations, threads; } *page;
static create *real_create;

__attribute__((constructor)) static void map_page(void) {
    const char *number = getenv("REFUSING");
    int file = 0;
    real_create = (create *)dlsym(NEXT, "pthread_create");
    if (!number) return;
    while (*number) file = file * 10 + (*number++ - '0');
    void *mapped = mmap(0, PAGE, READ_AND_WRITE, SHARED, file, 0);
    if (mapped != NEXT) page = mapped;
}

static int is_refused(struct kind *kind) {
    size_t number = __atomic_add_fetch(&kind->asked, 1, __ATOMIC_SEQ_CST);
    return kind->first <= number && number < kind->last;
}

/* As malloc(3) has it, errno tells the refusal: the C library goes by that as it makes a thread. */
static int no_memory(void) {
    if (!page || !is_refused(&page->allocations)) return 0;
    *__errno_location() = NO_MEMORY;
    return 1;
}

void *malloc(size_t size) { return no_memory() ? 0 : __libc_malloc(size); }

void *calloc(size_t count, size_t size) { return no_memory() ? 0 : __libc_calloc(count, size); }

void *realloc(void *old, size_t size) { return no_memory() ? 0 : __libc_realloc(old, size); }

void *aligned_alloc(size_t alignment, size_t size) {
    return no_memory() ? 0 : __libc_memalign(alignment, size);
}

int posix_memalign(void **out, size_t alignment, size_t size) {
    void *made = aligned_alloc(alignment, size);
    if (made) *out = made;
    return made ? 0 : NO_MEMORY;
}

int pthread_create(pthread_t *thread, const void *attributes, body *run, void *argument) {
    if (page && is_refused(&page->threads)) return NO_THREAD;
    return real_create(thread, attributes, run, argument);
}
