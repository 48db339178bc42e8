// A heap that refuses, for tests: the program's allocation with the number REFUSED_ALLOCATION, counted from 1, fails. Then a
// byte goes to the file descriptor named by REFUSAL_TOLD_TO, so that the caller knows that there was such an allocation. It is
// loaded before the C library (LD_PRELOAD), into a proved program as it was built (ci/test_memory.py). Allocations by the C
// library itself are neither counted nor refused.
// The toolchain has no headers of the C library, so the functions used are declared here.
typedef unsigned long size_t;
extern void *__libc_malloc(size_t), *__libc_realloc(void *, size_t);
extern void abort(void);
extern char *getenv(const char *);
extern long strtol(const char *, char **, int);
extern long write(int, const void *, size_t);

// A segment of a program, and where its segments are, as in 64-bit ELF and in glibc's link.h.
struct segment {
    unsigned int type, flags;
    unsigned long offset, address, physical, in_file, in_memory, align;
};

struct object {
    unsigned long base;
    const char *name;
    const struct segment *segments;
    unsigned short count;
};

extern int dl_iterate_phdr(int (*)(struct object *, size_t, void *), void *);

// The loaded segments of the program itself are between these addresses.
static unsigned long first = ~0UL, last = 0;

static int note(struct object *program, size_t size, void *given)
{
    (void)size;
    (void)given;
    for (unsigned short at = 0; at < program->count; at += 1) {
        const struct segment *it = &program->segments[at];
        unsigned long begin = program->base + it->address, end = begin + it->in_memory;
        if (it->type != 1)
            continue;
        first = begin < first ? begin : first;
        last = end > last ? end : last;
    }
    // The first object is the program.
    return 1;
}

__attribute__((constructor)) static void find_program(void)
{
    dl_iterate_phdr(note, 0);
}

static long number_in(const char *name)
{
    const char *text = getenv(name);
    return text ? strtol(text, 0, 10) : 0;
}

// Whether the call from this address is the one to refuse.
static int is_refused(const void *from)
{
    static long refused = -1, made = 0;
    if ((unsigned long)from < first || (unsigned long)from >= last)
        return 0;
    if (refused < 0)
        refused = number_in("REFUSED_ALLOCATION");
    made += 1;
    if (made != refused)
        return 0;
    if (write((int)number_in("REFUSAL_TOLD_TO"), "!", 1) != 1)
        abort();
    return 1;
}

void *malloc(size_t size)
{
    return is_refused(__builtin_return_address(0)) ? 0 : __libc_malloc(size);
}

void *realloc(void *at, size_t size)
{
    return is_refused(__builtin_return_address(0)) ? 0 : __libc_realloc(at, size);
}
