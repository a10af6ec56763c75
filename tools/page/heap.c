// The heap of the page's module: the three functions that a Global calls, over a memory that only grows.
typedef unsigned long size_t;
typedef unsigned long u64;
typedef struct {
    u64 is_ok;
    void *block;
} Tried;

#define PAGE 65536UL
// Past so many bytes an allocation fails, as where memory runs out.
#define MOST (1UL << 30)

// Blocks of a class have one size: 16, 32, 48, 64, and from there on four sizes for each power of two. Before a block
// stands its class, and while it is free the next free one of its class.
typedef struct Block {
    u64 class;
    struct Block *next;
} Block;
enum { CLASSES = 256 };
static Block *freed[CLASSES];

// The heap uses what it has grown itself, and nothing else: the page grows the memory for its own buffers too, also
// before the first block.
static char *at, *end;
static u64 grown;

static u64 class_of(size_t size) {
    u64 units = (size + 15) / 16;
    if (units <= 4) return units ? units - 1 : 0;
    units -= 1;
    u64 top = 63 - __builtin_clzl(units);
    return 4 + (top - 2) * 4 + ((units >> (top - 2)) & 3);
}

static u64 size_of(u64 class) {
    if (class < 4) return (class + 1) * 16;
    u64 top = (class - 4) / 4 + 2, part = (class - 4) & 3;
    return 16 * ((4 + part + 1) << (top - 2));
}

// Grows the memory so that a block of this many bytes fits behind `at`.
static int grow(u64 size) {
    u64 pages = (size + PAGE - 1) / PAGE;
    if (pages < 64) pages = 64;
    if (grown + pages * PAGE > MOST) return 0;
    u64 old = __builtin_wasm_memory_grow(0, pages);
    if (old == (u64)-1) return 0;
    grown += pages * PAGE;
    // Where the page has grown the memory since, the rest before that is given up.
    if ((char *)(old * PAGE) != end) at = (char *)(old * PAGE);
    end = (char *)((old + pages) * PAGE);
    return 1;
}

static void *block(size_t size) {
    if (size >= 1UL << 40) return 0;
    u64 class = class_of(size);
    Block *free = freed[class];
    if (free) {
        freed[class] = free->next;
        return (char *)free + sizeof(Block);
    }
    u64 whole = size_of(class) + sizeof(Block);
    if ((u64)(end - at) < whole && !grow(whole)) return 0;
    Block *new = (Block *)at;
    at += whole;
    new->class = class;
    return (char *)new + sizeof(Block);
}

// Each block begins at a multiple of 16, which is more than any type here asks for.
Tried rattle_alloc(size_t size, size_t align) {
    void *new = block(size);
    return (Tried){new != 0, new};
}

void rattle_dealloc(void *old) {
    Block *free = (Block *)((char *)old - sizeof(Block));
    free->next = freed[free->class];
    freed[free->class] = free;
}

Tried rattle_realloc(void *old, size_t kept, size_t size, size_t align) {
    Block *now = (Block *)((char *)old - sizeof(Block));
    if (size <= size_of(now->class)) return (Tried){1, old};
    void *new = block(size);
    if (!new) return (Tried){0, old};
    __builtin_memcpy(new, old, kept);
    rattle_dealloc(old);
    return (Tried){1, new};
}

// The export. It traps where an earlier call has not returned, since what a trap leaves is not to be used again.
unsigned gvr_answer(const char *words, size_t words_size, const char *text, size_t text_size, char *out,
                    size_t out_size, char *err, size_t err_size, u64 *said);
static int is_in_call;

__attribute__((export_name("gvr_answer"))) unsigned page_answer(
    const char *words, size_t words_size, const char *text, size_t text_size, char *out, size_t out_size, char *err,
    size_t err_size, u64 *said) {
    if (is_in_call) __builtin_trap();
    is_in_call = 1;
    unsigned status = gvr_answer(words, words_size, text, text_size, out, out_size, err, err_size, said);
    is_in_call = 0;
    return status;
}
