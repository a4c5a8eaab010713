// The heap of the module, and the functions that compiled code calls by name where no C library is linked. The library asks for
// memory by rattle_alloc, rattle_realloc and rattle_dealloc, as the kit's C code for x86-64 has them over malloc, realloc and free.
//
// A block is a power of two in bytes with a head before it; a free one lies on the list of its size, and is never split or joined.
// What is asked for beyond all lists is taken from the end of the memory, which grows.
typedef unsigned long long u64;
typedef unsigned char u8;
typedef unsigned __int128 u128;
typedef __int128 i128;

extern u8 __heap_base;

// A head is as long as the alignment of a block.
typedef struct Head {
    u64 size_class;
    struct Head *next;
} Head;

typedef struct {
    u64 ok;
    void *block;
} Tried;

enum { page_size = 65536, least_class = 5, class_count = 48 };

static Head *lists[class_count];
static u64 end, limit;

// The smallest class whose blocks have room for a head and so many bytes.
static u64 class_of(u64 size) {
    u64 needed = size + sizeof(Head);
    u64 found = 64 - __builtin_clzll(needed - 1);
    return found < least_class ? least_class : found;
}

// Whether the memory reaches so far, also by growing.
static int reaches(u64 address) {
    if (address <= limit) {
        return 1;
    }
    u64 more = (address - limit + page_size - 1) / page_size;
    // A quarter more than is asked, where it can be had: a call to grow is slow.
    u64 wish = more + limit / page_size / 4;
    if (__builtin_wasm_memory_grow(0, wish) == -1UL) {
        if (__builtin_wasm_memory_grow(0, more) == -1UL) {
            return 0;
        }
        wish = more;
    }
    limit += wish * page_size;
    return 1;
}

// A block of this class from the end of the memory, or null.
static Head *take_new(u64 size_class) {
    if (end == 0) {
        end = ((u64)&__heap_base + sizeof(Head) - 1) & ~(u64)(sizeof(Head) - 1);
        limit = __builtin_wasm_memory_size(0) * page_size;
    }
    u64 next = end + ((u64)1 << size_class);
    if (!reaches(next)) {
        return 0;
    }
    Head *head = (Head *)end;
    head->size_class = size_class;
    end = next;
    return head;
}

static void *take(u64 size) {
    if (size >> 40) {
        return 0;
    }
    u64 size_class = class_of(size);
    Head *head = lists[size_class];
    if (head) {
        lists[size_class] = head->next;
    } else {
        head = take_new(size_class);
    }
    return head ? head + 1 : 0;
}

static void give(void *block) {
    Head *head = (Head *)block - 1;
    head->next = lists[head->size_class];
    lists[head->size_class] = head;
}

// What stands in the place of a block that could not be had.
static u8 no_block;

static Tried tried(void *block) {
    return (Tried){block != 0, block ? block : &no_block};
}

Tried rattle_alloc(u64 size, u64 align) {
    return tried(take(size ? size : align));
}

Tried rattle_realloc(void *block, u64 kept, u64 size, u64 align) {
    u64 wanted = size ? size : align;
    Head *head = (Head *)block - 1;
    if (wanted >> 40 || (head->size_class >= class_of(wanted) && head->size_class <= class_of(wanted) + 1)) {
        return tried(wanted >> 40 ? 0 : block);
    }
    void *moved = take(wanted);
    if (moved) {
        __builtin_memcpy(moved, block, kept < size ? kept : size);
        give(block);
    }
    return tried(moved);
}

void rattle_dealloc(void *block) {
    give(block);
}

// For the page: room for what it passes, and its return.
void *page_take(u64 size) {
    return take(size ? size : 1);
}

void page_give(void *block) {
    give(block);
}
