// The heap of the page's module: the three functions that the program's library calls for memory, and `room`, by which
// the page gets memory for what it hands in.
//
// A block is a word with the block's whole length, and after it the caller's bytes, which begin at a multiple of 16.
// Lengths are of four kinds to each power of two, so a block is at most a quarter longer than it has to be. A block that
// is freed waits in the list of its length, and goes to the next one who asks for that length. New blocks are cut from
// the end, and so does the last block grow and shrink, where it stands.

typedef unsigned long long Size;
typedef unsigned char Byte;

#ifdef __wasm__
extern Byte __heap_base;
enum { PAGE = 65536 };
static Byte *memory_begin(void) {
    return &__heap_base;
}
static Byte *memory_end(void) {
    return (Byte *)(__builtin_wasm_memory_size(0) * PAGE);
}
static int memory_grows(Size bytes) {
    return __builtin_wasm_memory_grow(0, (bytes + PAGE - 1) / PAGE) != (Size)-1;
}
#define EXPORTED __attribute__((export_name("room")))
#else
// The test has a memory of its own.
Byte *memory_begin(void);
Byte *memory_end(void);
int memory_grows(Size bytes);
#define EXPORTED
#endif

enum { WORD = 8, ALIGN = 16, LISTS = 108 };
// No block is longer than MOST, and the memory grows by at least STEP.
static const Size MOST = 1ULL << 32, STEP = 8 << 20;

// Whether there was memory, and where. With no memory the place is that of `nowhere`, which is no block's.
typedef struct {
    Size ok;
    Byte *place;
} Tried;

typedef struct Free {
    struct Free *next;
} Free;

static Byte nowhere;
static Free *lists[LISTS];
// Where the next new block's word goes, and where the memory ends.
static Byte *at, *end;

static Size *word_of(Byte *place) {
    return (Size *)(place - WORD);
}

// The list of the least length that holds `wanted` bytes and the word, and that length.
static unsigned list_of(Size wanted, Size *length) {
    Size last = wanted + WORD - 1;
    if (last < 64) {
        *length = (last / 16 + 1) * 16;
        return last / 16;
    }
    unsigned top = 63 - __builtin_clzll(last);
    Size part = 1ULL << (top - 2), parts = last / part;
    *length = (parts + 1) * part;
    return 4 * (top - 5) + (parts - 4);
}

// Whether the memory holds `length` bytes from `from` on, once it has grown where it has to.
static int reaches(Byte *from, Size length) {
    Size there = end - from;
    if (length <= there) {
        return 1;
    }
    Size more = length - there;
    if (!memory_grows(more > STEP ? more : STEP) && !memory_grows(more)) {
        return 0;
    }
    end = memory_end();
    return 1;
}

static Byte *new_block(Size length) {
    if (!at) {
        // So that the bytes after the word begin at a multiple of 16.
        at = memory_begin();
        at += (ALIGN - WORD - (Size)at) & (ALIGN - 1);
        end = memory_end();
    }
    if (!reaches(at, length)) {
        return 0;
    }
    Byte *place = at + WORD;
    *word_of(place) = length;
    at += length;
    return place;
}

static Byte *take(Size wanted) {
    if (wanted > MOST - WORD) {
        return 0;
    }
    Size length;
    unsigned list = list_of(wanted, &length);
    Free *first = lists[list];
    if (!first) {
        return new_block(length);
    }
    lists[list] = first->next;
    return (Byte *)first;
}

static void give_back(Byte *place) {
    Size length = *word_of(place), same;
    if (place - WORD + length == at) {
        at = place - WORD;
        return;
    }
    Free *first = (Free *)place;
    unsigned list = list_of(length - WORD, &same);
    first->next = lists[list];
    lists[list] = first;
}

// Whether the block holds `wanted` bytes, once it has grown where it stands.
static int holds(Byte *place, Size wanted) {
    Size length = *word_of(place), longer;
    if (wanted <= length - WORD) {
        return 1;
    }
    if (wanted > MOST - WORD || place - WORD + length != at) {
        return 0;
    }
    list_of(wanted, &longer);
    if (!reaches(place - WORD, longer)) {
        return 0;
    }
    *word_of(place) = longer;
    at = place - WORD + longer;
    return 1;
}

static Tried tried(Byte *place) {
    return (Tried){place != 0, place ? place : &nowhere};
}

// `align` divides 16.
Tried rattle_alloc(Size wanted, Size align) {
    (void)align;
    return tried(take(wanted));
}

// Where it fails, the block is as it was.
Tried rattle_realloc(Byte *place, Size kept, Size wanted, Size align) {
    (void)align;
    if (holds(place, wanted)) {
        return tried(place);
    }
    Byte *other = take(wanted);
    if (other) {
        __builtin_memcpy(other, place, kept < wanted ? kept : wanted);
        give_back(place);
    }
    return tried(other);
}

void rattle_dealloc(Byte *place) {
    give_back(place);
}

// Room for the page, or 0. It is 16-aligned, and what stands in it is not said.
EXPORTED Byte *room(Size wanted) {
    return take(wanted);
}
