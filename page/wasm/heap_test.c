// Tries the heap by itself, natively: heap_test CALLS SEED. It says `ok` where nothing is wrong, and else what is.
//
// Each block that the heap hands out is filled to its last byte with numbers that only it has, and is looked through before
// it is given back: two blocks that share a byte, or a block that loses one when it moves, are found so. The memory is a
// reserved range of which only what the heap has asked for may be touched.
#define _DEFAULT_SOURCE
#include <stdint.h>
#include <stdio.h>
#include <stdlib.h>
#include <string.h>
#include <sys/mman.h>

typedef struct {
    unsigned long long ok;
    unsigned char *place;
} Tried;

Tried rattle_alloc(unsigned long long wanted, unsigned long long align);
Tried rattle_realloc(unsigned char *place, unsigned long long kept, unsigned long long wanted, unsigned long long align);
void rattle_dealloc(unsigned char *place);
unsigned char *room(unsigned long long wanted);

enum { BLOCKS = 4000 };
static const size_t MOST = (size_t)768 << 20, PAGE = 65536;
static unsigned char *begin;
static size_t there, allowed = (size_t)768 << 20;

// ---- the memory that the heap grows

unsigned char *memory_begin(void) {
    return begin;
}

unsigned char *memory_end(void) {
    return begin + there;
}

int memory_grows(unsigned long long bytes) {
    size_t whole = (bytes + PAGE - 1) / PAGE * PAGE;
    if (bytes > allowed || whole > allowed - there) {
        return 0;
    }
    if (mprotect(begin + there, whole, PROT_READ | PROT_WRITE) != 0) {
        return 0;
    }
    there += whole;
    return 1;
}

// ---- random numbers and the blocks that are held

static uint64_t state;

static uint64_t draw(uint64_t below) {
    state ^= state << 13;
    state ^= state >> 7;
    state ^= state << 17;
    return state % below;
}

typedef struct {
    unsigned char *place;
    size_t size;
    uint64_t seed;
} Block;

static Block blocks[BLOCKS];
static size_t held, held_bytes, most_held;
static uint64_t calls;

static void fail(const char *what) {
    fprintf(stderr, "heap_test: after %llu calls: %s\n", (unsigned long long)calls, what);
    exit(1);
}

static void check(int holds, const char *what) {
    if (!holds) {
        fail(what);
    }
}

static unsigned char byte_of(uint64_t seed, size_t i) {
    return (seed + i * 0x9E3779B97F4A7C15ULL) >> 56;
}

static void fill(Block *it, size_t from) {
    for (size_t i = from; i < it->size; i++) {
        it->place[i] = byte_of(it->seed, i);
    }
}

static void look_through(const Block *it, size_t to) {
    for (size_t i = 0; i < to; i++) {
        check(it->place[i] == byte_of(it->seed, i), "a block has lost what stood in it");
    }
}

static void check_place(unsigned char *place, size_t size) {
    check((uintptr_t)place % 16 == 0, "a block does not begin at a multiple of 16");
    check(place >= begin && size <= there && (size_t)(place - begin) <= there - size, "a block lies outside of the memory");
}

// Mostly small, at times large, as a program's blocks are.
static size_t drawn_size(void) {
    switch (draw(16)) {
        case 0: return draw(4);
        case 1: return draw(10) == 0 ? draw(20000) : draw(1000);
        case 2: return draw(400) == 0 ? draw(3000000) : draw(2000);
        default: return draw(300);
    }
}

static void count(size_t gone, size_t come) {
    held_bytes = held_bytes - gone + come;
    most_held = held_bytes > most_held ? held_bytes : most_held;
}

static void random_call(void) {
    size_t which = held == 0 ? 0 : draw(held);
    uint64_t kind = draw(8);
    if (held == 0 || (kind < 3 && held < BLOCKS)) {
        Block it = {0, drawn_size(), draw(UINT64_MAX)};
        Tried got = kind == 0 ? (Tried){1, room(it.size)} : rattle_alloc(it.size, 1 << draw(5));
        check(got.ok == 1 && got.place, "no memory where there is some");
        it.place = got.place;
        check_place(it.place, it.size);
        fill(&it, 0);
        blocks[held++] = it;
        count(0, it.size);
    } else if (kind < 5) {
        Block *it = &blocks[which];
        size_t old = it->size, size = draw(3) == 0 ? old + old / 2 + draw(20) : drawn_size();
        size_t kept = old < size ? old : size;
        Tried got = rattle_realloc(it->place, kept, size, 1 << draw(5));
        check(got.ok == 1 && got.place, "no memory where there is some");
        it->place = got.place;
        it->size = size;
        check_place(it->place, size);
        look_through(it, kept);
        fill(it, kept);
        count(old, size);
    } else {
        look_through(&blocks[which], blocks[which].size);
        rattle_dealloc(blocks[which].place);
        count(blocks[which].size, 0);
        blocks[which] = blocks[--held];
    }
}

static void give_all_back(void) {
    while (held > 0) {
        held--;
        look_through(&blocks[held], blocks[held].size);
        rattle_dealloc(blocks[held].place);
    }
    held_bytes = 0;
}

// ---- what else is promised

// A block that grows at the end of the memory stays where it is, and one that is given back there leaves its room.
static void try_the_end(void) {
    unsigned char *first = room(5000000), *other = room(100);
    check(first && other && other > first, "new blocks do not come from the end");
    size_t size = 100;
    for (; size < 20000000; size *= 2) {
        Tried got = rattle_realloc(other, size, size * 2, 8);
        check(got.ok == 1 && got.place == other, "the last block moved when it grew");
    }
    rattle_dealloc(other);
    size_t before = there;
    check(room(size) == other && there == before, "the last block's room was not left");
    rattle_dealloc(other);
    rattle_dealloc(first);
}

// What was given back is handed out again, so that the memory does not grow.
static void try_again(void) {
    size_t before = 0;
    for (int round = 0; round < 50; round++) {
        for (size_t i = 0; i < 1000; i++) {
            blocks[i].place = room(i * 7);
            check(blocks[i].place != 0, "no memory where there is some");
        }
        for (size_t i = 0; i < 1000; i++) {
            rattle_dealloc(blocks[i].place);
        }
        check(round == 0 || there == before, "the memory grew though nothing was kept");
        before = there;
    }
}

// A block and its word take at most a quarter more than they have to, and 16 bytes.
static void try_lengths(void) {
    for (size_t size = 0; size < 300000; size += 1 + size / 40) {
        unsigned char *one = room(size), *two = room(size);
        check(one && two, "no memory where there is some");
        size_t length = two > one ? two - one : one - two;
        check(length <= (size + 8) + (size + 8) / 4 + 16, "a block is too long");
        check(length >= size + 8, "a block is too short");
    }
}

// With no memory left the answer says so, and the block that should have grown is as it was.
static void try_without_memory(void) {
    Block it = {room(1000), 1000, 7};
    fill(&it, 0);
    unsigned char *behind = room(1000);
    check(it.place && behind, "no memory where there is some");
    allowed = there;
    static const unsigned long long sizes[] = {1ULL << 30, (1ULL << 32) - 8, 1ULL << 32, 1ULL << 40, ~0ULL >> 1};
    for (size_t i = 0; i < sizeof sizes / sizeof sizes[0]; i++) {
        Tried got = rattle_alloc(sizes[i], 16);
        check(got.ok == 0 && got.place, "memory where there is none");
        got = rattle_realloc(it.place, 1000, sizes[i], 16);
        check(got.ok == 0 && got.place, "memory where there is none");
        got = rattle_realloc(behind, 1000, sizes[i], 16);
        check(got.ok == 0 && got.place, "memory where there is none");
        check(room(sizes[i]) == 0, "memory where there is none");
        look_through(&it, 1000);
    }
    // Down to the last bytes.
    size_t got = 0;
    while (room(4000)) {
        got++;
    }
    check(got > 0, "memory that is there is not given");
    look_through(&it, 1000);
    rattle_dealloc(it.place);
    check(room(1000) == it.place, "a block that was given back is not handed out");
    allowed = MOST;
    check(room(1 << 20) != 0, "no memory where there is some again");
}

int main(int argc, char **argv) {
    if (argc != 3) {
        fprintf(stderr, "usage: heap_test CALLS SEED\n");
        return 2;
    }
    uint64_t wanted = strtoull(argv[1], 0, 10);
    state = strtoull(argv[2], 0, 10) * 2654435769u + 1;
    // One byte beyond a page's start, as data of a program may end anywhere.
    unsigned char *range = mmap(0, MOST + PAGE, PROT_NONE, MAP_PRIVATE | MAP_ANONYMOUS | MAP_NORESERVE, -1, 0);
    check(range != MAP_FAILED && mprotect(range, PAGE, PROT_READ | PROT_WRITE) == 0, "no range is to be had");
    begin = range + 1 + draw(40);
    there = range + PAGE - begin;

    try_lengths();
    try_the_end();
    try_again();
    for (; calls < wanted; calls++) {
        random_call();
    }
    for (size_t i = 0; i < held; i++) {
        look_through(&blocks[i], blocks[i].size);
    }
    size_t used = there;
    give_all_back();
    try_without_memory();
    printf("ok: %llu calls, at most %zu bytes held at once, in %zu bytes of memory\n", (unsigned long long)calls, most_held, used);
    return 0;
}
