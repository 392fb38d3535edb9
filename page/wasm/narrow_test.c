// A module of every kind of access to memory, which narrow_check.sh makes and narrow_check.mjs calls.
typedef unsigned long long u64;
typedef unsigned int u32;

unsigned char data[64] = "what stands at a constant place";

static u64 twice(u64 n) {
    return n * 2;
}

static u64 next(u64 n) {
    return n + 1;
}

static u64 (*const steps[])(u64) = {twice, next};

// Calls by a table.
u64 stepped(u64 which, u64 n) {
    return steps[which](n);
}

u64 data_place(void) {
    return (u64)data;
}

// Each width, read and written, and with an offset.
#define ACCESS(name, type)                         \
    void put_##name(type *place, type value) {     \
        place[0] = value;                          \
        place[5] = value + 1;                      \
    }                                              \
    type get_##name(type *place, u64 n) {          \
        return place[n] + place[n + 5];            \
    }
ACCESS(i8, signed char)
ACCESS(u8, unsigned char)
ACCESS(i16, short)
ACCESS(u16, unsigned short)
ACCESS(i32, int)
ACCESS(u32, u32)
ACCESS(u64, u64)
ACCESS(f32, float)
ACCESS(f64, double)

u64 wide_from_small(signed char *a, unsigned short *b, int *c, u64 *to) {
    to[0] = *a;
    to[1] = *b;
    to[2] = *c;
    return to[0] + to[1] + to[2];
}

void narrow_to_small(u64 value, unsigned char *a, unsigned short *b, u32 *c) {
    *a = value;
    *b = value;
    *c = value;
}

void moved(unsigned char *to, const unsigned char *from, u64 n) {
    __builtin_memmove(to, from, n);
}

void filled(unsigned char *to, int byte, u64 n) {
    __builtin_memset(to, byte, n);
}

u64 pages(void) {
    return __builtin_wasm_memory_size(0);
}

u64 grown(u64 by) {
    return __builtin_wasm_memory_grow(0, by);
}

// Each call takes 1,000 bytes of the stack.
u64 deep(u64 n) {
    volatile unsigned char room[1000];
    room[n % 1000] = n;
    return n == 0 ? room[0] : deep(n - 1) + room[n % 1000];
}
