// What compiled code calls by name where no C library is: shifts and products of 128 bits, and the moving, filling and
// comparing of bytes. The instructions of WebAssembly that move and fill do most of it.

typedef unsigned long long Word;
typedef unsigned __int128 Pair;
typedef __int128 Signed;
typedef unsigned char Byte;

static Pair pair(Word high, Word low) {
    return (Pair)high << 64 | low;
}

// The two halves are taken apart by shifts of a whole word, which need no call.
static Word low_of(Pair it) {
    return it;
}

static Word high_of(Pair it) {
    return it >> 64;
}

Pair __ashlti3(Pair it, int by) {
    Word high = high_of(it), low = low_of(it);
    if (by == 0) {
        return it;
    }
    return by < 64 ? pair(high << by | low >> (64 - by), low << by) : pair(low << (by - 64), 0);
}

Pair __lshrti3(Pair it, int by) {
    Word high = high_of(it), low = low_of(it);
    if (by == 0) {
        return it;
    }
    return by < 64 ? pair(high >> by, low >> by | high << (64 - by)) : pair(0, high >> (by - 64));
}

Signed __ashrti3(Signed it, int by) {
    long long high = it >> 64;
    Word low = it;
    if (by == 0) {
        return it;
    }
    return by < 64 ? pair(high >> by, low >> by | (Word)high << (64 - by)) : pair(high >> 63, high >> (by - 64));
}

// The product of two words, by their halves of 32 bits.
static Pair product(Word a, Word b) {
    Word mask = 0xffffffff, al = a & mask, ah = a >> 32, bl = b & mask, bh = b >> 32;
    Word low = al * bl, one = ah * bl + (low >> 32), two = al * bh + (one & mask);
    return pair(ah * bh + (one >> 32) + (two >> 32), two << 32 | (low & mask));
}

Signed __multi3(Signed a, Signed b) {
    Word al = a, ah = a >> 64, bl = b, bh = b >> 64;
    Pair low = product(al, bl);
    return pair(high_of(low) + al * bh + ah * bl, low_of(low));
}

void *memcpy(void *to, const void *from, Word n) {
    __builtin_memcpy(to, from, n);
    return to;
}

void *memmove(void *to, const void *from, Word n) {
    __builtin_memmove(to, from, n);
    return to;
}

void *memset(void *to, int byte, Word n) {
    __builtin_memset(to, byte, n);
    return to;
}

int memcmp(const void *a, const void *b, Word n) {
    const Byte *x = a, *y = b;
    for (Word i = 0; i < n; i++) {
        if (x[i] != y[i]) {
            return x[i] < y[i] ? -1 : 1;
        }
    }
    return 0;
}

int bcmp(const void *a, const void *b, Word n) {
    return memcmp(a, b, n);
}
