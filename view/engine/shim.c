// What the compiled library calls by name and WebAssembly does not have: a heap, arithmetic of 128 bits, and what the processor can do.
// Written for wasm64 and linked with the library by build_engine.sh. It is tested and not proved. Nothing is imported from the page.

typedef unsigned long long u64;
typedef unsigned __int128 u128;
typedef __int128 i128;
typedef __SIZE_TYPE__ usize;

// What the processor can do: all that the library may ask about. It was compiled for an x86-64 that has it; here
// wasm64 has the same by other instructions. (glibc answers with two lists of four words for a leaf of CPUID.)
const unsigned *__x86_get_cpuid_feature_leaf(unsigned leaf) {
    static const unsigned all[8] = {~0u, ~0u, ~0u, ~0u, ~0u, ~0u, ~0u, ~0u};
    (void)leaf;
    return all;
}

// The heap
//
// Each block has its class in the 16 bytes before it. A block that is given back is the first of its class's list,
// and is taken from there again; memory never goes back to the host.
// The classes of a power of two are four: 16, 20, 24, 28, 32, 40, .. times 1, so at most a fourth of a block is unused.

enum { HEAD = 16, PAGE = 65536, CLASSES = 256 };

// What an allocating call answers: whether memory was found, and where. Where none was, the place is any that is aligned.
struct found { u64 is_found; void *place; };

extern unsigned char __heap_base;
static usize top, end;
static void *given_back[CLASSES];

static void *const NOWHERE = (void *)HEAD;

static usize size_of_class(u64 class) { return (usize)(4 + class % 4) << (class / 4 + 2); }

static u64 class_of(usize size) {
    if (size <= 16) return 0;
    int high = 63 - __builtin_clzll(size - 1);           // 2^high <= size - 1 < 2^(high + 1)
    u64 fourths = (size - 1) >> (high - 2);               // from 4 to 7
    return (u64)(high - 4) * 4 + (fourths - 4) + 1;
}

static usize aligned(usize place) { return (place + HEAD - 1) & ~(usize)(HEAD - 1); }

// Asks the host for memory up to the place, an eighth more than there is at once, so that it is asked seldom.
static int reaches(usize place) {
    if (place <= end) return 1;
    usize wanted = (place - end + PAGE - 1) / PAGE, eighth = end / PAGE / 8;
    usize most = wanted > eighth ? wanted : eighth;
    if (__builtin_wasm_memory_grow(0, most) == (usize)-1) {
        if (most == wanted || __builtin_wasm_memory_grow(0, wanted) == (usize)-1) return 0;
        most = wanted;
    }
    end += most * PAGE;
    return 1;
}

static struct found take(usize size) {
    struct found none = {0, NOWHERE};
    if (size >> 40) return none;
    u64 class = class_of(size);
    void *block = given_back[class];
    if (block) {
        given_back[class] = *(void **)block;
        return (struct found){1, block};
    }
    if (!end) {
        top = aligned((usize)&__heap_base);
        end = __builtin_wasm_memory_size(0) * PAGE;
    }
    usize next = aligned(top + HEAD + size_of_class(class));
    if (!reaches(next)) return none;
    *(u64 *)top = class;
    block = (void *)(top + HEAD);
    top = next;
    return (struct found){1, block};
}

static u64 *class_before(void *block) { return (u64 *)((usize)block - HEAD); }

struct found rattle_alloc(usize size, usize alignment) { return take(size ? size : alignment); }

void rattle_dealloc(void *block) {
    u64 class = *class_before(block);
    *(void **)block = given_back[class];
    given_back[class] = block;
}

struct found rattle_realloc(void *block, usize was, usize size, usize alignment) {
    (void)was;
    usize wanted = size ? size : alignment, had = size_of_class(*class_before(block));
    if (wanted <= had) return (struct found){1, block};
    struct found larger = take(wanted);
    if (larger.is_found) {
        __builtin_memcpy(larger.place, block, had);
        rattle_dealloc(block);
    }
    return larger;
}

// Rooms for what the page hands to the library and reads from it: their place, 0 where memory is wanting.

__attribute__((export_name("take_room"))) void *take_room(usize size) {
    struct found it = take(size);
    return it.is_found ? it.place : (void *)0;
}

__attribute__((export_name("give_room"))) void give_room(void *room) {
    if (room) rattle_dealloc(room);
}

// Arithmetic of 128 bits, as the compiler calls it: the low half of each number first.

struct halves { u64 low, high; };

static struct halves halves_of(u128 number) { return (struct halves){(u64)number, (u64)(number >> 64)}; }

static u128 whole(u64 low, u64 high) { return (u128)high << 64 | low; }

struct halves __ashlti3(u64 low, u64 high, int by) {
    if (by >= 64) return (struct halves){0, low << (by - 64)};
    return by ? (struct halves){low << by, high << by | low >> (64 - by)} : (struct halves){low, high};
}

struct halves __lshrti3(u64 low, u64 high, int by) {
    if (by >= 64) return (struct halves){high >> (by - 64), 0};
    return by ? (struct halves){low >> by | high << (64 - by), high >> by} : (struct halves){low, high};
}

struct halves __ashrti3(u64 low, u64 high, int by) {
    long long top_half = (long long)high;
    if (by >= 64) return (struct halves){(u64)(top_half >> (by - 64)), (u64)(top_half >> 63)};
    return by ? (struct halves){low >> by | high << (64 - by), (u64)(top_half >> by)} : (struct halves){low, high};
}

struct halves __multi3(u64 a_low, u64 a_high, u64 b_low, u64 b_high) {
    u64 a0 = a_low & 0xffffffff, a1 = a_low >> 32, b0 = b_low & 0xffffffff, b1 = b_low >> 32;
    u64 low = a0 * b0, cross = a1 * b0 + (low >> 32), middle = a0 * b1 + (cross & 0xffffffff);
    u64 carried = a1 * b1 + (cross >> 32) + (middle >> 32);
    return (struct halves){middle << 32 | (low & 0xffffffff), carried + a_low * b_high + a_high * b_low};
}

// Long division, a bit at a time where the divisor or the quotient has more than 64 bits.
static u128 divided(u128 number, u128 by, u128 *rest) {
    u64 high = (u64)(number >> 64);
    if (!high && !(u64)(by >> 64)) {
        *rest = (u64)number % (u64)by;
        return (u64)number / (u64)by;
    }
    u128 quotient = 0, left = 0;
    for (int bit = 127; bit >= 0; bit--) {
        int is_over = (int)((u64)(left >> 64) >> 63);
        left = left << 1 | (bit >= 64 ? high >> (bit - 64) & 1 : (u64)number >> bit & 1);
        quotient <<= 1;
        if (is_over || left >= by) {
            left -= by;
            quotient |= 1;
        }
    }
    *rest = left;
    return quotient;
}

struct halves __udivti3(u64 a_low, u64 a_high, u64 b_low, u64 b_high) {
    u128 rest;
    return halves_of(divided(whole(a_low, a_high), whole(b_low, b_high), &rest));
}

struct halves __umodti3(u64 a_low, u64 a_high, u64 b_low, u64 b_high) {
    u128 rest;
    divided(whole(a_low, a_high), whole(b_low, b_high), &rest);
    return halves_of(rest);
}

static u128 magnitude(u64 low, u64 high) {
    u128 number = whole(low, high);
    return high >> 63 ? -number : number;
}

struct halves __divti3(u64 a_low, u64 a_high, u64 b_low, u64 b_high) {
    u128 rest, quotient = divided(magnitude(a_low, a_high), magnitude(b_low, b_high), &rest);
    return halves_of((a_high ^ b_high) >> 63 ? -quotient : quotient);
}

struct halves __modti3(u64 a_low, u64 a_high, u64 b_low, u64 b_high) {
    u128 rest;
    divided(magnitude(a_low, a_high), magnitude(b_low, b_high), &rest);
    return halves_of(a_high >> 63 ? -rest : rest);
}
