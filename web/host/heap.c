// The heap of the program in a page: blocks of sizes that are powers of two, in the memory of the
// module, which grows where no free block is left and is never given back. A run has an instance of
// its own, and its memory goes with it.
#include "types.h"

// Stands before each block: the power of two that its whole place has, and where this place begins.
typedef struct {
    word power;
    byte *place;
} header;

// What the kit's allocator answers: whether there was memory, and the block.
typedef struct {
    word is_there;
    void *block;
} tried;

enum { LEAST_POWER = 5, MOST_POWER = 31, LEAST_GROWTH = 64, LOG_OF_PAGE = 16 };

extern byte __heap_base;
static byte *next, *end;
static byte *free_places[MOST_POWER + 1];

static word aligned(word address, word alignment) {
    return (address + alignment - 1) & -alignment;
}

// The memory that is not given out yet has so many bytes at least, or there is no more.
static int has_room(word bytes) {
    if (!next) {
        next = (byte *)aligned((word)&__heap_base, sizeof(header));
        end = (byte *)(__builtin_wasm_memory_size(0) << LOG_OF_PAGE);
    }
    word left = end - next;
    if (left >= bytes) {
        return 1;
    }
    word pages = aligned(bytes - left, 1 << LOG_OF_PAGE) >> LOG_OF_PAGE;
    if (pages < LEAST_GROWTH) {
        pages = LEAST_GROWTH;
    }
    // In a memory of 32 bits a growth that fails gives the low half of -1 alone.
    if ((half)__builtin_wasm_memory_grow(0, pages) == (half)-1) {
        return 0;
    }
    end += pages << LOG_OF_PAGE;
    return 1;
}

// A block of so many bytes, or 0.
static void *block_of(word bytes, word alignment) {
    if (alignment < sizeof(header)) {
        alignment = sizeof(header);
    }
    if (bytes > (word)1 << MOST_POWER || alignment > (word)1 << MOST_POWER) {
        return 0;
    }
    word power = LEAST_POWER, whole = bytes + alignment + sizeof(header);
    while ((word)1 << power < whole) {
        power++;
    }
    if (power > MOST_POWER) {
        return 0;
    }
    byte *place = free_places[power];
    if (place) {
        free_places[power] = *(byte **)place;
    } else if (has_room((word)1 << power)) {
        place = next;
        next += (word)1 << power;
    } else {
        return 0;
    }
    byte *block = (byte *)aligned((word)place + sizeof(header), alignment);
    ((header *)block)[-1] = (header){power, place};
    return block;
}

tried rattle_alloc(word bytes, word alignment) {
    void *block = block_of(bytes, alignment);
    return (tried){block != 0, block};
}

void rattle_dealloc(void *block) {
    header found = ((header *)block)[-1];
    *(byte **)found.place = free_places[found.power];
    free_places[found.power] = found.place;
}

// The block, or another one, has so many bytes and the first `kept` ones of before; where there is
// no memory for it, the block stays as it was.
tried rattle_realloc(void *block, word kept, word bytes, word alignment) {
    header found = ((header *)block)[-1];
    if ((byte *)block + bytes <= found.place + ((word)1 << found.power)) {
        return (tried){1, block};
    }
    void *larger = block_of(bytes, alignment);
    if (!larger) {
        return (tried){0, block};
    }
    __builtin_memcpy(larger, block, kept < bytes ? kept : bytes);
    rattle_dealloc(block);
    return (tried){1, larger};
}

void *malloc(word bytes) {
    return block_of(bytes, sizeof(header));
}

void free(void *block) {
    if (block) {
        rattle_dealloc(block);
    }
}
