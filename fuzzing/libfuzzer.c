// libFuzzer's side of ./fuzz: each row of bytes is put where nothing can be read behind it, and given to rust/fuzz.
#include <stddef.h>
#include <stdint.h>
#include <stdlib.h>
#include <string.h>
#include <sys/mman.h>
#include <unistd.h>

void fuzz_compare(const uint8_t *start, size_t length);
size_t fuzz_fresh(uint8_t *start, size_t room, uint32_t seed);
size_t LLVMFuzzerMutate(uint8_t *data, size_t size, size_t most);

// More than ./fuzz ever asks for.
enum { ROOM = 1 << 20 };

// One in so many rows is made of a new head.
enum { FRESH = 16 };

// The end of the room: the first byte that can't be read.
static uint8_t *edge;

int LLVMFuzzerInitialize(int *argc, char ***argv) {
    (void)argc, (void)argv;
    size_t page = (size_t)sysconf(_SC_PAGESIZE);
    uint8_t *room = mmap(NULL, ROOM + page, PROT_READ | PROT_WRITE, MAP_PRIVATE | MAP_ANONYMOUS, -1, 0);
    if (room == MAP_FAILED || mprotect(room + ROOM, page, PROT_NONE) != 0) abort();
    edge = room + ROOM;
    return 0;
}

int LLVMFuzzerTestOneInput(const uint8_t *data, size_t size) {
    if (size > ROOM) return 0;
    uint8_t *start = edge - size;
    if (size > 0) memcpy(start, data, size);
    fuzz_compare(start, size);
    return 0;
}

// libFuzzer's own mutations, at times of a new head instead of an old row.
size_t LLVMFuzzerCustomMutator(uint8_t *data, size_t size, size_t most, unsigned seed) {
    size_t made = seed % FRESH == 0 ? fuzz_fresh(data, most, seed) : 0;
    return LLVMFuzzerMutate(data, made > 0 ? made : size, most);
}
