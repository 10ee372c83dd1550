/* The memory of libv_frame_y4m: the three calls that its code makes, over those of the C library. */
#include <stddef.h>
#include <stdint.h>
#include <stdlib.h>

/* Whether memory was given, and where. */
struct block {
    uint64_t given;
    void *at;
};

/* What malloc aligns to. The library's code asks for bytes and for words, never for more, and would be refused more. */
enum { ALIGNMENT = 16 };

static char nowhere;

static struct block answered(void *at) {
    struct block block = {at != NULL, at != NULL ? at : &nowhere};
    return block;
}

/* A request of no bytes asks for as many as its alignment, so that it is told apart from a refusal. */
struct block rattle_alloc(size_t size, size_t align) {
    return answered(align <= ALIGNMENT ? malloc(size != 0 ? size : align) : NULL);
}

struct block rattle_realloc(void *at, size_t old_size, size_t size, size_t align) {
    (void)old_size;
    return answered(align <= ALIGNMENT ? realloc(at, size != 0 ? size : align) : NULL);
}

void rattle_dealloc(void *at) {
    free(at);
}
