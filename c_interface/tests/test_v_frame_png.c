/*
 * Each status of each call, and pictures of random layouts. With a name it writes there what it has written, for
 * tools/written_pictures.py: six numbers, the samples row after row, the file.
 *
 * With -DREFUSING and malloc, calloc and realloc wrapped also each request for memory refused in turn: then the status says so, and
 * buffer and count are as they were.
 */
#include "v_frame_png.h"

#include <stdio.h>
#include <stdlib.h>
#include <string.h>

static uint64_t state = 2026;
static unsigned long checks;

static uint32_t next_random(void) {
    state = state * 6364136223846793005u + 1442695040888963407u;
    return (uint32_t)(state >> 33);
}

static size_t below(size_t n) {
    return next_random() % n;
}

static void check(int holds, const char *what, int line) {
    checks++;
    if (!holds) {
        fprintf(stderr, "%s:%d: %s\n", __FILE__, line, what);
        exit(1);
    }
}

#define CHECK(condition) check((condition), #condition, __LINE__)

static void *block_of(size_t size) {
    void *block = malloc(size + (size == 0));
    CHECK(block != NULL);
    return block;
}

/* Samples of one byte or two, and a buffer, in blocks of their own, so that what goes past them is found. */
typedef struct given {
    v_frame_png_picture picture;
    size_t entry, length, size, needed;
    uint8_t *samples, *buffer;
} given;

static uint32_t written(given *it) {
    if (it->entry == 1) {
        return v_frame_png_write_u8(&it->picture, it->samples, it->length, it->buffer, it->size, &it->needed);
    }
    return v_frame_png_write_u16(&it->picture, (const uint16_t *)(const void *)it->samples, it->length, it->buffer, it->size, &it->needed);
}

static size_t samples_of_a_row(const given *it) {
    return it->picture.width * (it->picture.color == V_FRAME_PNG_RGB ? 3 : 1);
}

static given random_picture(void) {
    given it = {{1 + below(40), 1 + below(20), 0, (uint32_t)below(2), (uint32_t)below(2)}, 1 + below(2), 0, 0, 99, NULL, NULL};
    if (below(20) == 0) {
        it.picture.width = 1 + below(3000); /* Rows of more than a block. */
        it.picture.height = 1 + below(60);
    }
    it.picture.stride = samples_of_a_row(&it) + below(5);
    it.length = it.picture.stride * (it.picture.height - 1) + samples_of_a_row(&it) + below(2) * below(9);
    it.samples = block_of(it.length * it.entry);
    uint32_t kind = next_random() % 4;
    for (size_t i = 0; i < it.length * it.entry; i++) {
        it.samples[i] = (uint8_t)(kind == 0 ? 7 : kind == 1 ? i / 16 : kind == 2 ? next_random() % 3 : next_random());
    }
    return it;
}

/* The call answers this, and changes neither the buffer nor the count. */
static void refuses(given *it, uint32_t status) {
    memset(it->buffer, 9, it->size);
    it->needed = 99;
    CHECK(written(it) == status && it->needed == 99);
    for (size_t i = 0; i < it->size; i++) {
        CHECK(it->buffer[i] == 9);
    }
}

static void refused(given it) {
    const v_frame_png_picture right = it.picture;
    const size_t length = it.length, row = samples_of_a_row(&it);
    it.size = 64;
    it.buffer = block_of(it.size);
    for (uint32_t k = 0; k < 3; k++) {
        static const uint32_t more[3] = {2, 256, 65536};
        it.picture.color = right.color + more[k];
        refuses(&it, V_FRAME_PNG_NUMBER);
        it.picture = right;
        it.picture.compression = right.compression + more[k];
        refuses(&it, V_FRAME_PNG_NUMBER);
        it.picture = right;
    }
    static const size_t sizes[4] = {0, (size_t)1 << 31, (size_t)1 << 33, SIZE_MAX};
    for (size_t k = 0; k < 4; k++) {
        it.picture.width = sizes[k];
        refuses(&it, V_FRAME_PNG_SIZE);
        it.picture = right;
        it.picture.height = sizes[k];
        refuses(&it, V_FRAME_PNG_SIZE);
        it.picture = right;
    }
    it.picture.stride = row - 1;
    refuses(&it, V_FRAME_PNG_ROWS);
    it.picture.stride = SIZE_MAX;
    if (right.height > 1) {
        refuses(&it, V_FRAME_PNG_ROWS);
    }
    it.picture = right;
    it.length = right.stride * (right.height - 1) + row - 1;
    refuses(&it, V_FRAME_PNG_ROWS);
    it.picture.height = (size_t)1 << 30;
    refuses(&it, V_FRAME_PNG_ROWS);
    it.picture = right;
    it.length = length;
    /* What is wrong first is told. */
    it.picture.color = 2;
    it.picture.width = 0;
    refuses(&it, V_FRAME_PNG_NUMBER);
    it.picture.color = right.color;
    it.picture.stride = 0;
    refuses(&it, V_FRAME_PNG_SIZE);
    free(it.buffer);
}

/* Finds out how many bytes the file has, and writes it into a buffer of just these, and into a longer one. */
static void write_picture(given *it) {
    it->buffer = block_of(0);
    CHECK(written(it) == V_FRAME_PNG_SHORT_BUFFER && it->needed > 60);
    free(it->buffer);
    const size_t needed = it->needed;
    it->size = needed - 1;
    it->buffer = block_of(it->size);
    memset(it->buffer, 9, it->size);
    it->needed = 99;
    CHECK(written(it) == V_FRAME_PNG_SHORT_BUFFER && it->needed == needed);
    for (size_t i = 0; i < it->size; i++) {
        CHECK(it->buffer[i] == 9);
    }
    free(it->buffer);
    it->size = needed + below(2) * below(100);
    it->buffer = block_of(it->size);
    memset(it->buffer, 9, it->size);
    it->needed = 99;
    CHECK(written(it) == V_FRAME_PNG_OK && it->needed == needed);
    for (size_t i = needed; i < it->size; i++) {
        CHECK(it->buffer[i] == 9);
    }
}

static void keep(const given *it, FILE *out) {
    const uint32_t numbers[6] = {(uint32_t)it->picture.width, (uint32_t)it->picture.height,  it->picture.color,
                                 (uint32_t)it->entry,         it->picture.compression, (uint32_t)it->needed};
    CHECK(fwrite(numbers, sizeof numbers, 1, out) == 1);
    for (size_t y = 0; y < it->picture.height; y++) {
        CHECK(fwrite(it->samples + y * it->picture.stride * it->entry, it->entry, samples_of_a_row(it), out) == samples_of_a_row(it));
    }
    CHECK(fwrite(it->buffer, 1, it->needed, out) == it->needed);
}

#ifdef REFUSING
void *__real_malloc(size_t size);
void *__wrap_malloc(size_t size);
void *__real_calloc(size_t count, size_t size);
void *__wrap_calloc(size_t count, size_t size);
void *__real_realloc(void *at, size_t size);
void *__wrap_realloc(void *at, size_t size);

static size_t granted = SIZE_MAX;

static int is_granted(void) {
    if (granted > 0) {
        granted--;
        return 1;
    }
    return 0;
}

void *__wrap_malloc(size_t size) {
    return is_granted() ? __real_malloc(size) : NULL;
}

void *__wrap_calloc(size_t count, size_t size) {
    return is_granted() ? __real_calloc(count, size) : NULL;
}

void *__wrap_realloc(void *at, size_t size) {
    return is_granted() ? __real_realloc(at, size) : NULL;
}

static void refuse_each(void) {
    static uint16_t samples[300 * 300];
    static uint8_t buffer[400000];
    size_t all = 0;
    for (uint32_t k = 0; k < 4; k++) {
        given it = {{300, 300, 300, V_FRAME_PNG_GRAY, k % 2}, 1 + k / 2, 300 * 300, sizeof buffer, 99, (uint8_t *)samples, buffer};
        uint32_t status = V_FRAME_PNG_OUT_OF_MEMORY;
        for (size_t refused = 0; status != V_FRAME_PNG_OK; refused++, all++) {
            memset(buffer, 9, sizeof buffer);
            it.needed = 99;
            granted = refused;
            status = written(&it);
            granted = SIZE_MAX;
            CHECK(status == V_FRAME_PNG_OK || (status == V_FRAME_PNG_OUT_OF_MEMORY && it.needed == 99 && buffer[0] == 9));
        }
    }
    CHECK(all > 8);
    printf("%zu requests for memory refused in turn\n", all - 4);
}
#else
static void refuse_each(void) {}
#endif

int main(int count, char **words) {
    FILE *out = count > 1 ? fopen(words[1], "wb") : NULL;
    CHECK(count == 1 || out != NULL);
    CHECK(v_frame_png_version() == 4 * 256);
    refuse_each();
    for (int round = 0; round < 600; round++) {
        given it = random_picture();
        refused(it);
        write_picture(&it);
        if (out != NULL) {
            keep(&it, out);
        }
        free(it.samples);
        free(it.buffer);
    }
    CHECK(out == NULL || fclose(out) == 0);
    printf("%lu checks\n", checks);
    return 0;
}
