/*
 * Each status of each call, and a thousand layouts of each type, compared with plain loops. Built with all warnings as errors,
 * under the sanitizers of addresses and of undefined behaviour; buffers end where the last row may end, so that a read or a write
 * past it is seen.
 */
#include "v_frame.h"

#include <stddef.h>
#include <stdio.h>
#include <stdlib.h>
#include <string.h>

static uint64_t state = 2026;
static unsigned long checks;

static uint32_t next_random(void) {
    state = state * 6364136223846793005u + 1442695040888963407u;
    return (uint32_t)(state >> 33);
}

static size_t below(size_t n) {
    return next_random() % n;
}

static void check(int holds, const char *what, const char *file, int line) {
    checks++;
    if (!holds) {
        fprintf(stderr, "%s:%d: %s\n", file, line, what);
        exit(1);
    }
}

#define CHECK(condition) check((condition), #condition, __FILE__, __LINE__)

static uint64_t distance(uint32_t p, uint32_t q) {
    return p < q ? q - p : p - q;
}

#define SAMPLE uint8_t
#define NAME(call) v_frame_##call##_u8
#define TEST(name) name##_u8

#include "samples.inc"
#include "pictures.inc"
#include "conversions.inc"
#include "measures.inc"
#include "choices.inc"
#include "whole.inc"
#undef SAMPLE
#undef NAME
#undef TEST

#define SAMPLE uint16_t
#define NAME(call) v_frame_##call##_u16
#define TEST(name) name##_u16
#define OF_DEPTH

#include "samples.inc"
#include "pictures.inc"
#include "conversions.inc"
#include "measures.inc"
#include "choices.inc"
#include "whole.inc"

#include "boundary.inc"

/* A value of `from` bits in `to` bits, by the words of the header. */
static uint32_t at_depth(uint32_t value, uint32_t from, uint32_t to) {
    uint32_t largest = (1u << from) - 1, limit = (1u << to) - 1;
    if (from <= to) {
        return (value < largest ? value : largest) << (to - from);
    }
    uint32_t rounded = (value + (1u << (from - to - 1))) >> (from - to);
    return rounded < limit ? rounded : limit;
}

static void depths(void) {
    for (uint32_t round = 0; round < 2000; round++) {
        uint32_t from = 8 + (uint32_t)below(9), to = 8 + (uint32_t)below(9);
        size_t width = 1 + below(50), height = 1 + below(4);
        v_frame_rows rows = {width, height, width + below(9)}, source_rows = {width, height, width + below(9)};
        size_t length = v_frame_rows_length(&rows), source_length = v_frame_rows_length(&source_rows);
        uint16_t *words = filled_u16(&source_rows), *wide = filled_u16(&rows), *before = cloned_u16(wide, length);
        uint8_t *bytes = filled_u8(&source_rows), *narrow = filled_u8(&rows);
        CHECK(v_frame_convert_depth_u16_u16(&rows, wide, length, &source_rows, words, source_length, 7, to) == V_FRAME_NUMBER);
        CHECK(v_frame_convert_depth_u16_u16(&rows, wide, length, &source_rows, words, source_length, from, 17) == V_FRAME_NUMBER);
        CHECK(v_frame_convert_depth_u8_u16(&rows, wide, length, &source_rows, bytes, source_length, 9, to) == V_FRAME_NUMBER);
        CHECK(v_frame_convert_depth_u16_u8(&rows, narrow, length, &source_rows, words, source_length, from, 9) == V_FRAME_NUMBER);
        CHECK(v_frame_convert_depth_u16_u16(&rows, wide, length - 1, &source_rows, words, source_length, from, to) ==
              V_FRAME_FIRST_ROWS);
        CHECK(v_frame_convert_depth_u16_u16(&rows, wide, length, &source_rows, words, source_length - 1, from, to) ==
              V_FRAME_SECOND_ROWS);
        CHECK(memcmp(wide, before, 2 * length) == 0);
        CHECK(v_frame_convert_depth_u16_u16(&rows, wide, length, &source_rows, words, source_length, from, to) == V_FRAME_OK);
        check_rest_u16(&rows, wide, before, length);
        for (size_t i = 0; i < width * height; i++) {
            uint32_t value = words[source_rows.stride * (i / width) + i % width];
            CHECK(wide[rows.stride * (i / width) + i % width] == at_depth(value, from, to));
        }
        CHECK(v_frame_convert_depth_u8_u16(&rows, wide, length, &source_rows, bytes, source_length, 8, to) == V_FRAME_OK);
        CHECK(v_frame_convert_depth_u16_u8(&rows, narrow, length, &source_rows, words, source_length, from, 8) == V_FRAME_OK);
        for (size_t i = 0; i < width * height; i++) {
            size_t place = rows.stride * (i / width) + i % width, source_place = source_rows.stride * (i / width) + i % width;
            CHECK(wide[place] == at_depth(bytes[source_place], 8, to));
            CHECK(narrow[place] == at_depth(words[source_place], from, 8));
        }
        free(words);
        free(wide);
        free(before);
        free(bytes);
        free(narrow);
    }
}

/* A sample by the coefficients of BT.601 in limited range, in parts of 16384. */
static uint8_t sample_of(int64_t parts) {
    int64_t value = parts + 8192 < 0 ? 0 : (parts + 8192) / 16384;
    return (uint8_t)(value < 255 ? value : 255);
}

static void colors(void) {
    for (uint32_t round = 0; round < 1000; round++) {
        v_frame_colors choice = {V_FRAME_BT601, V_FRAME_LIMITED, round % 4};
        size_t bytes = choice.order < V_FRAME_RGBA ? 3 : 4, width = 1 + below(40), height = 1 + below(5);
        v_frame_rows y_rows = {width, height, width + below(4)}, u_rows = {width, height, width + below(4)};
        v_frame_rows v_rows = {width, height, width + below(4)}, rows = {bytes * width, height, bytes * width + below(4)};
        size_t yl = v_frame_rows_length(&y_rows), ul = v_frame_rows_length(&u_rows), vl = v_frame_rows_length(&v_rows);
        size_t length = v_frame_rows_length(&rows);
        uint8_t *y = filled_u8(&y_rows), *u = filled_u8(&u_rows), *v = filled_u8(&v_rows), *buffer = filled_u8(&rows);
        uint8_t *before = cloned_u8(buffer, length);
        v_frame_colors wrong[3] = {{3, 0, 0}, {0, 2, 0}, {0, 0, 4}};
        for (int i = 0; i < 3; i++) {
            CHECK(v_frame_yuv444_to_rgb_u8(&rows, buffer, length, &y_rows, y, yl, &u_rows, u, ul, &v_rows, v, vl, &wrong[i]) ==
                  V_FRAME_NUMBER);
        }
        size_t lengths[4] = {length, yl, ul, vl};
        uint32_t statuses[4] = {V_FRAME_FIRST_ROWS, V_FRAME_SECOND_ROWS, V_FRAME_THIRD_ROWS, V_FRAME_FOURTH_ROWS};
        for (int i = 0; i < 4; i++) {
            lengths[i]--;
            CHECK(v_frame_yuv444_to_rgb_u8(&rows, buffer, lengths[0], &y_rows, y, lengths[1], &u_rows, u, lengths[2], &v_rows, v,
                                           lengths[3], &choice) == statuses[i]);
            lengths[i]++;
        }
        v_frame_rows narrow = {width, height, rows.stride};
        CHECK(v_frame_yuv444_to_rgb_u8(&narrow, buffer, length, &y_rows, y, yl, &u_rows, u, ul, &v_rows, v, vl, &choice) ==
              V_FRAME_SIZES);
        CHECK(memcmp(buffer, before, length) == 0);
        CHECK(v_frame_yuv444_to_rgb_u8(&rows, buffer, length, &y_rows, y, yl, &u_rows, u, ul, &v_rows, v, vl, &choice) ==
              V_FRAME_OK);
        check_rest_u8(&rows, buffer, before, length);
        for (size_t i = 0; i < width * height; i++) {
            size_t row = i / width, x = i % width;
            int64_t luma = 19077 * ((int64_t)y[y_rows.stride * row + x] - 16);
            int64_t cb = (int64_t)u[u_rows.stride * row + x] - 128, cr = (int64_t)v[v_rows.stride * row + x] - 128;
            const uint8_t *pixel = buffer + rows.stride * row + bytes * x;
            int swapped = choice.order == V_FRAME_BGR || choice.order == V_FRAME_BGRA;
            CHECK(pixel[swapped ? 2 : 0] == sample_of(luma + 26149 * cr));
            CHECK(pixel[1] == sample_of(luma - 6419 * cb - 13320 * cr));
            CHECK(pixel[swapped ? 0 : 2] == sample_of(luma + 33050 * cb));
            CHECK(bytes == 3 || pixel[3] == 255);
        }
        free(y);
        free(u);
        free(v);
        free(buffer);
        free(before);
    }
}

/* Whether a sample is the whole number nearest to one by the standards' own fractions, give or take a hundredth. */
static int is_near(uint8_t found, double exact) {
    double within = exact < 0 ? 0 : exact > 255 ? 255 : exact;
    return found - within <= 0.51 && within - found <= 0.51;
}

static void check_samples(const uint8_t *pixel, const uint8_t samples[3], const v_frame_colors *choice) {
    static const double weights[3][2] = {{0.299, 0.114}, {0.2126, 0.0722}, {0.2627, 0.0593}};
    int swapped = choice->order == V_FRAME_BGR || choice->order == V_FRAME_BGRA, full = choice->range == V_FRAME_FULL;
    double red = pixel[swapped ? 2 : 0], green = pixel[1], blue = pixel[swapped ? 0 : 2];
    double of_red = weights[choice->standard][0], of_blue = weights[choice->standard][1];
    double luma = of_red * red + (1 - of_red - of_blue) * green + of_blue * blue;
    CHECK(is_near(samples[0], full ? luma : 16 + luma * 219 / 255));
    CHECK(is_near(samples[1], 128 + (blue - luma) / (2 - 2 * of_blue) * (full ? 1 : 224.0 / 255)));
    CHECK(is_near(samples[2], 128 + (red - luma) / (2 - 2 * of_red) * (full ? 1 : 224.0 / 255)));
}

static void samples_of_colors(void) {
    static const uint32_t statuses[4] = {V_FRAME_FIRST_ROWS, V_FRAME_SECOND_ROWS, V_FRAME_THIRD_ROWS, V_FRAME_FOURTH_ROWS};
    for (uint32_t round = 0; round < 1200; round++) {
        v_frame_colors choice = {round % 3, round / 3 % 2, round / 6 % 4}, wrong[3] = {{3, 0, 0}, {0, 2, 0}, {0, 0, 4}};
        size_t bytes = choice.order < V_FRAME_RGBA ? 3 : 4, width = 1 + below(40), height = 1 + below(5), lengths[4];
        v_frame_rows rows[4] = {{bytes * width, height, bytes * width + below(4)}};
        uint8_t *it[4], *before[4];
        for (int i = 0; i < 4; i++) {
            if (i > 0) {
                rows[i] = (v_frame_rows){width, height, width + below(4)};
            }
            lengths[i] = v_frame_rows_length(&rows[i]);
            it[i] = filled_u8(&rows[i]);
            before[i] = cloned_u8(it[i], lengths[i]);
        }
#define BACK(chosen)                                                                                                              \
    v_frame_rgb_to_yuv444_u8(&rows[0], it[0], lengths[0], &rows[1], it[1], lengths[1], &rows[2], it[2], lengths[2], &rows[3], it[3], \
                             lengths[3], chosen)
        for (int i = 0; i < 3; i++) {
            CHECK(BACK(&wrong[i]) == V_FRAME_NUMBER);
        }
        for (int i = 0; i < 4; i++) {
            lengths[i]--;
            CHECK(BACK(&choice) == statuses[i]);
            lengths[i]++;
            if (width > 1) {
                rows[i].width--;
                CHECK(BACK(&choice) == V_FRAME_SIZES);
                rows[i].width++;
            }
            if (height > 1) {
                rows[i].height--;
                CHECK(BACK(&choice) == V_FRAME_SIZES);
                rows[i].height++;
            }
        }
        for (int i = 0; i < 4; i++) {
            CHECK(memcmp(it[i], before[i], lengths[i]) == 0);
        }
        CHECK(BACK(&choice) == V_FRAME_OK);
        CHECK(memcmp(it[0], before[0], lengths[0]) == 0);
        for (int i = 1; i < 4; i++) {
            check_rest_u8(&rows[i], it[i], before[i], lengths[i]);
        }
        for (size_t i = 0; i < width * height; i++) {
            size_t x = i % width, y = i / width;
            uint8_t samples[3] = {at_u8(&rows[1], it[1], x, y), at_u8(&rows[2], it[2], x, y), at_u8(&rows[3], it[3], x, y)};
            check_samples(it[0] + rows[0].stride * y + bytes * x, samples, &choice);
        }
        for (int i = 0; i < 4; i++) {
            free(it[i]);
            free(before[i]);
        }
    }
}
#undef BACK

static void bytes_and_words(void) {
    for (int round = 0; round < 1000; round++) {
        size_t width = 1 + below(40), height = 1 + below(5);
        v_frame_rows words = {width, height, width + below(4)};
        v_frame_rows bytes = {2 * width, height, 2 * width + below(4)};
        size_t words_length = v_frame_rows_length(&words), bytes_length = v_frame_rows_length(&bytes);
        uint16_t *pixels = malloc(2 * words_length), *back = malloc(2 * words_length);
        uint8_t *file = malloc(bytes_length), *before = malloc(bytes_length);
        CHECK(pixels != NULL && back != NULL && file != NULL && before != NULL);
        for (size_t i = 0; i < words_length; i++) {
            pixels[i] = (uint16_t)next_random();
            back[i] = 7;
        }
        for (size_t i = 0; i < bytes_length; i++) {
            file[i] = before[i] = (uint8_t)next_random();
        }
        CHECK(v_frame_encode_u16(&bytes, file, bytes_length, &words, pixels, words_length) == V_FRAME_OK);
        for (size_t y = 0; y < height; y++) {
            for (size_t x = 0; x < bytes.stride && bytes.stride * y + x < bytes_length; x++) {
                uint8_t found = file[bytes.stride * y + x];
                uint16_t pixel = x < 2 * width ? pixels[words.stride * y + x / 2] : 0;
                CHECK(found == (x >= 2 * width ? before[bytes.stride * y + x] : (uint8_t)(x % 2 ? pixel >> 8 : pixel & 255)));
            }
        }
        CHECK(v_frame_decode_u16(&words, back, words_length, &bytes, file, bytes_length) == V_FRAME_OK);
        for (size_t i = 0; i < words_length; i++) {
            CHECK(back[i] == (i % words.stride < width ? pixels[i] : 7));
        }
        CHECK(v_frame_encode_u16(&bytes, file, bytes_length - 1, &words, pixels, words_length) == V_FRAME_FIRST_ROWS);
        CHECK(v_frame_encode_u16(&bytes, file, bytes_length, &words, pixels, words_length - 1) == V_FRAME_SECOND_ROWS);
        v_frame_rows narrow = v_frame_rows_packed(width, height);
        CHECK(v_frame_encode_u16(&narrow, file, bytes_length, &words, pixels, words_length) == V_FRAME_SIZES);
        CHECK(v_frame_decode_u16(&words, back, words_length - 1, &bytes, file, bytes_length) == V_FRAME_FIRST_ROWS);
        CHECK(v_frame_decode_u16(&words, back, words_length, &bytes, file, bytes_length - 1) == V_FRAME_SECOND_ROWS);
        free(pixels);
        free(back);
        free(file);
        free(before);
    }
}

static int is_part(const v_frame_part *part, size_t offset, size_t width, size_t height, size_t across, size_t down) {
    const v_frame_bordered *l = &part->layout;
    return part->offset == offset && part->count == (width + 2 * across) * (height + 2 * down) && l->width == width &&
           l->height == height && l->pad_left == across && l->pad_right == across && l->pad_top == down && l->pad_bottom == down;
}

static void frames(void) {
    static const size_t ratios[5][2] = {{1, 1}, {2, 2}, {2, 1}, {1, 1}, {4, 1}};
    for (int round = 0; round < 1000; round++) {
        v_frame_request request = {1 + below(99), 1 + below(99), below(40), (uint32_t)below(5)};
        v_frame_parts parts;
        memset(&parts, 9, sizeof parts);
        CHECK(v_frame_lay_out(&request, &parts) == V_FRAME_OK);
        size_t x = ratios[request.format][0], y = ratios[request.format][1];
        size_t across = (request.padding + x - 1) / x, down = (request.padding + y - 1) / y;
        size_t width = (request.width + x - 1) / x, height = (request.height + y - 1) / y;
        CHECK(is_part(&parts.y, 0, request.width, request.height, across * x, down * y));
        if (request.format == V_FRAME_MONOCHROME) {
            CHECK(is_part(&parts.u, 0, 0, 0, 0, 0) && is_part(&parts.v, 0, 0, 0, 0, 0) && parts.count == parts.y.count);
        } else {
            CHECK(is_part(&parts.u, parts.y.count, width, height, across, down));
            CHECK(is_part(&parts.v, parts.y.count + parts.u.count, width, height, across, down));
            CHECK(parts.count == parts.y.count + parts.u.count + parts.v.count);
        }
        uint8_t *buffer = calloc(parts.count, 1);
        v_frame_rows rows = v_frame_bordered_rows(&parts.v.layout);
        size_t start = parts.v.offset + v_frame_bordered_start(&parts.v.layout);
        CHECK(buffer != NULL);
        if (request.format != V_FRAME_MONOCHROME) {
            CHECK(v_frame_fill_u8(&rows, buffer + start, parts.count - start, 5) == V_FRAME_OK);
            CHECK(v_frame_pad_u8(&parts.v.layout, buffer + parts.v.offset, parts.v.count) == V_FRAME_OK);
            for (size_t i = 0; i < parts.count; i++) {
                CHECK(buffer[i] == (i < parts.v.offset ? 0 : 5));
            }
        }
        free(buffer);
    }
    v_frame_request refused[5] = {{0, 1, 0, 1}, {1, 0, 0, 1}, {1, 1, SIZE_MAX, 1}, {SIZE_MAX, 1, 0, 0}, {1, 1, 0, 5}};
    for (int i = 0; i < 5; i++) {
        v_frame_parts parts, untouched;
        memset(&parts, 9, sizeof parts);
        memset(&untouched, 9, sizeof untouched);
        CHECK(v_frame_lay_out(&refused[i], &parts) == (i == 4 ? V_FRAME_FORMAT : V_FRAME_FIRST_ROWS));
        CHECK(memcmp(&parts, &untouched, sizeof parts) == 0);
    }
}

static void helpers(void) {
    v_frame_rows rows = v_frame_rows_of_bytes(5, 4, 16, 2);
    CHECK(rows.stride == 8 && v_frame_rows_length(&rows) == 29);
    rows = v_frame_rows_of_bytes(5, 4, -16, 2);
    CHECK(rows.stride == 0 && v_frame_rows_length(&rows) == 0);
    rows = v_frame_rows_of_bytes(5, 4, 17, 2);
    CHECK(rows.stride == 0 && v_frame_rows_length(&rows) == 0);
    rows = v_frame_rows_packed(SIZE_MAX, 2);
    CHECK(v_frame_rows_length(&rows) == 0);
    rows = v_frame_rows_packed(3, 0);
    CHECK(v_frame_rows_length(&rows) == 0);
    for (uint32_t status = 0; status < 10; status++) {
        CHECK(strcmp(v_frame_status_text(status), "unknown status") != 0);
    }
    CHECK(v_frame_version() == V_FRAME_VERSION_NUMBER);
}

int main(void) {
    layouts();
    choices();
    all_u8();
    all_u16();
    pictures_u8();
    pictures_u16();
    conversions_u8();
    conversions_u16();
    measures_u8();
    measures_u16();
    refused_measures_u8();
    refused_measures_u16();
    whole_frames_u8();
    whole_frames_u16();
    depths();
    colors();
    samples_of_colors();
    bytes_and_words();
    frames();
    helpers();
    printf("%lu checks\n", checks);
    return 0;
}
