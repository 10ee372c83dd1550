/*
 * Times each call beside a plain loop of the same work, in one run: least times of many rounds, one after the other in turn.
 * The loops are compiled with -O3, sum a row in the narrowest type that holds it, and test nothing. Prints nanoseconds of the call, of the loop, and their ratio.
 */
#define _POSIX_C_SOURCE 199309L
#include "v_frame.h"

#include <stdio.h>
#include <stdlib.h>
#include <string.h>
#include <time.h>

#define APART __attribute__((noinline))

static volatile uint64_t sink;

static double now(void) {
    struct timespec t;
    clock_gettime(CLOCK_MONOTONIC, &t);
    return (double)t.tv_sec * 1e9 + (double)t.tv_nsec;
}

#define SAMPLE uint8_t
#define SIGNED int32_t
#define WIDE uint32_t
#define NAME(call) v_frame_##call##_u8
#define BENCH(name) name##_u8
#define TYPE "u8"
#include "samples.inc"
#include "pictures.inc"
#include "conversions.inc"
#include "measures.inc"
#undef SAMPLE
#undef SIGNED
#undef WIDE
#undef NAME
#undef BENCH
#undef TYPE

#define SAMPLE uint16_t
#define SIGNED int64_t
#define WIDE uint64_t
#define NAME(call) v_frame_##call##_u16
#define BENCH(name) name##_u16
#define TYPE "u16"
#define OF_DEPTH
#include "samples.inc"
#include "pictures.inc"
#include "conversions.inc"
#include "measures.inc"

APART static void loop_widen(uint16_t *restrict a, const uint8_t *restrict b, size_t w, size_t h, size_t s) {
    for (size_t y = 0; y < h; y++) {
        for (size_t x = 0; x < w; x++) {
            a[s * y + x] = (uint16_t)(b[s * y + x] << 2);
        }
    }
}

APART static void loop_narrow(uint8_t *restrict a, const uint16_t *restrict b, size_t w, size_t h, size_t s) {
    for (size_t y = 0; y < h; y++) {
        for (size_t x = 0; x < w; x++) {
            uint32_t value = ((uint32_t)b[s * y + x] + 2) >> 2;
            a[s * y + x] = (uint8_t)(value < 255 ? value : 255);
        }
    }
}

/* 8 bits in 10, and back. */
static void depths(size_t w, size_t h) {
    size_t s = w + 32, length = s * h, times = 2000000 / (w * h) + 1;
    v_frame_rows rows = {w, h, s};
    uint8_t *bytes = calloc(length, 1);
    uint16_t *words = calloc(length, 2);
    if (bytes == NULL || words == NULL) {
        exit(1);
    }
    TIME("8 bits in 10,", sink += v_frame_convert_depth_u8_u16(&rows, words, length, &rows, bytes, length, 8, 10),
         loop_widen(words, bytes, w, h, s));
    TIME("10 bits in 8,", sink += v_frame_convert_depth_u16_u8(&rows, bytes, length, &rows, words, length, 10, 8),
         loop_narrow(bytes, words, w, h, s));
    free(bytes);
    free(words);
}

/* By BT.709 in limited range, in parts of 16384 and of 65536. */
APART static void loop_to_rgb(uint8_t *restrict a, const uint8_t *restrict y, const uint8_t *restrict u, const uint8_t *restrict v,
                              size_t w, size_t h, size_t s) {
    for (size_t k = 0; k < h; k++) {
        for (size_t x = 0; x < w; x++) {
            int32_t luma = 19077 * (y[s * k + x] - 16) + 8192, cb = u[s * k + x] - 128, cr = v[s * k + x] - 128;
            int32_t color[3] = {(luma + 29372 * cr) >> 14, (luma - 3494 * cb - 8731 * cr) >> 14, (luma + 34610 * cb) >> 14};
            for (int i = 0; i < 3; i++) {
                a[3 * s * k + 3 * x + (size_t)i] = (uint8_t)(color[i] < 0 ? 0 : color[i] < 255 ? color[i] : 255);
            }
        }
    }
}

APART static void loop_to_yuv(const uint8_t *restrict a, uint8_t *restrict y, uint8_t *restrict u, uint8_t *restrict v, size_t w,
                              size_t h, size_t s) {
    for (size_t k = 0; k < h; k++) {
        for (size_t x = 0; x < w; x++) {
            const uint8_t *p = a + 3 * s * k + 3 * x;
            y[s * k + x] = (uint8_t)((16 * 65536 + 11966 * p[0] + 40254 * p[1] + 4064 * p[2] + 32768) >> 16);
            u[s * k + x] = (uint8_t)((128 * 65536 - 6596 * p[0] - 22189 * p[1] + 28784 * p[2] + 32768) >> 16);
            v[s * k + x] = (uint8_t)((128 * 65536 + 28784 * p[0] - 26145 * p[1] - 2639 * p[2] + 32768) >> 16);
        }
    }
}

#undef TYPE
#define TYPE "u8"

static void colors(size_t w, size_t h) {
    size_t s = w + 32, length = s * h, times = 2000000 / (w * h) + 1;
    v_frame_rows rows = {w, h, s}, wide = {3 * w, h, 3 * s};
    v_frame_colors choice = {V_FRAME_BT709, V_FRAME_LIMITED, V_FRAME_RGB};
    uint8_t *planes[3], *bytes = malloc(3 * length);
    for (size_t i = 0; i < 3; i++) {
        planes[i] = malloc(length);
        if (planes[i] == NULL || bytes == NULL) {
            exit(1);
        }
        memset(planes[i], 100 + (int)i, length);
    }
    for (size_t i = 0; i < 3 * length; i++) {
        bytes[i] = (uint8_t)(i * 2654435761u >> 13);
    }
    TIME("RGB in planes", sink += v_frame_rgb_to_yuv444_u8(&wide, bytes, 3 * length, &rows, planes[0], length, &rows, planes[1], length,
                                                           &rows, planes[2], length, &choice),
         loop_to_yuv(bytes, planes[0], planes[1], planes[2], w, h, s));
    TIME("planes in RGB", sink += v_frame_yuv444_to_rgb_u8(&wide, bytes, 3 * length, &rows, planes[0], length, &rows, planes[1], length,
                                                           &rows, planes[2], length, &choice),
         loop_to_rgb(bytes, planes[0], planes[1], planes[2], w, h, s));
    for (size_t i = 0; i < 3; i++) {
        free(planes[i]);
    }
    free(bytes);
}

int main(void) {
    size_t sizes[4][2] = {{8, 8}, {16, 16}, {64, 64}, {1920, 1080}};
    printf("| call | size | ns | loop | ratio |\n|---|---|---|---|---|\n");
    for (int i = 0; i < 4; i++) {
        all_u8(sizes[i][0], sizes[i][1]);
        all_u16(sizes[i][0], sizes[i][1]);
        pictures_u8(sizes[i][0], sizes[i][1]);
        pictures_u16(sizes[i][0], sizes[i][1]);
        conversions_u8(sizes[i][0], sizes[i][1]);
        conversions_u16(sizes[i][0], sizes[i][1]);
        measures_u8(sizes[i][0], sizes[i][1]);
        measures_u16(sizes[i][0], sizes[i][1]);
        depths(sizes[i][0], sizes[i][1]);
        colors(sizes[i][0], sizes[i][1]);
    }
    return 0;
}
