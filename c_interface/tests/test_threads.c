/*
 * Calls the libraries from many threads at the same time: over the same pictures and lines that all threads read, each with results of
 * its own. Each result is the one that a single thread finds.
 */
#include "v_frame.h"
#include "v_frame_png.h"
#include "v_frame_y4m.h"

#include <pthread.h>
#include <stdio.h>
#include <stdlib.h>
#include <string.h>

enum { WIDTH = 61, HEIGHT = 47, SAMPLES = WIDTH * HEIGHT, THREADS = 8, ROUNDS = 100 };

typedef struct results {
    v_frame_sum sum;
    double similarity, decibels;
    uint8_t half[(WIDTH + 1) / 2 * ((HEIGHT + 1) / 2)];
    uint8_t png[SAMPLES * 2];
    size_t png_size, line_size, extensions_size;
    v_frame_y4m_header header;
    uint32_t letter, is_lax;
    uint8_t line[256], extensions[256];
} results;

static uint8_t first[SAMPLES], second[SAMPLES];
static results wanted;

static void need(int holds, const char *what) {
    if (!holds) {
        fprintf(stderr, "test_threads: %s\n", what);
        exit(1);
    }
}

static void work(results *it) {
    static const char text[] = "YUV4MPEG2 W61 H47 F25 C422 XCOLORRANGE=FULL Xa";
    const v_frame_rows rows = {WIDTH, HEIGHT, WIDTH}, small = {(WIDTH + 1) / 2, (HEIGHT + 1) / 2, (WIDTH + 1) / 2};
    const v_frame_png_picture picture = {WIDTH, HEIGHT, WIDTH, V_FRAME_PNG_GRAY, V_FRAME_PNG_FIXED};
    memset(it, 0, sizeof *it);
    need(v_frame_squared_errors_u8(&rows, first, SAMPLES, &rows, second, SAMPLES, &it->sum) == V_FRAME_OK, "squared errors");
    need(v_frame_ssim_u8(&rows, first, SAMPLES, &rows, second, SAMPLES, &it->similarity) == V_FRAME_OK, "SSIM");
    need(v_frame_psnr_u8(&rows, first, SAMPLES, &rows, second, SAMPLES, &it->decibels) == V_FRAME_OK, "PSNR");
    need(v_frame_downscale_to_edge_u8(&small, it->half, sizeof it->half, &rows, first, SAMPLES) == V_FRAME_OK, "half");
    need(v_frame_png_write_u8(&picture, first, SAMPLES, it->png, sizeof it->png, &it->png_size) == V_FRAME_PNG_OK, "PNG");
    need(v_frame_y4m_parse_header((const uint8_t *)text, sizeof text - 1, &it->header, &it->letter, &it->is_lax) == V_FRAME_Y4M_OK, "parsing");
    need(v_frame_y4m_extensions((const uint8_t *)text, sizeof text - 1, it->extensions, 256, &it->extensions_size) == V_FRAME_Y4M_OK, "extensions");
    need(v_frame_y4m_write_header(&it->header, it->extensions, it->extensions_size, it->line, 256, &it->line_size) == V_FRAME_Y4M_OK, "writing");
}

static void *run(void *room) {
    results *it = room;
    for (int n = 0; n < ROUNDS; n++) {
        work(it);
        need(memcmp(it, &wanted, sizeof wanted) == 0, "a thread has found other results");
    }
    return NULL;
}

int main(void) {
    static results rooms[THREADS];
    pthread_t threads[THREADS];
    uint32_t state = 1;
    for (size_t i = 0; i < SAMPLES; i++) {
        state = state * 1664525u + 1013904223u;
        first[i] = (uint8_t)(state >> 24);
        second[i] = (uint8_t)(first[i] ^ (state >> 16 & 7));
    }
    work(&wanted);
    for (int n = 0; n < THREADS; n++) {
        need(pthread_create(&threads[n], NULL, run, &rooms[n]) == 0, "there is no thread");
    }
    for (int n = 0; n < THREADS; n++) {
        pthread_join(threads[n], NULL);
    }
    printf("%d threads\n", THREADS);
    return 0;
}
