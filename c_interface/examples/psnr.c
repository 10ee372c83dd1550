/* Prints the PSNR of two raw files of 8-bit luma: psnr WIDTH HEIGHT FILE FILE */
#include <math.h>
#include <stdio.h>
#include <stdlib.h>
#include <v_frame.h>

static uint8_t *read_plane(const char *name, size_t length) {
    FILE *file = fopen(name, "rb");
    uint8_t *pixels = malloc(length);
    if (file == NULL || pixels == NULL || fread(pixels, 1, length, file) != length) {
        fprintf(stderr, "%s: cannot read %zu bytes\n", name, length);
        exit(2);
    }
    fclose(file);
    return pixels;
}

int main(int argc, char **argv) {
    if (argc != 5) {
        fprintf(stderr, "usage: psnr WIDTH HEIGHT FILE FILE\n");
        return 2;
    }
    v_frame_rows rows = v_frame_rows_packed(strtoul(argv[1], NULL, 10), strtoul(argv[2], NULL, 10));
    size_t length = v_frame_rows_length(&rows);
    if (length == 0) {
        fprintf(stderr, "%s\n", v_frame_status_text(V_FRAME_FIRST_ROWS));
        return 2;
    }
    uint8_t *a = read_plane(argv[3], length);
    uint8_t *b = read_plane(argv[4], length);
    v_frame_sum sum;
    uint32_t status = v_frame_squared_errors_u8(&rows, a, length, &rows, b, length, &sum);
    if (status != V_FRAME_OK) {
        fprintf(stderr, "%s\n", v_frame_status_text(status));
        return 2;
    }
    double mean = (double)sum.low / (double)length;
    printf("squared errors %llu, PSNR %.6f dB\n", (unsigned long long)sum.low, 10 * log10(255.0 * 255.0 / mean));
    free(a);
    free(b);
    return 0;
}
