/* Prints the PSNR of each frame, all planes together, of two YUV4MPEG2 files: psnr_of_frames FILE FILE */
#include <fcntl.h>
#include <math.h>
#include <stdio.h>
#include <stdlib.h>
#include <sys/mman.h>
#include <sys/stat.h>
#include <unistd.h>
#include <v_frame.h>
#include <v_frame_y4m.h>

typedef struct stream {
    const uint8_t *file, *at;
    size_t size, left, frame_bytes;
    v_frame_y4m_header header;
} stream;

static void need(int holds, const char *why) {
    if (holds) return;
    fprintf(stderr, "%s\n", why);
    exit(2);
}

static stream mapped(const char *name) {
    struct stat about;
    int file = open(name, O_RDONLY);
    need(file >= 0 && fstat(file, &about) == 0 && about.st_size > 0, "a file cannot be read");
    stream it = {0};
    it.size = it.left = (size_t)about.st_size;
    it.file = it.at = mmap(NULL, it.size, PROT_READ, MAP_PRIVATE, file, 0);
    need(it.file != MAP_FAILED, "a file cannot be mapped");
    close(file);
    size_t line;
    uint32_t letter, is_lax, status = v_frame_y4m_first_line(it.at, it.left, &line);
    if (status == V_FRAME_Y4M_OK) status = v_frame_y4m_parse_header(it.at, line - 1, &it.header, &letter, &is_lax);
    if (status == V_FRAME_Y4M_OK) status = v_frame_y4m_frame_bytes(&it.header, &it.frame_bytes);
    need(status == V_FRAME_Y4M_OK, v_frame_y4m_status_text(status));
    it.at += line;
    it.left -= line;
    return it;
}

/* Returns the planes of the next frame, and NULL at the end of the stream. */
static const uint8_t *next_frame(stream *it) {
    if (it->left == 0) return NULL;
    size_t line;
    uint32_t is_lax;
    const uint32_t status = v_frame_y4m_frame_line(it->at, it->left, &line, &is_lax);
    need(status == V_FRAME_Y4M_OK, v_frame_y4m_status_text(status));
    need(it->left - line >= it->frame_bytes, "a stream ends inside a frame");
    const uint8_t *planes = it->at + line;
    it->at += line + it->frame_bytes;
    it->left -= line + it->frame_bytes;
    return planes;
}

/* Sums the squared errors of the bytes of two frames; above 8 bits a sample has two, the low one first. */
static double squared_errors(const uint8_t *p, const uint8_t *q, size_t size, uint32_t bit_depth) {
    v_frame_sum sum;
    const v_frame_rows bytes = v_frame_rows_packed(size, 1), words = v_frame_rows_packed(size / 2, 1);
    if (bit_depth == 8) {
        need(v_frame_squared_errors_u8(&bytes, p, size, &bytes, q, size, &sum) == V_FRAME_OK, "too large");
        return (double)sum.low;
    }
    uint16_t *first = malloc(size), *second = malloc(size);
    need(first != NULL && second != NULL, "no memory");
    need(v_frame_decode_u16(&words, first, size / 2, &bytes, p, size) == V_FRAME_OK, "too large");
    need(v_frame_decode_u16(&words, second, size / 2, &bytes, q, size) == V_FRAME_OK, "too large");
    need(v_frame_squared_errors_u16(&words, first, size / 2, &words, second, size / 2, &sum) == V_FRAME_OK, "too large");
    free(first);
    free(second);
    return (double)sum.low;
}

int main(int argc, char **argv) {
    need(argc == 3, "usage: psnr_of_frames FILE FILE");
    stream a = mapped(argv[1]), b = mapped(argv[2]);
    need(a.header.width == b.header.width && a.header.height == b.header.height, "the streams have different sizes");
    need(a.header.format == b.header.format && a.header.bit_depth == b.header.bit_depth, "the streams have different formats");
    const double peak = (1u << a.header.bit_depth) - 1, count = (double)a.frame_bytes / (a.header.bit_depth == 8 ? 1 : 2);
    for (;;) {
        const uint8_t *p = next_frame(&a), *q = next_frame(&b);
        need((p == NULL) == (q == NULL), "one stream has more frames than the other");
        if (p == NULL) break;
        printf("%.4f\n", 10 * log10(peak * peak * count / squared_errors(p, q, a.frame_bytes, a.header.bit_depth)));
    }
    munmap((void *)a.file, a.size);
    munmap((void *)b.file, b.size);
    return 0;
}
