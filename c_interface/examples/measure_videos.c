/* Prints PSNR and SSIM of two videos of planar YUV, of each plane and of all, as FFmpeg's filters do: measure_videos FILE FILE */
#include "decoded_video.h"
#include <libavutil/pixdesc.h>
#include <math.h>
#include <stdio.h>
#include <v_frame.h>

static const char *const names[] = {"y", "u", "v", "all"};
typedef struct measures { double error, similarity, count; } measures;

/* The rows of a plane where the decoder has them. */
static v_frame_rows rows_of(const AVFrame *frame, int plane, const AVPixFmtDescriptor *format) {
    const AVComponentDescriptor *samples = &format->comp[plane];
    const int size = samples->depth > 8 ? 2 : 1, across = plane == 0 ? 0 : format->log2_chroma_w, down = plane == 0 ? 0 : format->log2_chroma_h;
    need(samples->plane == plane && samples->shift == 0 && samples->step == size && format->nb_components < 4 &&
         (format->flags & ~AV_PIX_FMT_FLAG_PLANAR) == 0, "the format is not planar YUV");
    need(frame->linesize[plane] > 0, "a line size is negative: the rows go from the bottom up");
    return v_frame_rows_of_bytes(AV_CEIL_RSHIFT(frame->width, across), AV_CEIL_RSHIFT(frame->height, down), frame->linesize[plane], size);
}

static measures of_plane(const AVFrame *a, const AVFrame *b, int plane, const AVPixFmtDescriptor *format) {
    const v_frame_rows m = rows_of(a, plane, format), n = rows_of(b, plane, format);
    const size_t m_length = v_frame_rows_length(&m), n_length = v_frame_rows_length(&n);
    const void *p = a->data[plane], *q = b->data[plane];
    const uint32_t depth = (uint32_t)format->comp[plane].depth;
    measures it = {0, 0, (double)m.width * (double)m.height};
    uint32_t status = depth > 8 ? v_frame_mean_squared_error_u16(&m, p, m_length, &n, q, n_length, &it.error)
                                : v_frame_mean_squared_error_u8(&m, p, m_length, &n, q, n_length, &it.error);
    if (status == V_FRAME_OK) status = depth > 8 ? v_frame_ssim_u16(&m, p, m_length, &n, q, n_length, depth, &it.similarity)
                                                 : v_frame_ssim_u8(&m, p, m_length, &n, q, n_length, &it.similarity);
    need(status == V_FRAME_OK, v_frame_status_text(status));
    return it;
}

static void add(measures *sum, measures it) {
    *sum = (measures){sum->error + it.error * it.count, sum->similarity + it.similarity * it.count, sum->count + it.count};
}

int main(int argc, char **argv) {
    need(argc == 3, "usage: measure_videos FILE FILE");
    decoded_video one = opened(argv[1]), other = opened(argv[2]);
    measures sums[4] = {{0, 0, 0}};
    double peak = 0;
    const AVFrame *a, *b;
    while (a = next_frame(&one), b = next_frame(&other), a != NULL && b != NULL) {
        need(a->format == b->format && a->width == b->width && a->height == b->height, "the videos have different formats or sizes");
        const AVPixFmtDescriptor *format = av_pix_fmt_desc_get(a->format);
        peak = (1 << format->comp[0].depth) - 1;
        for (int plane = 0; plane < format->nb_components; plane++) {
            const measures it = of_plane(a, b, plane, format);
            add(&sums[plane], it);
            add(&sums[3], it);
        }
    }
    need(a == NULL && b == NULL, "one video has more frames than the other");
    for (int it = 0; it < 4; it++) {
        const double error = sums[it].error / sums[it].count, similarity = sums[it].similarity / sums[it].count;
        if (sums[it].count > 0) printf("%s PSNR %f SSIM %f\n", names[it], 10 * log10(peak * peak / error), similarity);
    }
    close_video(&one);
    close_video(&other);
    return 0;
}
