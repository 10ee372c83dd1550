/*
 * The calls that are written by hand, in the libraries that `rt` builds: texts, which no source returns, and the peak signal-to-noise
 * ratio, whose logarithm no contract describes. rust/v_frame_c/src/by_hand.rs has the same calls for the libraries that cargo builds.
 */
#include "v_frame.h"
#include "v_frame_png.h"
#include "v_frame_y4m.h"

#include <math.h>

static const char *text_of(const char *const *texts, size_t count, uint32_t status) {
    return status < count ? texts[status] : "unknown status";
}

#define TEXT_OF(texts, status) text_of(texts, sizeof texts / sizeof texts[0], status)

#if defined OF_V_FRAME
const char *v_frame_status_text(uint32_t status) {
    static const char *const texts[] = {
        "no error",
        "the first rows do not fit their buffer",
        "the second rows do not fit their buffer",
        "the sizes are not those that the call requires",
        "the format is not one that the call takes",
        "a bit depth, a ratio, a weight or the number of a choice is out of its range",
        "the third rows do not fit their buffer",
        "the fourth rows do not fit their buffer",
        "a side is below 8, so that no window of SSIM fits",
        "the fifth rows do not fit their buffer",
        "a pointer is null or not aligned",
    };
    return TEXT_OF(texts, status);
}

static double decibels_of(double error, uint32_t bit_depth) {
    const double peak = (double)((UINT32_C(1) << bit_depth) - 1);
    return 10.0 * log10(peak * peak / error);
}

uint32_t v_frame_psnr_u8(const v_frame_rows *a_rows, const uint8_t *a, size_t a_length, const v_frame_rows *b_rows,
                         const uint8_t *b, size_t b_length, double *decibels) {
    double error;
    const uint32_t status = v_frame_mean_squared_error_u8(a_rows, a, a_length, b_rows, b, b_length, &error);
    if (status == V_FRAME_POINTER || decibels == NULL || (uintptr_t)decibels % __alignof__(double) != 0) {
        return V_FRAME_POINTER;
    }
    if (status == V_FRAME_OK) {
        *decibels = decibels_of(error, 8);
    }
    return status;
}

uint32_t v_frame_psnr_u16(const v_frame_rows *a_rows, const uint16_t *a, size_t a_length, const v_frame_rows *b_rows,
                          const uint16_t *b, size_t b_length, uint32_t bit_depth, double *decibels) {
    double error;
    const uint32_t status = v_frame_mean_squared_error_u16(a_rows, a, a_length, b_rows, b, b_length, &error);
    if (status == V_FRAME_POINTER || decibels == NULL || (uintptr_t)decibels % __alignof__(double) != 0) {
        return V_FRAME_POINTER;
    }
    if (bit_depth < 8 || bit_depth > 16) {
        return V_FRAME_NUMBER;
    }
    if (status == V_FRAME_OK) {
        *decibels = decibels_of(error, bit_depth);
    }
    return status;
}
#elif defined OF_V_FRAME_PNG
const char *v_frame_png_status_text(uint32_t status) {
    static const char *const texts[] = {
        "no error",
        "the color or the compression is out of its range",
        "the width or the height is one that PNG does not allow",
        "the rows do not fit the samples",
        "out of memory",
        "the buffer is shorter than the file",
        "a pointer is null or not aligned",
    };
    return TEXT_OF(texts, status);
}
#elif defined OF_V_FRAME_Y4M
const char *v_frame_y4m_status_text(uint32_t status) {
    static const char *const texts[] = {
        "no error",
        "the stream does not begin with YUV4MPEG2",
        "a parameter is missing",
        "a parameter is repeated",
        "a parameter is malformed",
        "a size is 0",
        "a size is too large",
        "the color is unknown",
        "out of memory",
        "a number of the header is out of its range",
        "the buffer is shorter than the text",
        "the stream ends inside a line",
        "a line is longer than 1024 bytes",
        "the line is not one that begins a frame",
        "a pointer is null or not aligned",
        "the text states something other than extensions",
        "the extensions state another range than the header",
    };
    return TEXT_OF(texts, status);
}
#endif
