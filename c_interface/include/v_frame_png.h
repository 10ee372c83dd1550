/**
 * @file v_frame_png.h
 * v_frame_png: writes a picture in memory as a PNG file in memory, by calls made from proved sources.
 *
 * A picture is rows of samples in a buffer. Row y is the samples of `width` pixels from index `stride * y` on. A pixel has one sample
 * with V_FRAME_PNG_GRAY, and three samples, red, green and blue, with V_FRAME_PNG_RGB. The last row may end at its width. The planes
 * of decoders and the result of v_frame_yuv444_to_rgb_u8 are therefore valid arguments without a copy.
 *
 *     v_frame_png_picture picture = {width, height, stride, V_FRAME_PNG_GRAY, V_FRAME_PNG_FIXED};
 *     v_frame_png_write_u8(&picture, luma, luma_length, buffer, size, &needed);
 *
 * The contract of each call is that of the function with the same name in crates/v_frame_png_c. It says which status the call
 * returns, and that a reader of PNG finds this picture in what is written. The file names no color space. While a call runs, it
 * takes up to about twice the size of the file by malloc.
 *
 * Pointers. A pointer that is null, or is not aligned for its type, gives V_FRAME_PNG_POINTER. If a length is 0, the pointer beside
 * it may be null. The caller promises that a pointer points to as many entries as the length beside it says, and that the buffer
 * and the count overlap nothing else.
 *
 * Threads. The library has no state and keeps no pointer after a call returns. Any number of threads may call it at the same time,
 * and they may read the same samples. While a call writes a buffer or a count, no other thread may read or write it.
 */
#ifndef V_FRAME_PNG_H
#define V_FRAME_PNG_H

#include <stddef.h>
#include <stdint.h>

#ifdef __cplusplus
extern "C" {
#endif

/** The status of a call: V_FRAME_PNG_OK, or the first test that fails. Pointers are tested first, and then the rest in the order of
 * the numbers. */
enum v_frame_png_status {
    V_FRAME_PNG_OK = 0,
    /** The color or the compression is not a number of its enum. */
    V_FRAME_PNG_NUMBER = 1,
    /** The width or the height is 0, or is above 2^31 - 1, which PNG does not allow. */
    V_FRAME_PNG_SIZE = 2,
    /** The stride is below the number of samples in a row, or the last row ends past the end of the samples. */
    V_FRAME_PNG_ROWS = 3,
    /** malloc returned no memory. */
    V_FRAME_PNG_OUT_OF_MEMORY = 4,
    /** The buffer is shorter than the file. */
    V_FRAME_PNG_SHORT_BUFFER = 5,
    /** A pointer is null or is not aligned for its type, or a length is too large for any object in memory. */
    V_FRAME_PNG_POINTER = 6
};

/** The samples of a pixel. */
enum v_frame_png_color {
    V_FRAME_PNG_GRAY = 0,
    V_FRAME_PNG_RGB = 1
};

/** How the data is compressed: not at all, or by deflate with its fixed codes. */
enum v_frame_png_compression {
    V_FRAME_PNG_STORED = 0,
    V_FRAME_PNG_FIXED = 1
};

/** A picture: its width and height in pixels, the stride, which is the number of samples from the beginning of one row to the
 * beginning of the next, a number of enum v_frame_png_color and a number of enum v_frame_png_compression. */
typedef struct v_frame_png_picture {
    size_t width;
    size_t height;
    size_t stride;
    uint32_t color;
    uint32_t compression;
} v_frame_png_picture;

/** Returns the version of the loaded library as v_frame_version does. */
uint32_t v_frame_png_version(void);

/** Returns a description of a status in English, without a period. The text is static. */
const char *v_frame_png_status_text(uint32_t status);

/** Writes a picture of 8-bit samples as a PNG file to the front of a buffer, and sets `needed` to the number of bytes of the file. If
 * the buffer is shorter than the file, the call writes nothing to it, sets `needed`, and returns V_FRAME_PNG_SHORT_BUFFER; so a call
 * with a size of 0 finds the size of the buffer that is needed. With any other error the buffer and `needed` are unchanged. */
uint32_t v_frame_png_write_u8(const v_frame_png_picture *picture, const uint8_t *samples, size_t length, uint8_t *buffer, size_t size,
                              size_t *needed);

/** Writes a picture of 16-bit samples as a PNG file of 16 bits, as v_frame_png_write_u8 does. Convert samples of fewer bits first,
 * by v_frame_convert_depth_u16_u16. */
uint32_t v_frame_png_write_u16(const v_frame_png_picture *picture, const uint16_t *samples, size_t length, uint8_t *buffer,
                               size_t size, size_t *needed);

#ifdef __cplusplus
}
#endif

#endif
