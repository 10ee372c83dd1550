/**
 * @file v_frame.h
 * v_frame: calls on planes of video, made from proved sources.
 *
 * The contract of each call is that of the function with the same name in crates/v_frame_c. It says which status the call returns,
 * what it writes, and that it leaves everything else unchanged. The prover has checked these contracts. A library that cargo built
 * is translated from the proved sources and is tested. The calls v_frame_psnr_u8, v_frame_psnr_u16 and v_frame_status_text, and
 * the tests of pointers, are written by hand and tested.
 *
 * Statuses. A call tests its arguments and returns a status, which is a uint32_t: V_FRAME_OK, which is 0, or a number of
 * enum v_frame_status. If the status is not V_FRAME_OK, the call has written nothing. In C++, declare a status as uint32_t, because
 * C++ does not convert a number to an enum.
 *
 * Pointers. A pointer that is null, or is not aligned for its type, gives V_FRAME_POINTER. If a length is 0, the pointer beside it
 * may be null. No call can test the rest, which the caller promises:
 *   - a pointer points to as many entries as the length beside it says;
 *   - what a call writes (a buffer or a result) overlaps nothing else that the call is given.
 *
 * Threads. The library has no state, takes no memory, and keeps no pointer after a call returns. Any number of threads may call it
 * at the same time, and they may read the same buffers. While a call writes a buffer or a result, no other thread may read or
 * write it.
 *
 * Rows. A picture is rows of entries in a buffer. Row y is the `width` entries from index `stride * y` on. The buffer may be longer
 * than the rows, and the last row may end at its width. A call that writes leaves every other entry of the buffer unchanged.
 * Crops, single fields (with twice the stride), and the planes of libavutil and dav1d are therefore valid arguments without a copy.
 * All counts are numbers of entries: of uint8_t in calls whose names end in _u8, and of uint16_t in the byte order of the machine
 * in calls whose names end in _u16.
 */
#ifndef V_FRAME_H
#define V_FRAME_H

#include <stddef.h>
#include <stdint.h>

#define V_FRAME_VERSION_MAJOR 0
#define V_FRAME_VERSION_MINOR 4
#define V_FRAME_VERSION_PATCH 0
#define V_FRAME_VERSION "0.4.0"
/** The version as one number, as v_frame_version returns it. */
#define V_FRAME_VERSION_NUMBER (V_FRAME_VERSION_MAJOR * 65536 + V_FRAME_VERSION_MINOR * 256 + V_FRAME_VERSION_PATCH)

#ifdef __cplusplus
extern "C" {
#endif

/** The status of a call: V_FRAME_OK, or the first test that fails. A call tests its pointers, then its numbers and formats, then the
 * rows of each buffer in the order of the parameters, and then the sizes. */
enum v_frame_status {
    /** The call has succeeded. */
    V_FRAME_OK = 0,
    /** The first rows do not fit the first buffer: a size is 0, the stride is below the width, or the last row ends past the end of
     * the buffer. */
    V_FRAME_FIRST_ROWS = 1,
    /** The second rows do not fit the second buffer. */
    V_FRAME_SECOND_ROWS = 2,
    /** The sizes of the pictures are not those that the call requires. */
    V_FRAME_SIZES = 3,
    /** The number is not one of enum v_frame_format, or the call does not take this format. */
    V_FRAME_FORMAT = 4,
    /** A bit depth, a ratio, a weight, or the number of a choice is out of its range. */
    V_FRAME_NUMBER = 5,
    /** The third rows do not fit the third buffer. */
    V_FRAME_THIRD_ROWS = 6,
    /** The fourth rows do not fit the fourth buffer. */
    V_FRAME_FOURTH_ROWS = 7,
    /** The width or the height of the pictures is below 8, so that no window of 8 by 8 pixels fits. */
    V_FRAME_WINDOWS = 8,
    /** The fifth rows do not fit the fifth buffer. */
    V_FRAME_FIFTH_ROWS = 9,
    /** A pointer is null or is not aligned for its type, or a length is too large for any object in memory. */
    V_FRAME_POINTER = 10
};

/** Chroma formats. */
enum v_frame_format {
    V_FRAME_MONOCHROME = 0,
    V_FRAME_420 = 1,
    V_FRAME_422 = 2,
    V_FRAME_444 = 3,
    V_FRAME_411 = 4
};

/** Ways to turn a picture. The last three exchange the width and the height. Rotations by 90 and 270 degrees are clockwise. */
enum v_frame_turn {
    V_FRAME_FLIP_VERTICAL = 0,
    V_FRAME_FLIP_HORIZONTAL = 1,
    V_FRAME_ROTATE_180 = 2,
    V_FRAME_TRANSPOSE = 3,
    V_FRAME_ROTATE_90 = 4,
    V_FRAME_ROTATE_270 = 5
};

/** Standards of color: ITU-R BT.601-7, BT.709-6, and BT.2020-2 with non-constant luminance. */
enum v_frame_standard {
    V_FRAME_BT601 = 0,
    V_FRAME_BT709 = 1,
    V_FRAME_BT2020 = 2
};

/** Ranges of values, at 8 bits: 16 to 235 for luma and 16 to 240 for chroma, or 0 to 255. */
enum v_frame_range {
    V_FRAME_LIMITED = 0,
    V_FRAME_FULL = 1
};

/** Orders of the bytes of a color. The fourth byte, if there is one, is 255. */
enum v_frame_order {
    V_FRAME_RGB = 0,
    V_FRAME_BGR = 1,
    V_FRAME_RGBA = 2,
    V_FRAME_BGRA = 3
};

/** The component that a plane holds. The ranges of luma and chroma differ. */
enum v_frame_component {
    V_FRAME_LUMA = 0,
    V_FRAME_CHROMA = 1
};

/** A kind of colors: numbers of enum v_frame_standard, enum v_frame_range and enum v_frame_order. */
typedef struct v_frame_colors {
    uint32_t standard;
    uint32_t range;
    uint32_t order;
} v_frame_colors;

/** Rows in a buffer. All three numbers are counts of entries, and not of bytes. */
typedef struct v_frame_rows {
    size_t width;
    size_t height;
    size_t stride;
} v_frame_rows;

/** A picture in a border, from the beginning of a buffer on. The stride is pad_left + width + pad_right. The picture begins after
 * pad_top rows and pad_left entries. */
typedef struct v_frame_bordered {
    size_t width;
    size_t height;
    size_t pad_left;
    size_t pad_right;
    size_t pad_top;
    size_t pad_bottom;
} v_frame_bordered;

/** A frame: its width and height in luma pixels, the least padding of luma on all four sides, and a number of enum v_frame_format. */
typedef struct v_frame_request {
    size_t width;
    size_t height;
    size_t padding;
    uint32_t format;
} v_frame_request;

/** A plane in a buffer: the index at which it begins, the number of its entries with its border, and its layout, as v_frame_pad_u8
 * takes it. If the format has no such plane, all numbers are 0. */
typedef struct v_frame_part {
    size_t offset;
    size_t count;
    v_frame_bordered layout;
} v_frame_part;

/** The planes of a frame, one after the other without gaps, and the number of their entries together. */
typedef struct v_frame_parts {
    v_frame_part y;
    v_frame_part u;
    v_frame_part v;
    size_t count;
} v_frame_parts;

/** A sum: low + 2^64 * high. For fewer than 2^32 entries of 16 bits, `high` is 0. */
typedef struct v_frame_sum {
    uint64_t low;
    uint64_t high;
} v_frame_sum;

/** A column and a row if `found` is 1. Otherwise all three numbers are 0. */
typedef struct v_frame_place {
    size_t x;
    size_t y;
    uint32_t found;
} v_frame_place;

/** Statistics of the pixels of a picture. The mean is sum / count; the variance is sum_of_squares / count - mean * mean. */
typedef struct v_frame_statistics {
    uint64_t count;
    v_frame_sum sum;
    v_frame_sum sum_of_squares;
    uint32_t minimum;
    uint32_t maximum;
} v_frame_statistics;

/** Sums over two pictures: of the pixels of each, of their squares, and of the products of the pixels at the same place. SSIM and
 * correlations are computed from them. */
typedef struct v_frame_pair_statistics {
    v_frame_sum first;
    v_frame_sum second;
    v_frame_sum first_squares;
    v_frame_sum second_squares;
    v_frame_sum products;
} v_frame_pair_statistics;

/** The greatest absolute difference of two pictures, and the column and the row of the first pixel, row after row from the top,
 * that has it. */
typedef struct v_frame_greatest {
    size_t x;
    size_t y;
    uint32_t difference;
} v_frame_greatest;

/** Returns the version of the loaded library: V_FRAME_VERSION_NUMBER of the header with which it was built. If the first two numbers
 * of the version are those of this header, the library has all calls, structs and numbers of enums that the header declares. */
uint32_t v_frame_version(void);

/** Returns a description of a status in English, without a period. The text is static. */
const char *v_frame_status_text(uint32_t status);

/** Sums the squares of the differences of two pictures of one size. */
uint32_t v_frame_squared_errors_u8(const v_frame_rows *a_rows, const uint8_t *a, size_t a_length, const v_frame_rows *b_rows,
                                   const uint8_t *b, size_t b_length, v_frame_sum *sum);
uint32_t v_frame_squared_errors_u16(const v_frame_rows *a_rows, const uint16_t *a, size_t a_length, const v_frame_rows *b_rows,
                                    const uint16_t *b, size_t b_length, v_frame_sum *sum);

/** Sums the absolute differences of two pictures of one size. */
uint32_t v_frame_absolute_differences_u8(const v_frame_rows *a_rows, const uint8_t *a, size_t a_length,
                                         const v_frame_rows *b_rows, const uint8_t *b, size_t b_length, v_frame_sum *sum);
uint32_t v_frame_absolute_differences_u16(const v_frame_rows *a_rows, const uint16_t *a, size_t a_length,
                                          const v_frame_rows *b_rows, const uint16_t *b, size_t b_length, v_frame_sum *sum);

/** Finds the first pixel, row after row from the top, that differs in two pictures of one size. */
uint32_t v_frame_first_difference_u8(const v_frame_rows *a_rows, const uint8_t *a, size_t a_length, const v_frame_rows *b_rows,
                                     const uint8_t *b, size_t b_length, v_frame_place *place);
uint32_t v_frame_first_difference_u16(const v_frame_rows *a_rows, const uint16_t *a, size_t a_length,
                                      const v_frame_rows *b_rows, const uint16_t *b, size_t b_length, v_frame_place *place);

/** Sets each pixel of the rows to `pixel`. */
uint32_t v_frame_fill_u8(const v_frame_rows *rows, uint8_t *buffer, size_t length, uint8_t pixel);
uint32_t v_frame_fill_u16(const v_frame_rows *rows, uint16_t *buffer, size_t length, uint16_t pixel);

/** Copies the source to the rows of the buffer, which have its size. To copy a part of a picture, pass a pointer to its first pixel
 * and the stride of the picture. */
uint32_t v_frame_copy_u8(const v_frame_rows *rows, uint8_t *buffer, size_t length, const v_frame_rows *source_rows,
                         const uint8_t *source, size_t source_length);
uint32_t v_frame_copy_u16(const v_frame_rows *rows, uint16_t *buffer, size_t length, const v_frame_rows *source_rows,
                          const uint16_t *source, size_t source_length);

/** Copies the source to the rows of the buffer with its first pixel at column `x` of row `y`. Both may be negative or past the edge.
 * Pixels outside of the rows are left out. The sizes may differ. */
uint32_t v_frame_copy_clipped_u8(const v_frame_rows *rows, uint8_t *buffer, size_t length, const v_frame_rows *source_rows,
                                 const uint8_t *source, size_t source_length, ptrdiff_t x, ptrdiff_t y);
uint32_t v_frame_copy_clipped_u16(const v_frame_rows *rows, uint16_t *buffer, size_t length, const v_frame_rows *source_rows,
                                  const uint16_t *source, size_t source_length, ptrdiff_t x, ptrdiff_t y);

/** Writes the source in half its size: each pixel is the mean of a block of two by two pixels, rounded to the nearest value, and
 * upwards at a half. The source is exactly twice as wide and twice as high as the rows. */
uint32_t v_frame_downscale_u8(const v_frame_rows *rows, uint8_t *buffer, size_t length, const v_frame_rows *source_rows,
                              const uint8_t *source, size_t source_length);
uint32_t v_frame_downscale_u16(const v_frame_rows *rows, uint16_t *buffer, size_t length, const v_frame_rows *source_rows,
                               const uint16_t *source, size_t source_length);

/** Decodes little-endian pixels of two bytes, as raw video files have them, on machines of any byte order. The rows of the source
 * count bytes: their number is that of the rows of the buffer, and they are twice as wide. */
uint32_t v_frame_decode_u16(const v_frame_rows *rows, uint16_t *buffer, size_t length, const v_frame_rows *source_rows,
                            const uint8_t *source, size_t source_length);

/** Encodes pixels as two little-endian bytes each. The rows of the buffer count bytes: their number is that of the rows of the
 * source, and they are twice as wide. */
uint32_t v_frame_encode_u16(const v_frame_rows *rows, uint8_t *buffer, size_t length, const v_frame_rows *source_rows,
                            const uint16_t *source, size_t source_length);

/** Blends the source over the rows of the buffer, which have its size: a pixel p of the buffer becomes
 * (p * (256 - weight) + q * weight + 128) / 256, where q is the pixel of the source. Returns V_FRAME_NUMBER if the weight is above
 * 256. */
uint32_t v_frame_blend_u8(const v_frame_rows *rows, uint8_t *buffer, size_t length, const v_frame_rows *source_rows,
                          const uint8_t *source, size_t source_length, uint16_t weight);
uint32_t v_frame_blend_u16(const v_frame_rows *rows, uint16_t *buffer, size_t length, const v_frame_rows *source_rows,
                           const uint16_t *source, size_t source_length, uint16_t weight);

/** Blends the source over the rows of the buffer with a weight of 0 to 255 for each pixel, which is that of the mask: a pixel p of
 * the buffer becomes (p * (255 - weight) + q * weight + 127) / 255, where q is the pixel of the source. All three have one size. */
uint32_t v_frame_blend_with_mask_u8(const v_frame_rows *rows, uint8_t *buffer, size_t length, const v_frame_rows *source_rows,
                                    const uint8_t *source, size_t source_length, const v_frame_rows *mask_rows,
                                    const uint8_t *mask, size_t mask_length);
uint32_t v_frame_blend_with_mask_u16(const v_frame_rows *rows, uint16_t *buffer, size_t length, const v_frame_rows *source_rows,
                                     const uint16_t *source, size_t source_length, const v_frame_rows *mask_rows,
                                     const uint8_t *mask, size_t mask_length);

/** Replaces each pixel of the buffer by its absolute difference from the pixel of the source, which has its size, times `gain`, but at
 * most by 2^depth - 1. Returns V_FRAME_NUMBER if the depth is below 8 or above the bits of the type. */
uint32_t v_frame_difference_u8(const v_frame_rows *rows, uint8_t *buffer, size_t length, const v_frame_rows *source_rows,
                               const uint8_t *source, size_t source_length, uint16_t gain, uint32_t depth);
uint32_t v_frame_difference_u16(const v_frame_rows *rows, uint16_t *buffer, size_t length, const v_frame_rows *source_rows,
                                const uint16_t *source, size_t source_length, uint16_t gain, uint32_t depth);

/** Writes the source turned in a way of enum v_frame_turn. The rows of the buffer have the size of the source; from V_FRAME_TRANSPOSE
 * on, their width is its height and their height its width. Returns V_FRAME_NUMBER if `turn` is not a number of the enum. */
uint32_t v_frame_turn_u8(const v_frame_rows *rows, uint8_t *buffer, size_t length, const v_frame_rows *source_rows,
                         const uint8_t *source, size_t source_length, uint32_t turn);
uint32_t v_frame_turn_u16(const v_frame_rows *rows, uint16_t *buffer, size_t length, const v_frame_rows *source_rows,
                          const uint16_t *source, size_t source_length, uint32_t turn);

/** Converts the pixels of the source, which has the size of the rows, from `from` bits to `to` bits. To more bits a value is shifted.
 * To fewer bits it is rounded to the nearest value, and upwards at a half, but not above the largest value of `to` bits. A value above
 * the largest value of `from` bits counts as the largest. Returns V_FRAME_NUMBER if a depth is below 8 or above the bits of its
 * type. */
uint32_t v_frame_convert_depth_u8_u16(const v_frame_rows *rows, uint16_t *buffer, size_t length, const v_frame_rows *source_rows,
                                      const uint8_t *source, size_t source_length, uint32_t from, uint32_t to);
uint32_t v_frame_convert_depth_u16_u8(const v_frame_rows *rows, uint8_t *buffer, size_t length, const v_frame_rows *source_rows,
                                      const uint16_t *source, size_t source_length, uint32_t from, uint32_t to);
uint32_t v_frame_convert_depth_u16_u16(const v_frame_rows *rows, uint16_t *buffer, size_t length, const v_frame_rows *source_rows,
                                       const uint16_t *source, size_t source_length, uint32_t from, uint32_t to);

/** Repeats each pixel of the source `ratio_x` times across and `ratio_y` times down, which brings chroma to the size of luma. The width
 * of the source is that of the rows divided by `ratio_x`, rounded up, and its height that of the rows divided by `ratio_y`, rounded
 * up. Returns V_FRAME_NUMBER if a ratio is 0. */
uint32_t v_frame_upscale_u8(const v_frame_rows *rows, uint8_t *buffer, size_t length, const v_frame_rows *source_rows,
                            const uint8_t *source, size_t source_length, size_t ratio_x, size_t ratio_y);
uint32_t v_frame_upscale_u16(const v_frame_rows *rows, uint16_t *buffer, size_t length, const v_frame_rows *source_rows,
                             const uint16_t *source, size_t source_length, size_t ratio_x, size_t ratio_y);

/** Writes the source in half its size, rounded up, which makes chroma of 4:2:0 from chroma of 4:4:4. Each pixel is the mean of a block
 * of two by two pixels, rounded to the nearest value, and upwards at a half. Past an edge the last column and the last row are
 * repeated. For even sizes the result is that of v_frame_downscale. */
uint32_t v_frame_downscale_to_edge_u8(const v_frame_rows *rows, uint8_t *buffer, size_t length, const v_frame_rows *source_rows,
                                      const uint8_t *source, size_t source_length);
uint32_t v_frame_downscale_to_edge_u16(const v_frame_rows *rows, uint16_t *buffer, size_t length, const v_frame_rows *source_rows,
                                       const uint16_t *source, size_t source_length);

/** Writes the source in half its width, rounded up, which makes chroma of 4:2:2 from chroma of 4:4:4. Each pixel is the mean of two
 * pixels of a row, rounded upwards at a half. The rows of the buffer have the height of the source. */
uint32_t v_frame_halve_columns_u8(const v_frame_rows *rows, uint8_t *buffer, size_t length, const v_frame_rows *source_rows,
                                  const uint8_t *source, size_t source_length);
uint32_t v_frame_halve_columns_u16(const v_frame_rows *rows, uint16_t *buffer, size_t length, const v_frame_rows *source_rows,
                                   const uint16_t *source, size_t source_length);

/** Resizes the source to the size of the rows by a box filter: each pixel is the exact mean of the area that it covers, rounded to the
 * nearest value, and upwards at a half. Returns V_FRAME_SIZES if the source has more than 2^48 pixels, or if the product of the two
 * widths or of the two heights does not fit 64 bits. */
uint32_t v_frame_resize_area_u8(const v_frame_rows *rows, uint8_t *buffer, size_t length, const v_frame_rows *source_rows,
                                const uint8_t *source, size_t source_length);
uint32_t v_frame_resize_area_u16(const v_frame_rows *rows, uint16_t *buffer, size_t length, const v_frame_rows *source_rows,
                                 const uint16_t *source, size_t source_length);

/** Resizes the source to the size of the rows by the nearest neighbor: each pixel is the pixel of the source that contains its center.
 * If the center is between two pixels, it is the one to the right or below. Returns V_FRAME_SIZES if a width or a height is 2^62 or
 * more. */
uint32_t v_frame_resize_nearest_u8(const v_frame_rows *rows, uint8_t *buffer, size_t length, const v_frame_rows *source_rows,
                                   const uint8_t *source, size_t source_length);
uint32_t v_frame_resize_nearest_u16(const v_frame_rows *rows, uint16_t *buffer, size_t length, const v_frame_rows *source_rows,
                                    const uint16_t *source, size_t source_length);

/** Converts the source, which has the size of the rows, from the limited range of `depth` bits to the full range. In units of
 * 2^(depth - 8), luma from 16 to 235 becomes 0 to 2^depth - 1. Chroma keeps its middle, which is 128 units, and the 112 units on each
 * side become half of 2^depth - 1. A value is rounded to the nearest one, and upwards at a half. A value outside of the limited range
 * becomes the least or the greatest. Returns V_FRAME_NUMBER if `component` is not a number of enum v_frame_component, or if the depth is
 * below 8 or above the bits of the type. */
uint32_t v_frame_to_full_range_u8(const v_frame_rows *rows, uint8_t *buffer, size_t length, const v_frame_rows *source_rows,
                                  const uint8_t *source, size_t source_length, uint32_t component, uint32_t depth);
uint32_t v_frame_to_full_range_u16(const v_frame_rows *rows, uint16_t *buffer, size_t length, const v_frame_rows *source_rows,
                                   const uint16_t *source, size_t source_length, uint32_t component, uint32_t depth);

/** Converts the source, which has the size of the rows, from the full range of `depth` bits to the limited range: the inverse of
 * v_frame_to_full_range, apart from rounding. A value above 2^depth - 1 counts as 2^depth - 1. */
uint32_t v_frame_to_limited_range_u8(const v_frame_rows *rows, uint8_t *buffer, size_t length, const v_frame_rows *source_rows,
                                     const uint8_t *source, size_t source_length, uint32_t component, uint32_t depth);
uint32_t v_frame_to_limited_range_u16(const v_frame_rows *rows, uint16_t *buffer, size_t length, const v_frame_rows *source_rows,
                                      const uint16_t *source, size_t source_length, uint32_t component, uint32_t depth);

/** Interleaves the pixels of u and v, two pictures of one size, as NV12 and P010 store chroma. The rows of the buffer have the height of
 * u and v and twice their width. */
uint32_t v_frame_interleave_u8(const v_frame_rows *rows, uint8_t *buffer, size_t length, const v_frame_rows *u_rows,
                               const uint8_t *u, size_t u_length, const v_frame_rows *v_rows, const uint8_t *v, size_t v_length);
uint32_t v_frame_interleave_u16(const v_frame_rows *rows, uint16_t *buffer, size_t length, const v_frame_rows *u_rows,
                                const uint16_t *u, size_t u_length, const v_frame_rows *v_rows, const uint16_t *v,
                                size_t v_length);

/** Separates the interleaved pixels of the buffer into u and v, two pictures of one size: the inverse of v_frame_interleave. The rows
 * of the buffer have their height and twice their width. */
uint32_t v_frame_deinterleave_u8(const v_frame_rows *rows, const uint8_t *buffer, size_t length, const v_frame_rows *u_rows,
                                 uint8_t *u, size_t u_length, const v_frame_rows *v_rows, uint8_t *v, size_t v_length);
uint32_t v_frame_deinterleave_u16(const v_frame_rows *rows, const uint16_t *buffer, size_t length, const v_frame_rows *u_rows,
                                  uint16_t *u, size_t u_length, const v_frame_rows *v_rows, uint16_t *v, size_t v_length);

/** Converts the three planes of a frame to luma and interleaved chroma: to NV12 from V_FRAME_420, to NV16 from V_FRAME_422, and to NV24
 * from V_FRAME_444. With V in place of U and U in place of V it makes NV21. Returns V_FRAME_FORMAT for any other format. Source and
 * target of luma have one size, u and v have the size of chroma that covers luma, and the rows of `uv` are twice as wide as u. */
uint32_t v_frame_to_semi_planar_u8(const v_frame_rows *y_rows, uint8_t *y, size_t y_length, const v_frame_rows *uv_rows, uint8_t *uv,
                                   size_t uv_length, const v_frame_rows *source_rows, const uint8_t *source, size_t source_length,
                                   const v_frame_rows *u_rows, const uint8_t *u, size_t u_length, const v_frame_rows *v_rows,
                                   const uint8_t *v, size_t v_length, uint32_t format);
uint32_t v_frame_to_semi_planar_u16(const v_frame_rows *y_rows, uint16_t *y, size_t y_length, const v_frame_rows *uv_rows,
                                    uint16_t *uv, size_t uv_length, const v_frame_rows *source_rows, const uint16_t *source,
                                    size_t source_length, const v_frame_rows *u_rows, const uint16_t *u, size_t u_length,
                                    const v_frame_rows *v_rows, const uint16_t *v, size_t v_length, uint32_t format);

/** Converts luma and interleaved chroma to the three planes of a frame: the inverse of v_frame_to_semi_planar. */
uint32_t v_frame_from_semi_planar_u8(const v_frame_rows *y_rows, uint8_t *y, size_t y_length, const v_frame_rows *u_rows, uint8_t *u,
                                     size_t u_length, const v_frame_rows *v_rows, uint8_t *v, size_t v_length,
                                     const v_frame_rows *source_rows, const uint8_t *source, size_t source_length,
                                     const v_frame_rows *uv_rows, const uint8_t *uv, size_t uv_length, uint32_t format);
uint32_t v_frame_from_semi_planar_u16(const v_frame_rows *y_rows, uint16_t *y, size_t y_length, const v_frame_rows *u_rows,
                                      uint16_t *u, size_t u_length, const v_frame_rows *v_rows, uint16_t *v, size_t v_length,
                                      const v_frame_rows *source_rows, const uint16_t *source, size_t source_length,
                                      const v_frame_rows *uv_rows, const uint16_t *uv, size_t uv_length, uint32_t format);

/** Converts three planes whose samples have `depth` bits to luma and interleaved chroma with the samples in the top bits of their
 * words: to P010, P012 and P016 from V_FRAME_420, to P210 from V_FRAME_422, and to P410 from V_FRAME_444. A sample is multiplied by
 * 2^(16 - depth). Bits above the depth are lost: 1024 at 10 bits becomes 0. To make such samples the largest value, call
 * v_frame_convert_depth_u16_u16 with `depth` as both depths first. Otherwise the call is as v_frame_to_semi_planar_u16. Returns
 * V_FRAME_NUMBER unless the depth is 8 to 16. */
uint32_t v_frame_to_semi_planar_top_bits_u16(const v_frame_rows *y_rows, uint16_t *y, size_t y_length, const v_frame_rows *uv_rows,
                                             uint16_t *uv, size_t uv_length, const v_frame_rows *source_rows, const uint16_t *source,
                                             size_t source_length, const v_frame_rows *u_rows, const uint16_t *u, size_t u_length,
                                             const v_frame_rows *v_rows, const uint16_t *v, size_t v_length, uint32_t format,
                                             uint32_t depth);

/** Converts luma and interleaved chroma whose samples are in the top bits of their words to the three planes of a frame. A word is
 * divided by 2^(16 - depth), rounded down. */
uint32_t v_frame_from_semi_planar_top_bits_u16(const v_frame_rows *y_rows, uint16_t *y, size_t y_length, const v_frame_rows *u_rows,
                                               uint16_t *u, size_t u_length, const v_frame_rows *v_rows, uint16_t *v,
                                               size_t v_length, const v_frame_rows *source_rows, const uint16_t *source,
                                               size_t source_length, const v_frame_rows *uv_rows, const uint16_t *uv,
                                               size_t uv_length, uint32_t format, uint32_t depth);

/** Converts three pictures of one size, Y', Cb and Cr of 8 bits, to colors. Each byte is computed with integer coefficients and rounded
 * to the nearest value; before rounding it is within 1/100 of the value of the standard's formula. The rows of the buffer count bytes,
 * three or four for each pixel. Returns V_FRAME_NUMBER if a number of `colors` is not one of its enum. */
uint32_t v_frame_yuv444_to_rgb_u8(const v_frame_rows *rows, uint8_t *buffer, size_t length, const v_frame_rows *y_rows,
                                  const uint8_t *y, size_t y_length, const v_frame_rows *u_rows, const uint8_t *u, size_t u_length,
                                  const v_frame_rows *v_rows, const uint8_t *v, size_t v_length, const v_frame_colors *colors);

/** Converts the colors of the buffer to three pictures of one size, Y', Cb and Cr of 8 bits: the inverse of v_frame_yuv444_to_rgb_u8,
 * apart from rounding. The rows of the buffer count bytes, three or four for each pixel; a fourth byte is not read. Returns
 * V_FRAME_NUMBER if a number of `colors` is not one of its enum. */
uint32_t v_frame_rgb_to_yuv444_u8(const v_frame_rows *rows, const uint8_t *buffer, size_t length, const v_frame_rows *y_rows,
                                  uint8_t *y, size_t y_length, const v_frame_rows *u_rows, uint8_t *u, size_t u_length,
                                  const v_frame_rows *v_rows, uint8_t *v, size_t v_length, const v_frame_colors *colors);

/** Counts and sums the pixels of a picture, sums their squares, and finds the least and the greatest value. */
uint32_t v_frame_statistics_u8(const v_frame_rows *rows, const uint8_t *buffer, size_t length, v_frame_statistics *found);
uint32_t v_frame_statistics_u16(const v_frame_rows *rows, const uint16_t *buffer, size_t length, v_frame_statistics *found);

/** Sums the pixels of two pictures of one size, their squares, and the products of the pixels at the same place. */
uint32_t v_frame_pair_statistics_u8(const v_frame_rows *a_rows, const uint8_t *a, size_t a_length, const v_frame_rows *b_rows,
                                    const uint8_t *b, size_t b_length, v_frame_pair_statistics *found);
uint32_t v_frame_pair_statistics_u16(const v_frame_rows *a_rows, const uint16_t *a, size_t a_length, const v_frame_rows *b_rows,
                                     const uint16_t *b, size_t b_length, v_frame_pair_statistics *found);

/** Measures the mean squared error of two pictures of one size: the sum of the squares of their differences divided by the number of
 * pixels, each rounded to a double. */
uint32_t v_frame_mean_squared_error_u8(const v_frame_rows *a_rows, const uint8_t *a, size_t a_length, const v_frame_rows *b_rows,
                                       const uint8_t *b, size_t b_length, double *error);
uint32_t v_frame_mean_squared_error_u16(const v_frame_rows *a_rows, const uint16_t *a, size_t a_length,
                                        const v_frame_rows *b_rows, const uint16_t *b, size_t b_length, double *error);

/** Measures the peak signal-to-noise ratio of two pictures of one size in decibels: 10 * log10(peak * peak / error), where peak is
 * 2^depth - 1 and error is the result of v_frame_mean_squared_error. It is infinite if the pictures are the same. The depth is 8, or
 * `bit_depth`, which is 8 to 16; any other depth gives V_FRAME_NUMBER. The error is proved; the logarithm is that of the C library. */
uint32_t v_frame_psnr_u8(const v_frame_rows *a_rows, const uint8_t *a, size_t a_length, const v_frame_rows *b_rows,
                         const uint8_t *b, size_t b_length, double *decibels);
uint32_t v_frame_psnr_u16(const v_frame_rows *a_rows, const uint16_t *a, size_t a_length, const v_frame_rows *b_rows,
                          const uint16_t *b, size_t b_length, uint32_t bit_depth, double *decibels);

/** Measures the structural similarity (SSIM) of two pictures of one size, with the digits of FFmpeg's filter for a plane in C: the mean
 * over windows of 8 by 8 pixels at every fourth column and row. The depth is 8, or `bit_depth`; returns V_FRAME_NUMBER unless
 * `bit_depth` is 8 to 16. Returns V_FRAME_WINDOWS if the width or the height is below 8, which is tested last. */
uint32_t v_frame_ssim_u8(const v_frame_rows *a_rows, const uint8_t *a, size_t a_length, const v_frame_rows *b_rows,
                         const uint8_t *b, size_t b_length, double *similarity);
uint32_t v_frame_ssim_u16(const v_frame_rows *a_rows, const uint16_t *a, size_t a_length, const v_frame_rows *b_rows,
                          const uint16_t *b, size_t b_length, uint32_t bit_depth, double *similarity);

/** Finds the greatest absolute difference of the pixels of two pictures of one size, and the first place that has it. */
uint32_t v_frame_greatest_difference_u8(const v_frame_rows *a_rows, const uint8_t *a, size_t a_length, const v_frame_rows *b_rows,
                                        const uint8_t *b, size_t b_length, v_frame_greatest *found);
uint32_t v_frame_greatest_difference_u16(const v_frame_rows *a_rows, const uint16_t *a, size_t a_length,
                                         const v_frame_rows *b_rows, const uint16_t *b, size_t b_length, v_frame_greatest *found);

/** Counts the places at which the pixels of two pictures of one size differ by more than `threshold`. */
uint32_t v_frame_count_above_u8(const v_frame_rows *a_rows, const uint8_t *a, size_t a_length, const v_frame_rows *b_rows,
                                const uint8_t *b, size_t b_length, uint16_t threshold, uint64_t *count);
uint32_t v_frame_count_above_u16(const v_frame_rows *a_rows, const uint16_t *a, size_t a_length, const v_frame_rows *b_rows,
                                 const uint16_t *b, size_t b_length, uint16_t threshold, uint64_t *count);

/** Counts the pixels of a picture with a value from `least` to `greatest`. The count is 0 if `least` is above `greatest`. */
uint32_t v_frame_count_between_u8(const v_frame_rows *rows, const uint8_t *buffer, size_t length, uint8_t least, uint8_t greatest,
                                  uint64_t *count);
uint32_t v_frame_count_between_u16(const v_frame_rows *rows, const uint16_t *buffer, size_t length, uint16_t least,
                                   uint16_t greatest, uint64_t *count);

/** Sets entry v of `counts` to the number of pixels of a picture with the value v. For pixels of 8 bits there are exactly 256 entries;
 * otherwise the status is V_FRAME_SIZES. For pixels of 16 bits there may be any number of entries, as 2^depth, and a pixel whose value
 * has no entry is not counted. */
uint32_t v_frame_histogram_u8(const v_frame_rows *rows, const uint8_t *buffer, size_t length, uint64_t *counts,
                              size_t counts_length);
uint32_t v_frame_histogram_u16(const v_frame_rows *rows, const uint16_t *buffer, size_t length, uint64_t *counts,
                               size_t counts_length);

/** Sets each entry of the border to the nearest pixel of the picture. The picture and all entries after the border are unchanged.
 * Returns V_FRAME_FIRST_ROWS if a size is 0, or if the picture and its border have more entries than the buffer. */
uint32_t v_frame_pad_u8(const v_frame_bordered *layout, uint8_t *buffer, size_t length);
uint32_t v_frame_pad_u16(const v_frame_bordered *layout, uint16_t *buffer, size_t length);

/** Lays out the planes of a frame in one buffer. Chroma has as many columns and rows as cover luma. Its padding is that of the request
 * divided by the ratio of the format, rounded up; the padding of luma is the padding of chroma times the ratio. Returns
 * V_FRAME_FIRST_ROWS if a size is 0, or if a plane has 2^62 entries or more. No two planes overlap. */
uint32_t v_frame_lay_out(const v_frame_request *request, v_frame_parts *parts);

/** Returns the rows of a picture in a border. The first row begins at index v_frame_bordered_start. */
static inline v_frame_rows v_frame_bordered_rows(const v_frame_bordered *layout) {
    v_frame_rows rows;
    rows.width = layout->width;
    rows.height = layout->height;
    rows.stride = layout->pad_left + layout->width + layout->pad_right;
    return rows;
}

/** Returns the index of the first pixel of a picture in a border. */
static inline size_t v_frame_bordered_start(const v_frame_bordered *layout) {
    return layout->pad_top * (layout->pad_left + layout->width + layout->pad_right) + layout->pad_left;
}

/** Returns rows of a width and a height whose stride is the width. */
static inline v_frame_rows v_frame_rows_packed(size_t width, size_t height) {
    v_frame_rows rows;
    rows.width = width;
    rows.height = height;
    rows.stride = width;
    return rows;
}

/** Returns rows with a stride in bytes, as decoders have them. If the stride is negative, or is not a whole number of entries, the rows
 * fit no buffer, so that each call rejects them. */
static inline v_frame_rows v_frame_rows_of_bytes(size_t width, size_t height, ptrdiff_t stride_in_bytes, size_t entry_size) {
    v_frame_rows rows;
    rows.width = width;
    rows.height = height;
    rows.stride = stride_in_bytes > 0 && entry_size > 0 && (size_t)stride_in_bytes % entry_size == 0
                      ? (size_t)stride_in_bytes / entry_size
                      : 0;
    return rows;
}

/** Returns the number of entries up to the end of the last row, which is the least length of a buffer, or 0 if the rows fit no buffer. */
static inline size_t v_frame_rows_length(const v_frame_rows *rows) {
    if (rows->width == 0 || rows->height == 0 || rows->stride < rows->width ||
        rows->height - 1 > (SIZE_MAX - rows->width) / rows->stride) {
        return 0;
    }
    return rows->stride * (rows->height - 1) + rows->width;
}

#ifdef __cplusplus
}
#endif

#endif
