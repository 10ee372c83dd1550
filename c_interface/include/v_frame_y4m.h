/**
 * @file v_frame_y4m.h
 * v_frame_y4m: reads and writes a YUV4MPEG2 stream that is held or mapped in memory, by calls made from proved sources.
 *
 * A stream is a header line and its frames. Each frame is a line and the planes Y, U and V without gaps. The line is FRAME, or FRAME
 * followed by a space and any text. A sample has one byte at a depth of 8 bits and otherwise two bytes, the low byte first. If a
 * size is odd, the size of chroma is rounded up. A program reads a stream with these calls:
 *
 *     v_frame_y4m_first_line(bytes, size, &line);                                    the header line, with its line feed
 *     v_frame_y4m_parse_header(bytes, line - 1, &header, &letter, &is_lax);
 *     v_frame_y4m_extensions(bytes, line - 1, extensions, sizeof extensions, &length);    what the header struct does not hold
 *     v_frame_y4m_frame_bytes(&header, &frame);                                      the number of bytes of a frame after its line
 *     v_frame_y4m_frame_line(bytes + line, size - line, &line, &is_lax);             for each frame; its bytes follow the line
 *
 * To write a stream with the same properties, call v_frame_y4m_write_header with the header and the extensions.
 *
 * The contract of each call is that of the function with the same name in crates/v_frame_y4m_c. It says which status the call
 * returns and what it writes. If the status is not V_FRAME_Y4M_OK, the results are unchanged unless a comment below says otherwise.
 * Calls that take a header or a header line take memory by malloc while they run.
 *
 * Pointers. A pointer that is null, or is not aligned for its type, gives V_FRAME_Y4M_POINTER. If a length is 0, the pointer beside
 * it may be null. The caller promises that a pointer points to as many bytes as the length beside it says, and that the results
 * overlap nothing else that the call is given.
 *
 * Threads. The library has no state and keeps no pointer after a call returns. Any number of threads may call it at the same time,
 * and they may read the same bytes. While a call writes a buffer or a result, no other thread may read or write it.
 */
#ifndef V_FRAME_Y4M_H
#define V_FRAME_Y4M_H

#include <stddef.h>
#include <stdint.h>

#ifdef __cplusplus
extern "C" {
#endif

/** The status of a call. */
enum v_frame_y4m_status {
    /** The call has succeeded. */
    V_FRAME_Y4M_OK = 0,
    /** The line does not begin with YUV4MPEG2. */
    V_FRAME_Y4M_NOT_A_STREAM = 1,
    /** The parameter W or H is missing. */
    V_FRAME_Y4M_MISSING = 2,
    /** A parameter is repeated that may occur only once. */
    V_FRAME_Y4M_DUPLICATE = 3,
    /** A parameter has an unknown letter, or its text is not one that the letter allows. */
    V_FRAME_Y4M_MALFORMED = 4,
    /** The width or the height is 0. */
    V_FRAME_Y4M_ZERO_SIZE = 5,
    /** The width or the height is above 2^64 - 1. From v_frame_y4m_frame_bytes: a frame has more than SIZE_MAX bytes. */
    V_FRAME_Y4M_SIZE_TOO_LARGE = 6,
    /** The color of the line is unknown. From calls that take a header: no color has this format, bit depth and siting. */
    V_FRAME_Y4M_UNKNOWN_COLOR = 7,
    /** malloc returned no memory. */
    V_FRAME_Y4M_OUT_OF_MEMORY = 8,
    /** A number of the header is not one of its enum, or a ratio that is not stated has numbers other than 0. */
    V_FRAME_Y4M_NO_SUCH_NUMBER = 9,
    /** The buffer is shorter than the text. */
    V_FRAME_Y4M_SHORT_BUFFER = 10,
    /** There is no line feed among the bytes. */
    V_FRAME_Y4M_UNFINISHED_LINE = 11,
    /** There is no line feed among the first 1025 bytes. */
    V_FRAME_Y4M_LINE_TOO_LONG = 12,
    /** The line is not one that begins a frame. */
    V_FRAME_Y4M_NO_FRAME = 13,
    /** A pointer is null or is not aligned for its type, or a length is too large for any object in memory. */
    V_FRAME_Y4M_POINTER = 14,
    /** The text of the extensions states something other than extensions. */
    V_FRAME_Y4M_NOT_EXTENSIONS = 15,
    /** The extensions state another range than the header. */
    V_FRAME_Y4M_OTHER_RANGE = 16
};

/** Chroma formats. The numbers are those of enum v_frame_format. */
enum v_frame_y4m_format {
    V_FRAME_Y4M_MONOCHROME = 0,
    V_FRAME_Y4M_420 = 1,
    V_FRAME_Y4M_422 = 2,
    V_FRAME_Y4M_444 = 3,
    V_FRAME_Y4M_411 = 4
};

/** Where the chroma samples of 8-bit 4:2:0 lie: as in JPEG, in MPEG-2, or in PAL DV. */
enum v_frame_y4m_siting {
    V_FRAME_Y4M_NO_SITING = 0,
    V_FRAME_Y4M_CENTER = 1,
    V_FRAME_Y4M_LEFT = 2,
    V_FRAME_Y4M_ALTERNATING = 3
};

/** How the rows of a frame are interlaced. */
enum v_frame_y4m_interlacing {
    V_FRAME_Y4M_NOT_STATED = 0,
    V_FRAME_Y4M_PROGRESSIVE = 1,
    V_FRAME_Y4M_TOP_FIRST = 2,
    V_FRAME_Y4M_BOTTOM_FIRST = 3,
    V_FRAME_Y4M_MIXED = 4,
    V_FRAME_Y4M_UNKNOWN = 5
};

/** The range of values, which the extension XCOLORRANGE=LIMITED or XCOLORRANGE=FULL states. */
enum v_frame_y4m_range {
    V_FRAME_Y4M_NO_RANGE = 0,
    V_FRAME_Y4M_LIMITED = 1,
    V_FRAME_Y4M_FULL = 2
};

/** A ratio. If it is not stated, all three numbers are 0; otherwise `stated` is 1. The ratio 0:0 is unknown. */
typedef struct v_frame_y4m_ratio {
    uint64_t numerator;
    uint64_t denominator;
    uint32_t stated;
} v_frame_y4m_ratio;

/** What a header line states: the width and the height in pixels, the frames per second, the ratio of the width of a pixel to its
 * height, and numbers of the enums above. The range is V_FRAME_Y4M_NO_RANGE if the line states none, or both. The other extensions
 * of a line, its parameters X, are not in the struct: v_frame_y4m_extensions writes them. */
typedef struct v_frame_y4m_header {
    size_t width;
    size_t height;
    v_frame_y4m_ratio frame_rate;
    v_frame_y4m_ratio pixel_aspect;
    uint32_t format;
    uint32_t bit_depth;
    uint32_t siting;
    uint32_t interlacing;
    uint32_t range;
} v_frame_y4m_header;

/** Returns the version of the loaded library as v_frame_version does. */
uint32_t v_frame_y4m_version(void);

/** Returns a description of a status in English, without a period. The text is static. */
const char *v_frame_y4m_status_text(uint32_t status);

/** Finds the length of the first line of the bytes, with its line feed. Returns V_FRAME_Y4M_UNFINISHED_LINE or
 * V_FRAME_Y4M_LINE_TOO_LONG if there is no line. */
uint32_t v_frame_y4m_first_line(const uint8_t *bytes, size_t size, size_t *length);

/** Finds the length of the line that begins a frame, with its line feed. `is_lax` becomes 1 if the line is FRAME and a carriage
 * return, and otherwise 0. Returns V_FRAME_Y4M_NO_FRAME if the first line is another one, and V_FRAME_Y4M_UNFINISHED_LINE or
 * V_FRAME_Y4M_LINE_TOO_LONG if there is no line. */
uint32_t v_frame_y4m_frame_line(const uint8_t *bytes, size_t size, size_t *length, uint32_t *is_lax);

/** Parses a header line without its line feed. A lax line is read as the strict line that it stands for: without a carriage return
 * at its end, with one space between two parameters and none at the end, and with F25:1 for F25. `is_lax` becomes 1 for a lax line,
 * and otherwise 0. `letter` becomes the letter of the parameter at fault with V_FRAME_Y4M_MISSING, V_FRAME_Y4M_DUPLICATE and
 * V_FRAME_Y4M_ZERO_SIZE, and otherwise 0. */
uint32_t v_frame_y4m_parse_header(const uint8_t *line, size_t length, v_frame_y4m_header *header, uint32_t *letter,
                                  uint32_t *is_lax);

/** Writes the extensions of a header line, all its parameters X, to the front of a buffer: each as it is in the line, after a space.
 * `needed` becomes the number of their bytes, also with V_FRAME_Y4M_SHORT_BUFFER, which leaves the buffer unchanged. A line that a
 * reader accepts has at most 1024 bytes, so 1024 bytes are always enough. The statuses of a line that is no header are those of
 * v_frame_y4m_parse_header. */
uint32_t v_frame_y4m_extensions(const uint8_t *line, size_t length, uint8_t *buffer, size_t size, size_t *needed);

/** Writes the line of a header with its line feed to the front of a buffer. `extensions` is a text as v_frame_y4m_extensions writes
 * it; with a length of 0 it may be null. If the header states a range and the extensions state none, XCOLORRANGE is written before
 * them. `needed` becomes the length of the line, also with V_FRAME_Y4M_SHORT_BUFFER, which leaves the buffer unchanged; the rest of
 * the buffer is unchanged. The status is the first of these that applies: V_FRAME_Y4M_ZERO_SIZE, V_FRAME_Y4M_NO_SUCH_NUMBER,
 * V_FRAME_Y4M_UNKNOWN_COLOR, V_FRAME_Y4M_NOT_EXTENSIONS, V_FRAME_Y4M_OTHER_RANGE, V_FRAME_Y4M_OUT_OF_MEMORY,
 * V_FRAME_Y4M_SHORT_BUFFER. A buffer of 256 bytes more than the extensions is always long enough. A header that was parsed has a
 * line. Centered chroma of 8-bit 4:2:0 is written as 420jpeg, as ffmpeg writes it. */
uint32_t v_frame_y4m_write_header(const v_frame_y4m_header *header, const uint8_t *extensions, size_t extensions_length,
                                  uint8_t *buffer, size_t size, size_t *needed);

/** Counts the bytes of a frame after its line. The status is the first of these that applies: V_FRAME_Y4M_ZERO_SIZE,
 * V_FRAME_Y4M_NO_SUCH_NUMBER, V_FRAME_Y4M_UNKNOWN_COLOR, V_FRAME_Y4M_SIZE_TOO_LARGE. */
uint32_t v_frame_y4m_frame_bytes(const v_frame_y4m_header *header, size_t *count);

/** Sets the format and the bit depth of a header. Only 8-bit 4:2:0 has a siting: v_frame_y4m_write_header rejects a siting with any
 * other format. This function therefore keeps the siting of 8-bit 4:2:0, makes it V_FRAME_Y4M_CENTER if there was none, and
 * removes it otherwise. An extension XYSCSS, which repeats the format, is not changed. */
static inline void v_frame_y4m_set_format(v_frame_y4m_header *header, uint32_t format, uint32_t bit_depth) {
    header->format = format;
    header->bit_depth = bit_depth;
    if (format != V_FRAME_Y4M_420 || bit_depth != 8) {
        header->siting = V_FRAME_Y4M_NO_SITING;
    } else if (header->siting == V_FRAME_Y4M_NO_SITING) {
        header->siting = V_FRAME_Y4M_CENTER;
    }
}

#ifdef __cplusplus
}
#endif

#endif
