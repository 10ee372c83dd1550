/*
 * Tests streams in memory in C: each status of each call, random headers that are written and parsed back, lines that are cut off at
 * each byte, and ranges and extensions. With -DREFUSING and -Wl,--wrap=malloc it also lets each request for memory fail in turn; the
 * status then says so, and the results are unchanged.
 */
#include "v_frame.h"
#include "v_frame_y4m.h"

#include <stddef.h>
#include <stdio.h>
#include <stdlib.h>
#include <string.h>

static unsigned long checks;

static void check(int holds, const char *what, int line) {
    checks++;
    if (!holds) {
        fprintf(stderr, "%s:%d: %s\n", __FILE__, line, what);
        exit(1);
    }
}

#define CHECK(condition) check((condition), #condition, __LINE__)

/* What the last line that was parsed or found was. */
static uint32_t is_lax;

static uint32_t parse(const char *text, v_frame_y4m_header *header, uint32_t *letter) {
    size_t length = strlen(text);
    uint8_t *line = malloc(length + (length == 0));
    CHECK(line != NULL);
    memcpy(line, text, length);
    memset(header, 9, sizeof *header);
    *letter = 9;
    is_lax = 9;
    uint32_t status = v_frame_y4m_parse_header(line, length, header, letter, &is_lax);
    free(line);
    CHECK(is_lax <= 1 && (status == V_FRAME_Y4M_OK || is_lax == 0));
    return status;
}

#ifdef REFUSING
void *__real_malloc(size_t size);
void *__wrap_malloc(size_t size);

static size_t granted = SIZE_MAX;

void *__wrap_malloc(size_t size) {
    if (granted == 0) {
        return NULL;
    }
    granted--;
    return __real_malloc(size);
}

static void refuse_each(void) {
    static const uint8_t line[] = "YUV4MPEG2 W1920 H1080 F30000:1001 It A1:1 C422p10 XA=1 XB=2";
    v_frame_y4m_header header, untouched;
    uint32_t letter = 9, status = V_FRAME_Y4M_OUT_OF_MEMORY;
    size_t refused = 0;
    memset(&untouched, 9, sizeof untouched);
    while (status != V_FRAME_Y4M_OK) {
        header = untouched;
        granted = refused;
        status = v_frame_y4m_parse_header(line, sizeof line - 1, &header, &letter, &is_lax);
        granted = SIZE_MAX;
        CHECK(status == V_FRAME_Y4M_OK || status == V_FRAME_Y4M_OUT_OF_MEMORY);
        CHECK(status == V_FRAME_Y4M_OK || memcmp(&header, &untouched, sizeof header) == 0);
        refused += status != V_FRAME_Y4M_OK;
    }
    CHECK(refused > 0);
    size_t of_parsing = refused, needed = 9;
    uint8_t buffer[128];
    memset(buffer, 9, sizeof buffer);
    for (refused = 0, status = V_FRAME_Y4M_OUT_OF_MEMORY; status != V_FRAME_Y4M_OK; refused++) {
        granted = refused;
        status = v_frame_y4m_write_header(&header, (const uint8_t *)" XA=1", 5, buffer, sizeof buffer, &needed);
        granted = SIZE_MAX;
        CHECK(status == V_FRAME_Y4M_OK || (status == V_FRAME_Y4M_OUT_OF_MEMORY && needed == 9 && buffer[0] == 9));
    }
    CHECK(refused > 1);
    memset(buffer, 9, sizeof buffer);
    for (refused = 0, needed = 9, status = V_FRAME_Y4M_OUT_OF_MEMORY; status != V_FRAME_Y4M_OK; refused++) {
        granted = refused;
        status = v_frame_y4m_extensions(line, sizeof line - 1, buffer, sizeof buffer, &needed);
        granted = SIZE_MAX;
        CHECK(status == V_FRAME_Y4M_OK || (status == V_FRAME_Y4M_OUT_OF_MEMORY && needed == 9 && buffer[0] == 9));
    }
    CHECK(refused > 1 && needed == 10 && memcmp(buffer, " XA=1 XB=2", 10) == 0);
    size_t bytes = 9;
    granted = 0;
    status = v_frame_y4m_frame_bytes(&header, &bytes);
    granted = SIZE_MAX;
    CHECK(status == V_FRAME_Y4M_OK && bytes == (size_t)1920 * 1080 * 4);
    printf("%zu requests for memory refused in turn\n", of_parsing + refused - 1);
}
#else
static void refuse_each(void) {}
#endif

/* The bytes have a block of their own, so that a read after the last one is found. */
static uint32_t find(uint32_t (*call)(const uint8_t *, size_t, size_t *), const void *bytes, size_t size, size_t *length) {
    uint8_t *block = malloc(size + (size == 0));
    CHECK(block != NULL);
    memcpy(block, bytes, size);
    *length = 9999;
    uint32_t status = call(block, size, length);
    free(block);
    CHECK(status == V_FRAME_Y4M_OK || *length == 9999);
    return status;
}

static uint32_t frame_line(const uint8_t *bytes, size_t size, size_t *length) {
    is_lax = 9;
    uint32_t status = v_frame_y4m_frame_line(bytes, size, length, &is_lax);
    CHECK(is_lax <= 1 && (status == V_FRAME_Y4M_OK || is_lax == 0));
    return status;
}

static void find_lines(void) {
    static const char stream[] = "FRAME Ip\nFRAME\n";
    size_t length;
    for (size_t size = 0; size < sizeof stream; size++) {
        uint32_t wanted = size < 9 ? V_FRAME_Y4M_UNFINISHED_LINE : V_FRAME_Y4M_OK;
        CHECK(find(v_frame_y4m_first_line, stream, size, &length) == wanted && (size < 9 || length == 9));
        CHECK(find(frame_line, stream, size, &length) == wanted && (size < 9 || length == 9));
    }
    CHECK(find(frame_line, "FRAME\n\n", 7, &length) == V_FRAME_Y4M_OK && length == 6);
    static const char *const others[] = {"\n", "FRAM\n", "FRAMES\n", "frame\n", " FRAME\n", "FRAME\r\r\n", "FRAMEX\r\n"};
    for (size_t i = 0; i < sizeof others / sizeof others[0]; i++) {
        CHECK(find(frame_line, others[i], strlen(others[i]), &length) == V_FRAME_Y4M_NO_FRAME);
        CHECK(find(v_frame_y4m_first_line, others[i], strlen(others[i]), &length) == V_FRAME_Y4M_OK);
        CHECK(length == strlen(others[i]));
    }
    static const char *const lax[] = {"FRAME\r\n", "FRAME Ip\r\n", "FRAME  \r\n"};
    for (size_t i = 0; i < sizeof lax / sizeof lax[0]; i++) {
        CHECK(find(frame_line, lax[i], strlen(lax[i]), &length) == V_FRAME_Y4M_OK && length == strlen(lax[i]));
        CHECK(is_lax == (i == 0));
    }
    /* A line may have 1024 bytes; a line feed further on is not looked for. */
    char line[2048];
    memset(line, ' ', sizeof line);
    memcpy(line, "FRAME", 5);
    for (size_t feed = 1020; feed < 1030; feed++) {
        line[feed] = '\n';
        for (size_t size = feed - 3; size < feed + 3; size++) {
            uint32_t wanted = feed < size && feed <= 1024 ? V_FRAME_Y4M_OK
                              : size > 1024               ? V_FRAME_Y4M_LINE_TOO_LONG
                                                          : V_FRAME_Y4M_UNFINISHED_LINE;
            CHECK(find(frame_line, line, size, &length) == wanted);
            CHECK(wanted != V_FRAME_Y4M_OK || length == feed + 1);
            CHECK(find(v_frame_y4m_first_line, line, size, &length) == wanted);
        }
        line[feed] = ' ';
    }
}

static uint64_t state = 2026;

static uint64_t random_below(uint64_t bound) {
    state = state * 6364136223846793005u + 1442695040888963407u;
    return (state >> 33) % bound;
}

static uint64_t random_number(void) {
    uint64_t high = random_below(1u << 31);
    return (high << 33 | random_below(1u << 31) << 2 | 1) >> random_below(64);
}

static v_frame_y4m_ratio random_ratio(void) {
    v_frame_y4m_ratio ratio = {0, 0, 0};
    if (random_below(2) == 1) {
        ratio.numerator = random_number();
        ratio.denominator = random_number();
        ratio.stated = 1;
    }
    return ratio;
}

static v_frame_y4m_header random_header(void) {
    static const uint32_t depths[] = {8, 9, 10, 12, 14, 16};
    v_frame_y4m_header header;
    memset(&header, 0, sizeof header);
    header.width = random_number() | 1;
    header.height = random_number() | 1;
    header.frame_rate = random_ratio();
    header.pixel_aspect = random_ratio();
    header.format = (uint32_t)random_below(5);
    header.bit_depth = header.format == V_FRAME_Y4M_411 ? 8 : depths[random_below(6)];
    header.siting = header.format == V_FRAME_Y4M_420 && header.bit_depth == 8 ? 1 + (uint32_t)random_below(3) : 0;
    header.interlacing = (uint32_t)random_below(6);
    header.range = (uint32_t)random_below(3);
    return header;
}

static int same_ratio(const v_frame_y4m_ratio *a, const v_frame_y4m_ratio *b) {
    return a->numerator == b->numerator && a->denominator == b->denominator && a->stated == b->stated;
}

static int same_header(const v_frame_y4m_header *a, const v_frame_y4m_header *b) {
    return a->width == b->width && a->height == b->height && same_ratio(&a->frame_rate, &b->frame_rate) &&
           same_ratio(&a->pixel_aspect, &b->pixel_aspect) && a->format == b->format && a->bit_depth == b->bit_depth &&
           a->siting == b->siting && a->interlacing == b->interlacing && a->range == b->range;
}

/* Writes a header into a block of this size, and sees that all after its line, and all where it is refused, is as it was. */
static uint32_t write_with(const v_frame_y4m_header *header, const char *extensions, size_t size, uint8_t *line, size_t *needed) {
    uint8_t *block = malloc(size + (size == 0));
    CHECK(block != NULL);
    memset(block, 9, size);
    *needed = 9999;
    size_t length = strlen(extensions);
    uint8_t *text = malloc(length + (length == 0));
    CHECK(text != NULL);
    memcpy(text, extensions, length);
    uint32_t status = v_frame_y4m_write_header(header, length == 0 ? NULL : text, length, block, size, needed);
    free(text);
    for (size_t i = status == V_FRAME_Y4M_OK ? *needed : 0; i < size; i++) {
        CHECK(block[i] == 9);
    }
    CHECK(status == V_FRAME_Y4M_OK || status == V_FRAME_Y4M_SHORT_BUFFER || *needed == 9999);
    if (status == V_FRAME_Y4M_OK) {
        memcpy(line, block, *needed);
    }
    free(block);
    return status;
}

static uint32_t write_into(const v_frame_y4m_header *header, size_t size, uint8_t *line, size_t *needed) {
    return write_with(header, "", size, line, needed);
}

static void write_and_parse_back(void) {
    for (int n = 0; n < 3000; n++) {
        v_frame_y4m_header header = random_header(), found;
        uint8_t line[256];
        size_t needed, length;
        uint32_t letter;
        CHECK(write_into(&header, 0, line, &needed) == V_FRAME_Y4M_SHORT_BUFFER && needed < 256);
        CHECK(write_into(&header, needed - 1, line, &length) == V_FRAME_Y4M_SHORT_BUFFER && length == needed);
        CHECK(write_into(&header, needed + (size_t)random_below(3), line, &length) == V_FRAME_Y4M_OK && length == needed);
        CHECK(find(v_frame_y4m_first_line, line, needed, &length) == V_FRAME_Y4M_OK && length == needed);
        CHECK(v_frame_y4m_parse_header(line, needed - 1, &found, &letter, &is_lax) == V_FRAME_Y4M_OK && is_lax == 0);
        CHECK(same_header(&header, &found));
        for (size_t size = 0; n < 30 && size < needed; size++) {
            CHECK(find(v_frame_y4m_first_line, line, size, &length) == V_FRAME_Y4M_UNFINISHED_LINE);
        }
    }
}

/* The header with one number changed. */
#define WITH(field, value) (header = plain, header.field = (value), &header)

static void refuse_numbers(void) {
    static const v_frame_y4m_header plain = {5, 3, {25, 1, 1}, {0, 0, 0}, V_FRAME_Y4M_420, 8, V_FRAME_Y4M_CENTER, 0, 0};
    v_frame_y4m_header header;
    uint8_t line[256];
    size_t needed, count = 9999;
    CHECK(write_into(&plain, 256, line, &needed) == V_FRAME_Y4M_OK);
    CHECK(needed == 31 && memcmp(line, "YUV4MPEG2 W5 H3 F25:1 C420jpeg\n", 31) == 0);
#define REFUSED(field, value, why)                                                                                              \
    CHECK(write_into(WITH(field, value), 256, line, &needed) == (why));                                                        \
    CHECK(v_frame_y4m_frame_bytes(&header, &count) == (why) && count == 9999)
    REFUSED(width, 0, V_FRAME_Y4M_ZERO_SIZE);
    REFUSED(height, 0, V_FRAME_Y4M_ZERO_SIZE);
    REFUSED(format, 5, V_FRAME_Y4M_NO_SUCH_NUMBER);
    REFUSED(siting, 4, V_FRAME_Y4M_NO_SUCH_NUMBER);
    REFUSED(interlacing, 6, V_FRAME_Y4M_NO_SUCH_NUMBER);
    REFUSED(range, 3, V_FRAME_Y4M_NO_SUCH_NUMBER);
    REFUSED(frame_rate.stated, 0, V_FRAME_Y4M_NO_SUCH_NUMBER);
    REFUSED(frame_rate.stated, 2, V_FRAME_Y4M_NO_SUCH_NUMBER);
    REFUSED(pixel_aspect.denominator, 1, V_FRAME_Y4M_NO_SUCH_NUMBER);
    REFUSED(siting, V_FRAME_Y4M_NO_SITING, V_FRAME_Y4M_UNKNOWN_COLOR);
    REFUSED(format, V_FRAME_Y4M_422, V_FRAME_Y4M_UNKNOWN_COLOR);
    REFUSED(bit_depth, 10, V_FRAME_Y4M_UNKNOWN_COLOR);
    REFUSED(bit_depth, 264, V_FRAME_Y4M_UNKNOWN_COLOR);
    REFUSED(bit_depth, 0, V_FRAME_Y4M_UNKNOWN_COLOR);
    /* What a smaller type would take for a choice. */
    static const uint32_t more[2] = {256, 65536};
    for (uint32_t number = 0, i = 0; i < 2; number = (number + 1) % 6, i += number == 0) {
        REFUSED(format, number % 5 + more[i], V_FRAME_Y4M_NO_SUCH_NUMBER);
        REFUSED(siting, number % 4 + more[i], V_FRAME_Y4M_NO_SUCH_NUMBER);
        REFUSED(interlacing, number + more[i], V_FRAME_Y4M_NO_SUCH_NUMBER);
        REFUSED(range, number % 3 + more[i], V_FRAME_Y4M_NO_SUCH_NUMBER);
        REFUSED(frame_rate.stated, 1 + more[i], V_FRAME_Y4M_NO_SUCH_NUMBER);
        REFUSED(pixel_aspect.stated, number % 2 + more[i], V_FRAME_Y4M_NO_SUCH_NUMBER);
        REFUSED(bit_depth, 8 + more[i], V_FRAME_Y4M_UNKNOWN_COLOR);
    }
}

/* The fields of a struct lie one after the other, each at a multiple of its size, and the whole has a multiple of the largest. */
static void layouts(void) {
    const size_t n = sizeof(size_t), numbers = 2 * n + 2 * sizeof(v_frame_y4m_ratio);
#define FIELD(type, field, offset) CHECK(offsetof(type, field) == (offset))
    CHECK(sizeof(v_frame_y4m_ratio) == 24);
    FIELD(v_frame_y4m_ratio, numerator, 0);
    FIELD(v_frame_y4m_ratio, denominator, 8);
    FIELD(v_frame_y4m_ratio, stated, 16);
    CHECK(sizeof(v_frame_y4m_header) == numbers + 24);
    FIELD(v_frame_y4m_header, width, 0);
    FIELD(v_frame_y4m_header, height, n);
    FIELD(v_frame_y4m_header, frame_rate, 2 * n);
    FIELD(v_frame_y4m_header, pixel_aspect, 2 * n + 24);
    FIELD(v_frame_y4m_header, format, numbers);
    FIELD(v_frame_y4m_header, bit_depth, numbers + 4);
    FIELD(v_frame_y4m_header, siting, numbers + 8);
    FIELD(v_frame_y4m_header, interlacing, numbers + 12);
    FIELD(v_frame_y4m_header, range, numbers + 16);
#undef FIELD
}

static int has_line(const v_frame_y4m_header *header, const char *wanted) {
    uint8_t line[256];
    size_t needed;
    return write_into(header, sizeof line, line, &needed) == V_FRAME_Y4M_OK && needed == strlen(wanted) && memcmp(line, wanted, needed) == 0;
}

/* A header that was parsed becomes one of another format, and back. */
static void change_formats(void) {
    v_frame_y4m_header header;
    uint8_t line[256];
    size_t needed;
    uint32_t letter;
    CHECK(parse("YUV4MPEG2 W4 H2 F25:1 C420mpeg2", &header, &letter) == V_FRAME_Y4M_OK);
    header.bit_depth = 10;
    CHECK(write_into(&header, sizeof line, line, &needed) == V_FRAME_Y4M_UNKNOWN_COLOR);
    v_frame_y4m_set_format(&header, V_FRAME_Y4M_420, 8);
    CHECK(has_line(&header, "YUV4MPEG2 W4 H2 F25:1 C420mpeg2\n"));
    v_frame_y4m_set_format(&header, V_FRAME_Y4M_420, 10);
    CHECK(has_line(&header, "YUV4MPEG2 W4 H2 F25:1 C420p10\n"));
    v_frame_y4m_set_format(&header, V_FRAME_Y4M_420, 8);
    CHECK(has_line(&header, "YUV4MPEG2 W4 H2 F25:1 C420jpeg\n"));
    v_frame_y4m_set_format(&header, V_FRAME_Y4M_422, 8);
    CHECK(has_line(&header, "YUV4MPEG2 W4 H2 F25:1 C422\n"));
    v_frame_y4m_set_format(&header, V_FRAME_Y4M_MONOCHROME, 16);
    CHECK(has_line(&header, "YUV4MPEG2 W4 H2 F25:1 Cmono16\n"));
    v_frame_y4m_set_format(&header, V_FRAME_Y4M_411, 10);
    CHECK(write_into(&header, sizeof line, line, &needed) == V_FRAME_Y4M_UNKNOWN_COLOR);
}

static void count_bytes(void) {
    static const struct {
        uint32_t format;
        size_t columns, rows;
    } formats[] = {{0, 0, 0}, {1, 2, 2}, {2, 2, 1}, {3, 1, 1}, {4, 4, 1}};
    v_frame_y4m_header header;
    size_t count;
    for (int n = 0; n < 2000; n++) {
        header = random_header();
        header.width = 1 + (size_t)random_below(9);
        header.height = 1 + (size_t)random_below(9);
        size_t columns = formats[header.format].columns, rows = formats[header.format].rows;
        size_t chroma = columns == 0 ? 0 : (header.width + columns - 1) / columns * ((header.height + rows - 1) / rows);
        size_t wanted = (header.width * header.height + 2 * chroma) * (header.bit_depth == 8 ? 1 : 2);
        CHECK(v_frame_y4m_frame_bytes(&header, &count) == V_FRAME_Y4M_OK && count == wanted);
    }
    header = (v_frame_y4m_header){SIZE_MAX, 1, {0, 0, 0}, {0, 0, 0}, V_FRAME_Y4M_MONOCHROME, 8, 0, 0, 0};
    CHECK(v_frame_y4m_frame_bytes(&header, &count) == V_FRAME_Y4M_OK && count == SIZE_MAX);
    count = 9999;
    CHECK(v_frame_y4m_frame_bytes((header.bit_depth = 9, &header), &count) == V_FRAME_Y4M_SIZE_TOO_LARGE && count == 9999);
    header.bit_depth = 8;
    CHECK(v_frame_y4m_frame_bytes((header.height = 2, &header), &count) == V_FRAME_Y4M_SIZE_TOO_LARGE && count == 9999);
    header.height = 1;
    CHECK(v_frame_y4m_frame_bytes((header.format = V_FRAME_Y4M_444, &header), &count) == V_FRAME_Y4M_SIZE_TOO_LARGE);
    CHECK(count == 9999);
}

/* Lines as lax producers write them, and the strict line that each stands for. */
static void read_lax_lines(void) {
    static const char *const lines[][2] = {
        {"YUV4MPEG2  W4 H2 F25 C420mpeg2 \r", "YUV4MPEG2 W4 H2 F25:1 C420mpeg2\n"},
        {"YUV4MPEG2 W4 H2 F30 A1:1 C422p10", "YUV4MPEG2 W4 H2 F30:1 A1:1 C422p10\n"},
        {"YUV4MPEG2 W4   H2 F25:1 It Cmono", "YUV4MPEG2 W4 H2 F25:1 It Cmono\n"},
        {"YUV4MPEG2 W4 H2 C444\r", "YUV4MPEG2 W4 H2 C444\n"},
        {"YUV4MPEG2 W4 H2 C444 ", "YUV4MPEG2 W4 H2 C444\n"},
    };
    for (size_t i = 0; i < sizeof lines / sizeof lines[0]; i++) {
        v_frame_y4m_header header;
        uint32_t letter;
        CHECK(parse(lines[i][0], &header, &letter) == V_FRAME_Y4M_OK && letter == 0 && is_lax == 1);
        CHECK(has_line(&header, lines[i][1]));
    }
}

/* Each line is written as it was read: its range, and its extensions in their order. A parameter X may be any text. */
static void keep_extensions(void) {
    static const struct {
        const char *text;
        uint32_t range;
    } lines[] = {
        {"", V_FRAME_Y4M_NO_RANGE},
        {" XCOLORRANGE=FULL", V_FRAME_Y4M_FULL},
        {" XCOLORRANGE=LIMITED", V_FRAME_Y4M_LIMITED},
        {" XYSCSS=420JPEG XCOLORRANGE=FULL X Xpart=1", V_FRAME_Y4M_FULL},
        {" XCOLORRANGE=FULL XCOLORRANGE=FULL", V_FRAME_Y4M_FULL},
        {" XCOLORRANGE=FULL XCOLORRANGE=LIMITED", V_FRAME_Y4M_NO_RANGE},
        {" XCOLORRANGE=full XCOLORRANGE=FULL_ XXCOLORRANGE=FULL", V_FRAME_Y4M_NO_RANGE},
    };
    for (size_t i = 0; i < sizeof lines / sizeof lines[0]; i++) {
        char line[256], again[300];
        uint8_t extensions[256], written[256];
        size_t length, needed;
        uint32_t letter;
        v_frame_y4m_header header;
        snprintf(line, sizeof line, "YUV4MPEG2 W4 H2 C420jpeg%s", lines[i].text);
        CHECK(parse(line, &header, &letter) == V_FRAME_Y4M_OK && header.range == lines[i].range && is_lax == 0);
        memset(extensions, 9, sizeof extensions);
        const size_t size = strlen(lines[i].text);
        CHECK(size == 0 || (v_frame_y4m_extensions((const uint8_t *)line, strlen(line), extensions, size - 1, &length) ==
                            V_FRAME_Y4M_SHORT_BUFFER && length == size && extensions[0] == 9));
        CHECK(v_frame_y4m_extensions((const uint8_t *)line, strlen(line), extensions, sizeof extensions, &length) == V_FRAME_Y4M_OK);
        CHECK(length == size && memcmp(extensions, lines[i].text, size) == 0 && extensions[size] == 9);
        CHECK(v_frame_y4m_write_header(&header, extensions, length, written, sizeof written, &needed) == V_FRAME_Y4M_OK);
        snprintf(again, sizeof again, "%s\n", line);
        CHECK(needed == strlen(again) && memcmp(written, again, needed) == 0);
    }
    /* The range of the struct is written where the text has none. */
    v_frame_y4m_header header = {4, 2, {0, 0, 0}, {0, 0, 0}, V_FRAME_Y4M_MONOCHROME, 8, 0, 0, V_FRAME_Y4M_FULL};
    uint8_t line[256];
    size_t needed;
    CHECK(write_with(&header, " Xa", 256, line, &needed) == V_FRAME_Y4M_OK);
    CHECK(needed == 42 && memcmp(line, "YUV4MPEG2 W4 H2 Cmono XCOLORRANGE=FULL Xa\n", 42) == 0);
}

static void reject_extensions(void) {
    static const v_frame_y4m_header plain = {5, 3, {25, 1, 1}, {0, 0, 0}, V_FRAME_Y4M_444, 8, 0, 0, V_FRAME_Y4M_LIMITED};
    static const char *const texts[] = {"Xa", " F25:1", " Xa F25:1", " W2", "0", "0 Xa", " ", " Xa ", "  Xa", " Xa\nFRAME", " C444", " Ip", " A1:1", "\r"};
    uint8_t line[512];
    size_t needed, length = 9999;
    for (size_t i = 0; i < sizeof texts / sizeof texts[0]; i++) {
        CHECK(write_with(&plain, texts[i], sizeof line, line, &needed) == V_FRAME_Y4M_NOT_EXTENSIONS);
    }
    CHECK(write_with(&plain, " XCOLORRANGE=FULL", sizeof line, line, &needed) == V_FRAME_Y4M_OTHER_RANGE);
    v_frame_y4m_header header = plain;
    header.range = V_FRAME_Y4M_NO_RANGE;
    CHECK(write_with(&header, " Xa XCOLORRANGE=FULL", sizeof line, line, &needed) == V_FRAME_Y4M_OTHER_RANGE);
    /* A line that is no header has no extensions. */
    CHECK(v_frame_y4m_extensions((const uint8_t *)"YUV4MPEG2 W4 Xa", 15, line, sizeof line, &length) == V_FRAME_Y4M_MISSING);
    CHECK(v_frame_y4m_extensions((const uint8_t *)"", 0, line, sizeof line, &length) == V_FRAME_Y4M_NOT_A_STREAM && length == 9999);
}

int main(void) {
    v_frame_y4m_header header, untouched;
    uint32_t letter;
    layouts();
    refuse_each();
    find_lines();
    write_and_parse_back();
    refuse_numbers();
    change_formats();
    count_bytes();
    CHECK(parse("YUV4MPEG2 W1920 H1080 F30000:1001 It A1:1 C422p10 XCOLORRANGE=LIMITED", &header, &letter) == V_FRAME_Y4M_OK);
    CHECK(header.width == 1920 && header.height == 1080 && header.format == V_FRAME_Y4M_422 && header.bit_depth == 10);
    CHECK(header.frame_rate.stated == 1 && header.frame_rate.numerator == 30000 && header.frame_rate.denominator == 1001);
    CHECK(header.pixel_aspect.stated == 1 && header.pixel_aspect.numerator == 1 && header.pixel_aspect.denominator == 1);
    CHECK(header.interlacing == V_FRAME_Y4M_TOP_FIRST && header.siting == V_FRAME_Y4M_NO_SITING && letter == 0);
    CHECK(header.range == V_FRAME_Y4M_LIMITED && is_lax == 0);
    CHECK(parse("YUV4MPEG2 H2 W3", &header, &letter) == V_FRAME_Y4M_OK);
    CHECK(header.width == 3 && header.height == 2 && header.format == V_FRAME_Y4M_420 && header.bit_depth == 8);
    CHECK(header.frame_rate.stated == 0 && header.frame_rate.numerator == 0 && header.frame_rate.denominator == 0);
    CHECK(header.interlacing == V_FRAME_Y4M_NOT_STATED && header.siting == V_FRAME_Y4M_CENTER);
    CHECK(v_frame_y4m_version() == V_FRAME_VERSION_NUMBER);
    read_lax_lines();
    keep_extensions();
    reject_extensions();
    static const struct {
        const char *line;
        uint32_t status;
        uint32_t letter;
    } refused[] = {
        {"", V_FRAME_Y4M_NOT_A_STREAM, 0},
        {"YUV4MPEG W2 H2", V_FRAME_Y4M_NOT_A_STREAM, 0},
        {"YUV4MPEG2 H2", V_FRAME_Y4M_MISSING, 'W'},
        {"YUV4MPEG2 W2", V_FRAME_Y4M_MISSING, 'H'},
        {"YUV4MPEG2 W2 H2 W2", V_FRAME_Y4M_DUPLICATE, 'W'},
        {"YUV4MPEG2 W2 H2 F1:", V_FRAME_Y4M_MALFORMED, 0},
        {"YUV4MPEG2 W02 H2", V_FRAME_Y4M_MALFORMED, 0},
        {"YUV4MPEG2 W2 H2 A1", V_FRAME_Y4M_MALFORMED, 0},
        {"YUV4MPEG2  W2 \r", V_FRAME_Y4M_MISSING, 'H'},
        {"YUV4MPEG2 W2 H2\r\r", V_FRAME_Y4M_MALFORMED, 0},
        {"\tYUV4MPEG2 W2 H2", V_FRAME_Y4M_NOT_A_STREAM, 0},
        {"YUV4MPEG2 W2 H2 Q1", V_FRAME_Y4M_MALFORMED, 0},
        {"YUV4MPEG2 W2 H0", V_FRAME_Y4M_ZERO_SIZE, 'H'},
        {"YUV4MPEG2 W18446744073709551616 H2", V_FRAME_Y4M_SIZE_TOO_LARGE, 0},
        {"YUV4MPEG2 W2 H2 C410", V_FRAME_Y4M_UNKNOWN_COLOR, 0},
    };
    memset(&untouched, 9, sizeof untouched);
    for (size_t i = 0; i < sizeof refused / sizeof refused[0]; i++) {
        CHECK(parse(refused[i].line, &header, &letter) == refused[i].status);
        CHECK(letter == refused[i].letter && memcmp(&header, &untouched, sizeof header) == 0);
    }
    printf("%lu checks\n", checks);
    return 0;
}
