/* Decodes AV1 by libdav1d and writes YUV4MPEG2 to standard output: av1_to_y4m FILE.obu, as `ffmpeg -i .. -c copy FILE.obu` makes it */
#include <dav1d/dav1d.h>
#include <err.h>
#include <stdio.h>
#include <stdlib.h>
#include <v_frame.h>
#include <v_frame_y4m.h>

/* Writes the header line with the range of the video. The file states no frame rate, so the header states 25:1, as dav1d does. */
static void write_header(const Dav1dPicture *it, uint32_t format) {
    const uint32_t siting = it->seq_hdr->chr == DAV1D_CHR_VERTICAL ? V_FRAME_Y4M_LEFT : V_FRAME_Y4M_CENTER;
    const uint32_t range = it->seq_hdr->color_range ? V_FRAME_Y4M_FULL : V_FRAME_Y4M_LIMITED;
    v_frame_y4m_header header = {(size_t)it->p.w, (size_t)it->p.h, {25, 1, 1}, {1, 1, 1}, 0, 0, siting, V_FRAME_Y4M_PROGRESSIVE, range};
    uint8_t line[256];
    size_t length;
    v_frame_y4m_set_format(&header, format, (uint32_t)it->p.bpc);
    const uint32_t status = v_frame_y4m_write_header(&header, NULL, 0, line, sizeof line, &length);
    if (status != V_FRAME_Y4M_OK || fwrite(line, length, 1, stdout) != 1) errx(2, "the header cannot be written");
}

/* Writes the planes one after the other, samples of more than 8 bits as two bytes, the low one first. */
static void write_frame(const Dav1dPicture *it, uint32_t format) {
    const v_frame_request request = {(size_t)it->p.w, (size_t)it->p.h, 0, format};
    v_frame_parts all;
    if (v_frame_lay_out(&request, &all) != V_FRAME_OK) errx(2, "a picture is too large");
    const v_frame_part parts[] = {all.y, all.u, all.v};
    const size_t size = it->p.bpc > 8 ? 2 : 1;
    uint8_t *bytes = malloc(size * all.count), *at = bytes;
    if (bytes == NULL) errx(2, "there is no memory for a picture");
    for (int plane = 0; plane < 3 && parts[plane].count != 0; at += size * parts[plane].count, plane++) {
        const size_t width = parts[plane].layout.width, height = parts[plane].layout.height, count = size * parts[plane].count;
        const v_frame_rows packed = v_frame_rows_packed(size * width, height);
        const v_frame_rows rows = v_frame_rows_of_bytes(width, height, it->stride[plane > 0], size);
        const uint32_t status = size == 1 ? v_frame_copy_u8(&packed, at, count, &rows, it->data[plane], v_frame_rows_length(&rows))
            : v_frame_encode_u16(&packed, at, count, &rows, it->data[plane], v_frame_rows_length(&rows));
        if (status != V_FRAME_OK) errx(2, "%s", v_frame_status_text(status));
    }
    if (printf("FRAME\n") < 0 || fwrite(bytes, size * all.count, 1, stdout) != 1) err(2, "the stream cannot be written");
    free(bytes);
}

int main(int argc, char **argv) {
    static const uint32_t formats[] = {V_FRAME_MONOCHROME, V_FRAME_420, V_FRAME_422, V_FRAME_444};
    FILE *file = argc == 2 ? fopen(argv[1], "rb") : NULL;
    if (file == NULL || fseek(file, 0, SEEK_END) != 0) errx(2, "usage: av1_to_y4m FILE.obu");
    Dav1dData data = {0};
    uint8_t *bytes = dav1d_data_create(&data, (size_t)ftell(file));
    if (bytes == NULL || fseek(file, 0, SEEK_SET) != 0 || fread(bytes, data.sz, 1, file) != 1) errx(2, "%s: cannot be read", argv[1]);
    Dav1dContext *decoder = NULL;
    Dav1dSettings settings;
    dav1d_default_settings(&settings);
    settings.max_frame_delay = 1;
    if (dav1d_open(&decoder, &settings) < 0 || dav1d_send_data(decoder, &data) < 0) errx(2, "%s: not AV1", argv[1]);
    Dav1dPicture it = {0};
    for (int status, is_first = 1; (status = dav1d_get_picture(decoder, &it)) != DAV1D_ERR(EAGAIN); is_first = 0) {
        if (status < 0) errx(2, "%s: a picture cannot be decoded", argv[1]);
        if (is_first) write_header(&it, formats[it.p.layout]);
        write_frame(&it, formats[it.p.layout]);
        dav1d_picture_unref(&it);
    }
    dav1d_data_unref(&data);
    dav1d_close(&decoder);
    fclose(file);
    return 0;
}
