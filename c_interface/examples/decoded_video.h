/* The frames of a video file, decoded one after the other by libavformat and libavcodec. */
#include <err.h>
#include <libavcodec/avcodec.h>
#include <libavformat/avformat.h>

typedef struct decoded_video {
    AVFormatContext *file;
    AVCodecContext *decoder;
    AVPacket *packet;
    AVFrame *frame;
    int stream;
} decoded_video;

static void need(int holds, const char *why) {
    if (!holds) errx(2, "%s", why);
}

static decoded_video opened(const char *name) {
    decoded_video it = {NULL, NULL, av_packet_alloc(), av_frame_alloc(), 0};
    const AVCodec *codec;
    need(avformat_open_input(&it.file, name, NULL, NULL) == 0, "a file cannot be read");
    it.stream = av_find_best_stream(it.file, AVMEDIA_TYPE_VIDEO, -1, -1, &codec, 0);
    need(it.stream >= 0, "a file has no video that can be decoded");
    it.decoder = avcodec_alloc_context3(codec);
    need(it.packet != NULL && it.frame != NULL && it.decoder != NULL, "there is no memory");
    need(avcodec_parameters_to_context(it.decoder, it.file->streams[it.stream]->codecpar) >= 0, "there is no memory");
    need(avcodec_open2(it.decoder, codec, NULL) == 0, "a decoder cannot be opened");
    return it;
}

/* Closes a video and releases its memory. */
static void close_video(decoded_video *it) {
    av_frame_free(&it->frame);
    av_packet_free(&it->packet);
    avcodec_free_context(&it->decoder);
    avformat_close_input(&it->file);
}

/* Returns the next frame, which is valid until the next call, and NULL after the last one. */
static const AVFrame *next_frame(decoded_video *it) {
    int status;
    while ((status = avcodec_receive_frame(it->decoder, it->frame)) == AVERROR(EAGAIN)) {
        /* At the end of the file the packet is empty, which asks the decoder for the frames that it keeps. */
        const int read = av_read_frame(it->file, it->packet);
        need(read == 0 || read == AVERROR_EOF, "a file cannot be read to its end");
        if (read != 0 || it->packet->stream_index == it->stream) {
            need(avcodec_send_packet(it->decoder, it->packet) == 0, "a packet cannot be decoded");
        }
        av_packet_unref(it->packet);
    }
    need(status == 0 || status == AVERROR_EOF, "a frame cannot be decoded");
    return status == 0 ? it->frame : NULL;
}
