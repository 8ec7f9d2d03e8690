/* Other coders by libavcodec, a picture in and its bytes out, for calls in virtual time: `coders.py` calls it. */
#include <libavcodec/avcodec.h>
#include <libavutil/dict.h>
#include <libavutil/opt.h>
#include <stdio.h>
#include <string.h>

struct coder {
    AVCodecContext *context;
    AVFrame *frame;
    AVPacket *packet;
    int width, height;
};

static struct coder *begun(const AVCodec *codec) {
    struct coder *it = av_mallocz(sizeof *it);
    if (!it) return NULL;
    it->context = avcodec_alloc_context3(codec);
    it->frame = av_frame_alloc();
    it->packet = av_packet_alloc();
    return it;
}

void coder_close(struct coder *it) {
    avcodec_free_context(&it->context);
    av_frame_free(&it->frame);
    av_packet_free(&it->packet);
    av_free(it);
}

/* A coder of 30000/1001 pictures a second, in one thread. `options` are NAME=VALUE, with a semicolon in between. */
struct coder *coder_open(const char *name, int width, int height, int64_t rate, int64_t buffer,
                         const char *options) {
    const AVCodec *codec = avcodec_find_encoder_by_name(name);
    AVDictionary *words = NULL;
    struct coder *it;
    av_log_set_level(AV_LOG_ERROR);
    if (!codec || !(it = begun(codec))) return NULL;
    it->width = width;
    it->height = height;
    it->context->width = width;
    it->context->height = height;
    it->context->pix_fmt = AV_PIX_FMT_YUV420P;
    it->context->time_base = (AVRational){1001, 30000};
    it->context->framerate = (AVRational){30000, 1001};
    it->context->thread_count = 1;
    it->context->bit_rate = rate;
    it->context->rc_max_rate = rate;
    it->context->rc_min_rate = rate;
    it->context->rc_buffer_size = (int)buffer;
    it->context->gop_size = 1 << 20;
    it->context->max_b_frames = 0;
    av_dict_parse_string(&words, options, "=", ";", 0);
    if (avcodec_open2(it->context, codec, &words) < 0 || av_dict_count(words)) {
        fprintf(stderr, "%s refuses %s\n", name, options);
        av_dict_free(&words);
        coder_close(it);
        return NULL;
    }
    it->frame->format = AV_PIX_FMT_YUV420P;
    it->frame->width = width;
    it->frame->height = height;
    av_frame_get_buffer(it->frame, 0);
    return it;
}

static void copied(uint8_t *out, int out_step, const uint8_t *in, int in_step, int width,
                   int height) {
    for (int row = 0; row < height; row++)
        memcpy(out + (size_t)row * out_step, in + (size_t)row * in_step, width);
}

/* Codes a picture, and returns how many bytes it has, or -1. `flags` are libvpx's. */
int coder_code(struct coder *it, const uint8_t *picture, int64_t number, int key, unsigned flags,
               uint8_t *room, int length, int *is_key) {
    int count = 0;
    char text[16];
    if (av_frame_make_writable(it->frame) < 0) return -1;
    for (int plane = 0; plane < 3; plane++) {
        int width = plane ? it->width / 2 : it->width, height = plane ? it->height / 2 : it->height;
        copied(it->frame->data[plane], it->frame->linesize[plane], picture, width, width, height);
        picture += width * height;
    }
    it->frame->pts = number;
    it->frame->pict_type = key ? AV_PICTURE_TYPE_I : AV_PICTURE_TYPE_NONE;
    snprintf(text, sizeof text, "%u", flags);
    av_dict_set(&it->frame->metadata, "vp8-flags", text, 0);
    if (avcodec_send_frame(it->context, it->frame) < 0) return -1;
    *is_key = 0;
    while (avcodec_receive_packet(it->context, it->packet) >= 0) {
        if (count + it->packet->size > length) return -1;
        memcpy(room + count, it->packet->data, it->packet->size);
        count += it->packet->size;
        *is_key |= !!(it->packet->flags & AV_PKT_FLAG_KEY);
        av_packet_unref(it->packet);
    }
    return count;
}

struct coder *decoder_open(const char *name) {
    const AVCodec *codec = avcodec_find_decoder_by_name(name);
    struct coder *it;
    av_log_set_level(AV_LOG_ERROR);
    if (!codec || !(it = begun(codec))) return NULL;
    it->context->thread_count = 1;
    it->context->flags |= AV_CODEC_FLAG_LOW_DELAY;
    if (avcodec_open2(it->context, codec, NULL) >= 0) return it;
    coder_close(it);
    return NULL;
}

/* Decodes a picture's bytes to `out`, and returns whether there is a picture. */
int decoder_decode(struct coder *it, const uint8_t *bytes, int length, uint8_t *out) {
    int found = 0;
    if (av_new_packet(it->packet, length) < 0) return 0;
    memcpy(it->packet->data, bytes, length);
    avcodec_send_packet(it->context, it->packet);
    av_packet_unref(it->packet);
    while (avcodec_receive_frame(it->context, it->frame) >= 0) {
        uint8_t *to = out;
        for (int plane = 0; plane < 3; plane++) {
            int width = plane ? it->frame->width / 2 : it->frame->width;
            int height = plane ? it->frame->height / 2 : it->frame->height;
            copied(to, width, it->frame->data[plane], it->frame->linesize[plane], width, height);
            to += width * height;
        }
        found = 1;
        av_frame_unref(it->frame);
    }
    return found;
}

/* The sum of the squares of the differences of two rows of samples. */
uint64_t squares(const uint8_t *one, const uint8_t *other, size_t count) {
    uint64_t sum = 0;
    for (size_t at = 0; at < count;) {
        uint32_t part = 0;
        size_t end = at + 4096 < count ? at + 4096 : count;
        for (; at < end; at++) {
            int difference = one[at] - other[at];
            part += (uint32_t)(difference * difference);
        }
        sum += part;
    }
    return sum;
}
