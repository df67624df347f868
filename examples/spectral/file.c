/* The file: JP2 by OpenJPEG, and the boxes behind its codestream. */
#include <stdio.h>
#include <stdlib.h>
#include <string.h>
#include <openjpeg.h>
#include "spectral.h"

/* 5179e810-7ead-42f4-ab7f-f1ffe9ad0108, drawn for this example: a format of one's own draws another. */
static const unsigned char uuid[16] = {0x51, 0x79, 0xe8, 0x10, 0x7e, 0xad, 0x42, 0xf4, 0xab, 0x7f, 0xf1, 0xff, 0xe9, 0xad, 0x01, 0x08};

size_t get(const unsigned char *from, size_t count)
{
    size_t number = 0;
    while (count-- > 0)
        number = number << 8 | *from++;
    return number;
}

void put(unsigned char *to, size_t count, size_t number)
{
    while (count-- > 0) {
        to[count] = (unsigned char)(number & 255);
        number >>= 8;
    }
}

struct bytes read_file(const char *name)
{
    FILE *f = fopen(name, "rb");
    struct bytes file = {NULL, 0};
    long length;
    if (f == NULL || fseek(f, 0, SEEK_END) != 0 || (length = ftell(f)) < 0 || fseek(f, 0, SEEK_SET) != 0)
        fail("can't be read", name);
    else {
        file.length = (size_t)length;
        file.start = room(file.length, 1);
        if (fread(file.start, 1, file.length, f) != file.length || fclose(f) != 0)
            fail("can't be read", name);
    }
    return file;
}

void append_file(const char *name, const unsigned char *bytes, size_t length)
{
    FILE *f = fopen(name, "ab");
    if (f == NULL || fwrite(bytes, 1, length, f) != length || fclose(f) != 0)
        fail("can't be written", name);
}

/* The bits of a component with its sign. 9 at least: OpenJPEG copies tiles of up to 8 signed bits by plain char, which has no sign on Arm. */
static OPJ_UINT32 precision(const int32_t *plane, size_t pixels)
{
    OPJ_UINT32 bits = 9;
    for (size_t p = 0; p < pixels; p++)
        while (plane[p] >= (int32_t)1 << (bits - 1) || plane[p] < -((int32_t)1 << (bits - 1)))
            if (++bits > 25)
                fail("a component has more than 25 bits", "");
    return bits;
}

static void say(const char *message, void *unused)
{
    (void)unused;
    fprintf(stderr, "openjpeg: %s", message);
}

void write_jp2(const char *name, int32_t *const *planes, size_t count, size_t side, size_t tile, double most)
{
    opj_image_cmptparm_t *parts = room(count, sizeof *parts);
    opj_cparameters_t options;
    opj_image_t *image;
    opj_codec_t *codec = opj_create_compress(OPJ_CODEC_JP2);
    opj_stream_t *stream = opj_stream_create_default_file_stream(name, OPJ_FALSE);
    for (size_t c = 0; c < count; c++) {
        parts[c].dx = parts[c].dy = 1;
        parts[c].w = parts[c].h = (OPJ_UINT32)side;
        parts[c].prec = precision(planes[c], side * side);
        parts[c].sgnd = 1;
    }
    image = opj_image_create((OPJ_UINT32)count, parts, OPJ_CLRSPC_UNSPECIFIED);
    if (image == NULL || codec == NULL || stream == NULL) {
        fail("OpenJPEG can't write it", name);
        return;
    }
    image->x1 = image->y1 = (OPJ_UINT32)side;
    for (size_t c = 0; c < count; c++)
        memcpy(image->comps[c].data, planes[c], side * side * sizeof **planes);
    opj_set_error_handler(codec, say, NULL);
    opj_set_warning_handler(codec, say, NULL);
    opj_set_default_encoder_parameters(&options);
    options.tcp_numlayers = 1;
    options.cp_disto_alloc = 1;
    options.tcp_mct = 0; /* the components are not colours */
    options.irreversible = most > 0;
    if (most > 0) /* a ratio to all components at the bits of the first */
        options.tcp_rates[0] = (float)((double)count * parts[0].prec * (double)(side * side) / 8 / most);
    options.tile_size_on = tile < side;
    options.cp_tdx = options.cp_tdy = (int)tile;
    if (!opj_setup_encoder(codec, &options, image) || !opj_start_compress(codec, image, stream) || !opj_encode(codec, stream) ||
        !opj_end_compress(codec, stream))
        fail("OpenJPEG can't encode it", name);
    opj_stream_destroy(stream);
    opj_destroy_codec(codec);
    opj_image_destroy(image);
    free(parts);
}

struct bytes make_box(const struct plan *plan, size_t tile, const int16_t *means, const struct basis *basis)
{
    size_t cells = crewelmarsh_matrix_len(plan->kept, plan->bands), head = BOX_HEAD + ITEM_HEAD + (means ? 2 * plan->bands : 0);
    size_t block = basis ? crewelmarsh_block_length(plan->kept, plan->bands, 1, CREWELMARSH_INVERSE, 0, 0) : 0;
    struct bytes box = {room(head + block, 1), head + block};
    unsigned char *item = box.start + BOX_HEAD;
    put(box.start, 4, box.length);
    memcpy(box.start + 4, "uuid", 4);
    memcpy(box.start + 8, uuid, sizeof uuid);
    put(item, 2, tile);
    item[2] = EDITION;
    item[3] = (unsigned char)plan->fraction;
    if (means)
        for (size_t b = 0; b < plan->bands; b++)
            put(item + ITEM_HEAD + 2 * b, 2, (uint16_t)means[b]);
    if (basis) /* the inverse is all that a decoder needs */
        must(crewelmarsh_block_write(plan->kept, plan->bands, 1, CREWELMARSH_INVERSE, basis->inverse, cells, 0, NULL, 0, 0, NULL, 0,
                                     box.start + head, block),
             "block_write");
    return box;
}

struct bytes next_item(struct bytes file, size_t *at)
{
    struct bytes item = {NULL, 0};
    while (item.start == NULL && file.length - *at >= 8) {
        unsigned char *box = file.start + *at;
        size_t length = get(box, 4), head = 8;
        if (length == 1 && file.length - *at >= 16) { /* the length is in the next 8 bytes */
            length = get(box + 8, 8);
            head = 16;
        } else if (length == 0) { /* to the end of the file */
            length = file.length - *at;
        }
        if (length < head || length > file.length - *at)
            return item; /* no box: the rest can't be read */
        if (head == 8 && length >= BOX_HEAD + ITEM_HEAD && memcmp(box + 4, "uuid", 4) == 0 && memcmp(box + 8, uuid, sizeof uuid) == 0) {
            item.start = box + BOX_HEAD;
            item.length = length - BOX_HEAD;
        }
        *at += length;
    }
    return item;
}
