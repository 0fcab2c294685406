/* Reads an XDF file chunk by chunk, for the plain programs `check` and `show` beside this file.
   It judges a chunk as docs/FORMAT.md has it, and keeps the bytes of one chunk and a piece ahead. */

#include <fcntl.h>
#include <inttypes.h>
#include <stdbool.h>
#include <stdint.h>
#include <stdio.h>
#include <stdlib.h>
#include <string.h>
#include <unistd.h>

enum {
    BUFFER = 65536,              /* bytes that are read at once where no chunk needs more */
    LENGTH_LIMIT = 67108864
};

enum tag { FILE_HEADER = 1, STREAM_HEADER, SAMPLES, CLOCK_OFFSET, BOUNDARY, STREAM_FOOTER };

/* Why no chunk stands at a place. */
enum why {
    BAD_WIDTH = 1, LENGTH_UNDER_TWO, TOO_LONG, SHORT_CONTENT, UNKNOWN_STREAM, REPEATED_STREAM,
    NO_SHAPE, BAD_STAMP_WIDTH, SAMPLES_SHORT, EXTRA_BYTES, BAD_BOUNDARY
};

enum standing { WHOLE, TORN, BAD };

static const uint8_t BOUNDARY_BYTES[16] = {0x43, 0xA5, 0x46, 0xDC, 0xCB, 0xF5, 0x41, 0x0F,
                                           0xB3, 0x0E, 0xD5, 0x46, 0x73, 0x83, 0xCB, 0xE4};

/* A size of 0 stands for texts. */
static const struct format { const char *name; size_t size; bool is_signed; } FORMATS[] = {
    {"float32", 4, false}, {"double64", 8, false}, {"string", 0, false}, {"int32", 4, true},
    {"int16", 2, true}, {"int8", 1, true}, {"int64", 8, true}};

struct stream {
    uint32_t id;
    size_t channels;
    const struct format *format;
    bool is_ledger;
    uint64_t header_at, samples, lost, end;
    bool is_closed, tells_samples, tells_lost;
    uint64_t footer_at, told_samples, told_lost;
};

struct chunk {
    unsigned tag;
    size_t length;               /* of the whole text */
    const uint8_t *content, *content_end;
    struct stream *stream;       /* of samples and of a footer */
    uint64_t count;              /* of samples */
    const uint8_t *samples;
    bool has_broken_text;        /* a text isn't UTF-8 */
};

struct reader {
    int file;
    uint8_t *bytes;
    size_t begin, end, room;
    uint64_t place;              /* of the byte at `begin` in the file */
    struct stream *streams;
    size_t known, streams_room;
    bool looks_at_texts;
    uint64_t bad_at;             /* where a bad chunk is bad, and why */
    enum why why;
};

static void fail(int status)
{
    exit(status);
}

static uint64_t little(const uint8_t *bytes, size_t size)
{
    uint64_t value = 0;
    memcpy(&value, bytes, size);
    return value;
}

/* Reads on until `count` bytes are there; false where the file ends before. */
static bool fill(struct reader *reader, size_t count)
{
    memmove(reader->bytes, reader->bytes + reader->begin, reader->end - reader->begin);
    reader->end -= reader->begin;
    reader->begin = 0;
    if (reader->room < count) {
        reader->room = count + BUFFER;
        reader->bytes = realloc(reader->bytes, reader->room);
        if (reader->bytes == NULL)
            fail(9);
    }
    while (reader->end < count) {
        size_t missing = count - reader->end, free = reader->room - reader->end;
        size_t ask = missing > BUFFER ? missing : BUFFER;
        ssize_t got = read(reader->file, reader->bytes + reader->end, ask < free ? ask : free);
        if (got < 0)
            fail(4);
        if (got == 0)
            return false;
        reader->end += got;
    }
    return true;
}

static inline bool has(struct reader *reader, size_t count)
{
    return reader->end - reader->begin >= count || fill(reader, count);
}

/* A reader behind the magic. */
static struct reader open_file(const char *path)
{
    struct reader reader = {.file = open(path, O_RDONLY), .place = 4};
    if (reader.file < 0)
        fail(4);
    if (!has(&reader, 4) || memcmp(reader.bytes, "XDF:", 4) != 0)
        fail(3);
    reader.begin = 4;
    return reader;
}

static struct stream *find_stream(struct reader *reader, uint32_t id)
{
    for (size_t i = 0; i < reader->known; i++)
        if (reader->streams[i].id == id)
            return &reader->streams[i];
    return NULL;
}

/* What stands behind the first occurrence of a pattern, or NULL. */
static const uint8_t *behind(const uint8_t *doc, const uint8_t *end, const char *pattern)
{
    const uint8_t *found = memmem(doc, end - doc, pattern, strlen(pattern));
    return found == NULL ? NULL : found + strlen(pattern);
}

static bool stands(const uint8_t *at, const uint8_t *end, const char *text)
{
    return (size_t)(end - at) >= strlen(text) && memcmp(at, text, strlen(text)) == 0;
}

/* The number in the first element of this name: at most so many digits, and the closing element. */
static bool number_in(const uint8_t *doc, const uint8_t *end, const char *open, const char *close, int digits,
                      uint64_t *number)
{
    const uint8_t *at = behind(doc, end, open), *first = at;
    if (at == NULL)
        return false;
    unsigned __int128 value = 0;
    for (; at < end && at - first < digits && *at >= '0' && *at <= '9'; at++)
        value = 10 * value + (*at - '0');
    *number = (uint64_t)value;
    return at > first && stands(at, end, close) && value <= UINT64_MAX;
}

static bool find_shape(const uint8_t *doc, const uint8_t *end, struct stream *stream)
{
    uint64_t channels;
    if (!number_in(doc, end, "<channel_count>", "</channel_count>", 5, &channels) || channels < 1 || channels > 4096)
        return false;
    const uint8_t *at = behind(doc, end, "<channel_format>");
    if (at == NULL)
        return false;
    for (size_t i = 0; i < sizeof FORMATS / sizeof *FORMATS; i++)
        if (stands(at, end, FORMATS[i].name) && stands(at + strlen(FORMATS[i].name), end, "</channel_format>")) {
            stream->channels = channels;
            stream->format = &FORMATS[i];
            return true;
        }
    return false;
}

static bool is_utf8(const uint8_t *at, const uint8_t *end)
{
    while (at < end) {
        if (end - at >= 8 && (little(at, 8) & 0x8080808080808080) == 0) {
            at += 8;
            continue;
        }
        uint8_t first = *at++;
        if (first < 0x80)
            continue;
        int more = first >= 0xC2 && first < 0xE0 ? 1 : first >= 0xE0 && first < 0xF0 ? 2 : first >= 0xF0 && first < 0xF5 ? 3 : 0;
        if (more == 0 || end - at < more)
            return false;
        if ((first == 0xE0 && at[0] < 0xA0) || (first == 0xED && at[0] >= 0xA0) || (first == 0xF0 && at[0] < 0x90)
            || (first == 0xF4 && at[0] >= 0x90))
            return false;
        for (int i = 0; i < more; i++)
            if ((*at++ & 0xC0) != 0x80)
                return false;
    }
    return true;
}

/* ---- Chunks ---- */

static enum standing bad(struct reader *reader, const uint8_t *at, enum why why)
{
    reader->bad_at = reader->place + (at - (reader->bytes + reader->begin));
    reader->why = why;
    return BAD;
}

/* How many bytes a stamp takes with its first byte, and 0 where that is no stamp's. */
static inline size_t stamp_width(uint8_t tag)
{
    return tag == 0 ? 1 : tag == 8 ? 9 : 0;
}

static enum standing judge_numbers(struct reader *reader, struct chunk *chunk, const uint8_t *at)
{
    size_t width = chunk->stream->channels * chunk->stream->format->size;
    for (uint64_t i = 0; i < chunk->count; i++) {
        if (at == chunk->content_end)
            return bad(reader, at, SAMPLES_SHORT);
        size_t front = stamp_width(*at);
        if (front == 0)
            return bad(reader, at, BAD_STAMP_WIDTH);
        if ((size_t)(chunk->content_end - at) < front + width)
            return bad(reader, at, SAMPLES_SHORT);
        at += front + width;
    }
    return at == chunk->content_end ? WHOLE : bad(reader, at, EXTRA_BYTES);
}

static enum standing judge_texts(struct reader *reader, struct chunk *chunk, const uint8_t *at)
{
    const uint8_t *end = chunk->content_end;
    for (uint64_t i = 0; i < chunk->count; i++) {
        const uint8_t *sample = at;
        if (at == end)
            return bad(reader, sample, SAMPLES_SHORT);
        size_t front = stamp_width(*at);
        if (front == 0)
            return bad(reader, at, BAD_STAMP_WIDTH);
        if ((size_t)(end - at) < front)
            return bad(reader, sample, SAMPLES_SHORT);
        at += front;
        for (size_t k = 0; k < chunk->stream->channels; k++) {
            if (at == end)
                return bad(reader, sample, SAMPLES_SHORT);
            size_t width = *at;
            if (width != 1 && width != 4 && width != 8)
                return bad(reader, at, BAD_WIDTH);
            if ((size_t)(end - at) <= width)
                return bad(reader, sample, SAMPLES_SHORT);
            uint64_t length = little(at + 1, width);
            at += 1 + width;
            if ((uint64_t)(end - at) < length)
                return bad(reader, sample, SAMPLES_SHORT);
            if (reader->looks_at_texts && !chunk->has_broken_text)
                chunk->has_broken_text = !is_utf8(at, at + length);
            at += length;
        }
    }
    return at == end ? WHOLE : bad(reader, at, EXTRA_BYTES);
}

static enum standing judge_samples(struct reader *reader, struct chunk *chunk)
{
    const uint8_t *at = chunk->content + 4;
    if (at == chunk->content_end)
        return bad(reader, at, SHORT_CONTENT);
    size_t width = *at;
    if (width != 1 && width != 4 && width != 8)
        return bad(reader, at, BAD_WIDTH);
    if ((size_t)(chunk->content_end - at) <= width)
        return bad(reader, at, SHORT_CONTENT);
    chunk->count = little(at + 1, width);
    chunk->samples = at + 1 + width;
    if (chunk->stream->format->size == 0)
        return judge_texts(reader, chunk, chunk->samples);
    return judge_numbers(reader, chunk, chunk->samples);
}

static enum standing judge_header(struct reader *reader, struct chunk *chunk, uint32_t id)
{
    struct stream stream = {.id = id, .header_at = reader->place};
    if (find_stream(reader, id) != NULL)
        return bad(reader, chunk->content, REPEATED_STREAM);
    if (!find_shape(chunk->content + 4, chunk->content_end, &stream))
        return bad(reader, chunk->content + 4, NO_SHAPE);
    if (reader->known == reader->streams_room) {
        reader->streams_room = 2 * reader->streams_room + 16;
        reader->streams = realloc(reader->streams, reader->streams_room * sizeof *reader->streams);
        if (reader->streams == NULL)
            fail(9);
    }
    reader->streams[reader->known++] = stream;
    return WHOLE;
}

static enum standing judge_boundary(struct reader *reader, const uint8_t *content)
{
    for (int i = 0; i < 16; i++)
        if (content[i] != BOUNDARY_BYTES[i])
            return bad(reader, content + i, BAD_BOUNDARY);
    return WHOLE;
}

static enum standing judge_content(struct reader *reader, struct chunk *chunk)
{
    static const size_t LEAST[] = {0, 0, 4, 4, 20, 16, 4};
    size_t size = chunk->content_end - chunk->content;
    if (chunk->tag > STREAM_FOOTER || chunk->tag < STREAM_HEADER)
        return WHOLE;
    if (size < LEAST[chunk->tag])
        return bad(reader, chunk->content, SHORT_CONTENT);
    if ((chunk->tag == CLOCK_OFFSET || chunk->tag == BOUNDARY) && size > LEAST[chunk->tag])
        return bad(reader, chunk->content + LEAST[chunk->tag], EXTRA_BYTES);
    if (chunk->tag == BOUNDARY)
        return judge_boundary(reader, chunk->content);
    uint32_t id = (uint32_t)little(chunk->content, 4);
    if (chunk->tag == STREAM_HEADER)
        return judge_header(reader, chunk, id);
    if (chunk->tag == CLOCK_OFFSET)
        return WHOLE;
    chunk->stream = find_stream(reader, id);
    if (chunk->stream == NULL)
        return bad(reader, chunk->content, UNKNOWN_STREAM);
    return chunk->tag == SAMPLES ? judge_samples(reader, chunk) : WHOLE;
}

/* What stands at the reader's place. */
static enum standing judge(struct reader *reader, struct chunk *chunk)
{
    *chunk = (struct chunk){0};
    if (!has(reader, 1))
        return TORN;
    size_t width = reader->bytes[reader->begin];
    if (width != 1 && width != 4 && width != 8)
        return bad(reader, reader->bytes + reader->begin, BAD_WIDTH);
    if (!has(reader, 1 + width))
        return TORN;
    uint64_t length = little(reader->bytes + reader->begin + 1, width);
    if (length < 2 || length > LENGTH_LIMIT)
        return bad(reader, reader->bytes + reader->begin, length < 2 ? LENGTH_UNDER_TWO : TOO_LONG);
    chunk->length = 1 + width + length;
    if (!has(reader, chunk->length))
        return TORN;
    const uint8_t *text = reader->bytes + reader->begin;
    chunk->tag = (unsigned)little(text + 1 + width, 2);
    chunk->content = text + 3 + width;
    chunk->content_end = text + chunk->length;
    return judge_content(reader, chunk);
}

/* Goes past a whole chunk. */
static void go_past(struct reader *reader, const struct chunk *chunk)
{
    reader->begin += chunk->length;
    reader->place += chunk->length;
}
