/* A plain printer of an XDF file, to measure against.

       show FILE

   It reads the file and prints the lines that `show FILE` of the recorder says, 65,536 bytes at
   a time. It proves nothing. docs/FORMAT.md has the format, docs/MANUAL.md the lines. */

#include "xdf.h"
#include <stdarg.h>

enum { WORD = 22 };              /* no word of a number, with its blank, is longer */

static char lines[BUFFER], pairs[512];
static size_t filled;

static void flush(void)
{
    for (size_t at = 0; at < filled;) {
        ssize_t put = write(1, lines + at, filled - at);
        if (put <= 0)
            fail(8);
        at += put;
    }
    filled = 0;
}

/* Where so many bytes more find room. */
static inline char *room_for(size_t count)
{
    if (BUFFER - filled < count)
        flush();
    return lines + filled;
}

static void say(const char *form, ...)
{
    va_list words;
    va_start(words, form);
    filled += vsprintf(room_for(256), form, words);
    va_end(words);
}

/* Two digits for each byte, the highest first. */
static inline char *put_hex(char *to, const uint8_t *bytes, size_t size)
{
    for (size_t i = size; i-- > 0; to += 2)
        memcpy(to, pairs + 2 * bytes[i], 2);
    return to;
}

static inline char *put_decimal(char *to, uint64_t number)
{
    char digits[20];
    int first = 20;
    do
        digits[--first] = (char)('0' + number % 10);
    while ((number /= 10) > 0);
    memcpy(to, digits + first, 20 - first);
    return to + 20 - first;
}

static inline char *put_signed(char *to, const uint8_t *bytes, size_t size)
{
    int unused = 64 - 8 * (int)size;
    int64_t number = (int64_t)(little(bytes, size) << unused) >> unused;
    if (number >= 0)
        return put_decimal(to, (uint64_t)number);
    *to = '-';
    return put_decimal(to + 1, -(uint64_t)number);
}

/* Two blanks and the stamp; where the values begin. */
static const uint8_t *say_stamp(const uint8_t *at)
{
    char *to = room_for(20);
    memcpy(to, "  none", 6);
    if (*at == 8)
        put_hex(to + 2, at + 1, 8);
    filled += *at == 8 ? 18 : 6;
    return at + stamp_width(*at);
}

static const uint8_t *say_numbers(const uint8_t *at, size_t channels, const struct format *format)
{
    size_t size = format->size;
    for (size_t done = 0; done < channels;) {
        size_t part = channels - done < 256 ? channels - done : 256;
        char *to = room_for(part * WORD);
        char *first = to;
        for (size_t i = 0; i < part; i++, at += size) {
            *to++ = ' ';
            if (format->is_signed)
                to = put_signed(to, at, size);
            else
                to = size == 4 ? put_hex(to, at, 4) : put_hex(to, at, 8);
        }
        filled += to - first;
        done += part;
    }
    return at;
}

static const uint8_t *say_texts(const uint8_t *at, size_t channels)
{
    for (size_t k = 0; k < channels; k++) {
        size_t width = *at;
        uint64_t length = little(at + 1, width);
        at += 1 + width;
        memcpy(room_for(2), " x", 2);
        filled += 2;
        for (const uint8_t *end = at + length; at < end;) {
            size_t part = end - at < 4096 ? (size_t)(end - at) : 4096;
            char *to = room_for(2 * part);
            for (size_t i = 0; i < part; i++)
                memcpy(to + 2 * i, pairs + 2 * at[i], 2);
            filled += 2 * part;
            at += part;
        }
    }
    return at;
}

static void say_samples(const struct chunk *chunk)
{
    const struct stream *stream = chunk->stream;
    const uint8_t *at = chunk->samples;
    for (uint64_t i = 0; i < chunk->count; i++) {
        at = say_stamp(at);
        at = stream->format->size == 0 ? say_texts(at, stream->channels)
            : say_numbers(at, stream->channels, stream->format);
        *room_for(1) = '\n';
        filled++;
    }
}

static void say_chunk(const struct reader *reader, const struct chunk *chunk)
{
    uint64_t place = reader->place;
    size_t size = chunk->content_end - chunk->content;
    uint32_t id = size < 4 ? 0 : (uint32_t)little(chunk->content, 4);
    const struct stream *last = reader->streams + reader->known - 1;
    switch (chunk->tag) {
    case FILE_HEADER:
        say("%" PRIu64 " file-header bytes %zu\n", place, size);
        break;
    case STREAM_HEADER:
        say("%" PRIu64 " stream-header id %" PRIu32 " channels %zu format %s bytes %zu\n", place, id, last->channels,
            last->format->name, size - 4);
        break;
    case SAMPLES:
        say("%" PRIu64 " samples id %" PRIu32 " count %" PRIu64 "\n", place, id, chunk->count);
        say_samples(chunk);
        break;
    case CLOCK_OFFSET:
        say("%" PRIu64 " clock-offset id %" PRIu32 " time %016" PRIx64 " offset %016" PRIx64 "\n", place, id,
            little(chunk->content + 4, 8), little(chunk->content + 12, 8));
        break;
    case BOUNDARY:
        say("%" PRIu64 " boundary\n", place);
        break;
    case STREAM_FOOTER:
        say("%" PRIu64 " stream-footer id %" PRIu32 " bytes %zu\n", place, id, size - 4);
        break;
    default:
        say("%" PRIu64 " other tag %u bytes %zu\n", place, chunk->tag, size);
    }
}

int main(int count, char **words)
{
    if (count != 2)
        return 2;
    for (int byte = 0; byte < 256; byte++) {
        pairs[2 * byte] = "0123456789abcdef"[byte / 16];
        pairs[2 * byte + 1] = "0123456789abcdef"[byte % 16];
    }
    struct reader reader = open_file(words[1]);
    struct chunk chunk;
    uint64_t chunks = 0;
    enum standing standing;
    while ((standing = judge(&reader, &chunk)) == WHOLE) {
        say_chunk(&reader, &chunk);
        go_past(&reader, &chunk);
        chunks++;
    }
    size_t left = reader.end - reader.begin;
    if (standing == BAD)
        say("bad %" PRIu64 " why %d\n", reader.bad_at, reader.why);
    else if (left > 0)
        say("torn %" PRIu64 " left %zu\n", reader.place, left);
    else
        say("end %" PRIu64 " chunks %" PRIu64 "\n", reader.place, chunks);
    flush();
    return standing == BAD ? 6 : left > 0 ? 1 : 0;
}
