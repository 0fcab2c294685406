/* A plain check of an XDF file, to measure against.

       check FILE

   It reads the file, judges each chunk and says the notes that `check FILE` of the recorder
   says. It proves nothing. docs/FORMAT.md has the format, docs/MANUAL.md the notes. */

#include "xdf.h"

static const char VERSION[] = "<version>1.0</version>";
static const char LEDGER[] =
    "<?xml version=\"1.0\"?><info><name>overruns</name><type>ledger</type><channel_count>3</channel_count>"
    "<nominal_srate>0</nominal_srate><channel_format>int64</channel_format></info>";

static uint64_t notes;

static void note(int number, const struct stream *stream, uint64_t at)
{
    if (stream == NULL)
        printf("note %d - %" PRIu64 "\n", number, at);
    else
        printf("note %d %" PRIu32 " %" PRIu64 "\n", number, stream->id, at);
    notes++;
}

/* Whether a sample of the ledger, whose values these are, is a good row; it is counted then. */
static bool take_row(struct reader *reader, const uint8_t *values)
{
    uint64_t id = little(values, 8), first = little(values + 8, 8), count = little(values + 16, 8);
    if (id < 1 || id > 65535 || first >= (1ull << 62) || count < 1 || count > (1ull << 62))
        return false;
    struct stream *stream = find_stream(reader, (uint32_t)id);
    if (stream == NULL || first < stream->end)
        return false;
    stream->lost += count;
    stream->end = first + count;
    return true;
}

/* Whether each sample of the ledger is a good row. */
static bool take_rows(struct reader *reader, const struct chunk *chunk)
{
    bool all = true;
    const uint8_t *at = chunk->samples;
    for (uint64_t i = 0; i < chunk->count; i++) {
        size_t front = stamp_width(*at);
        all &= front == 1 && take_row(reader, at + 1);
        at += front + 24;
    }
    return all;
}

static void take_footer(struct stream *stream, const struct chunk *chunk, uint64_t at)
{
    const uint8_t *doc = chunk->content + 4, *end = chunk->content_end;
    stream->is_closed = true;
    stream->footer_at = at;
    stream->tells_samples = number_in(doc, end, "<sample_count>", "</sample_count>", 20, &stream->told_samples);
    stream->tells_lost = number_in(doc, end, "<overruns>", "</overruns>", 20, &stream->told_lost);
}

/* Says the notes of a whole chunk at a place. */
static void take_chunk(struct reader *reader, const struct chunk *chunk, uint64_t at)
{
    static bool has_file_header;
    struct stream *stream = chunk->stream;
    const uint8_t *doc = chunk->content;
    switch (chunk->tag) {
    case FILE_HEADER:
        if (behind(doc, chunk->content_end, VERSION) == NULL)
            note(10, NULL, at);
        if (has_file_header)
            note(11, NULL, at);
        has_file_header = true;
        if (!is_utf8(doc, chunk->content_end))
            note(5, NULL, at);
        break;
    case STREAM_HEADER:
        stream = &reader->streams[reader->known - 1];
        stream->is_ledger = stream->id == 0 && (size_t)(chunk->content_end - doc) == 4 + strlen(LEDGER)
            && memcmp(doc + 4, LEDGER, strlen(LEDGER)) == 0;
        if (!is_utf8(doc + 4, chunk->content_end))
            note(5, stream, at);
        break;
    case SAMPLES:
        stream->samples += chunk->count;
        if (chunk->has_broken_text)
            note(6, stream, at);
        if (stream->is_ledger && !take_rows(reader, chunk))
            note(12, stream, at);
        break;
    case STREAM_FOOTER:
        if (stream->is_closed)
            note(11, stream, at);
        else
            take_footer(stream, chunk, at);
        if (!is_utf8(doc + 4, chunk->content_end))
            note(5, stream, at);
        break;
    case CLOCK_OFFSET:
    case BOUNDARY:
        break;
    default:
        note(9, NULL, at);
    }
}

/* Says the notes of the streams. */
static void take_streams(const struct reader *reader)
{
    bool has_ledger = false;
    for (size_t i = 0; i < reader->known; i++)
        has_ledger |= reader->streams[i].is_ledger;
    for (size_t i = 0; i < reader->known; i++) {
        const struct stream *stream = &reader->streams[i];
        if (!stream->is_closed)
            note(2, stream, stream->header_at);
        if (stream->is_closed && stream->tells_samples && stream->told_samples != stream->samples)
            note(3, stream, stream->footer_at);
        if (stream->is_closed && has_ledger && !stream->is_ledger && stream->tells_lost && stream->told_lost != stream->lost)
            note(4, stream, stream->footer_at);
    }
}

int main(int count, char **words)
{
    if (count != 2)
        return 2;
    struct reader reader = open_file(words[1]);
    reader.looks_at_texts = true;
    struct chunk chunk;
    uint64_t chunks = 0;
    enum standing standing;
    while ((standing = judge(&reader, &chunk)) == WHOLE) {
        if (chunks++ == 0 && chunk.tag != FILE_HEADER)
            note(1, NULL, 4);
        take_chunk(&reader, &chunk, reader.place);
        go_past(&reader, &chunk);
    }
    if (chunks == 0)
        note(1, NULL, 4);
    if (standing == BAD)
        note(8, NULL, reader.bad_at);
    else if (reader.begin < reader.end)
        note(7, NULL, reader.place);
    take_streams(&reader);
    printf("chunks %" PRIu64 " notes %" PRIu64 "\n", chunks, notes);
    return notes != 0;
}
