/* A plain recorder of captured feeds by turns, to measure against.

       recorder PLAN OUT

   It does what `record PLAN OUT` does with a plan by turns whose feeds are files: it reads
   the feeds, drops the oldest where a ring is full, writes the same file and says the same
   lines. It proves nothing, takes its plan and its header documents on trust, and stops at
   a reply that isn't plainly accepted. docs/FORMAT.md has the formats. */

#include <errno.h>
#include <fcntl.h>
#include <inttypes.h>
#include <stdbool.h>
#include <stdint.h>
#include <stdio.h>
#include <stdlib.h>
#include <string.h>
#include <unistd.h>

enum {
    MAX_FEEDS = 64,
    BUFFER = 65536,           /* bytes of a feed that are read at once, and of the file that are written */
    GROUP_LIMIT = 1048576,    /* bytes of the samples in one chunk */
    BOUNDARY_AFTER = 65536,   /* bytes behind a boundary from which on the next one is due */
    TEXT_LIMIT = 16777216,    /* bytes of the texts of one sample */
    WIDEST_NUMBER = 9
};

static const char VERSION[] = "<?xml version=\"1.0\"?><info><version>1.0</version></info>";
static const char LEDGER[] =
    "<?xml version=\"1.0\"?><info><name>overruns</name><type>ledger</type><channel_count>3</channel_count>"
    "<nominal_srate>0</nominal_srate><channel_format>int64</channel_format></info>";
static const uint8_t BOUNDARY_BYTES[16] = {0x43, 0xA5, 0x46, 0xDC, 0xCB, 0xF5, 0x41, 0x0F,
                                           0xB3, 0x0E, 0xD5, 0x46, 0x73, 0x83, 0xCB, 0xE4};

static void fail(const char *what)
{
    fprintf(stderr, "recorder: %s: %s\n", what, errno ? strerror(errno) : "not understood");
    exit(2);
}

/* Bytes that grow. */
struct text {
    uint8_t *bytes;
    size_t length, room;
};

static uint8_t *extend(struct text *text, size_t count)
{
    if (text->room - text->length < count) {
        size_t room = text->room * 2 > text->length + count ? text->room * 2 : text->length + count;
        text->bytes = realloc(text->bytes, room);
        if (text->bytes == NULL)
            fail("memory");
        text->room = room;
    }
    text->length += count;
    return text->bytes + text->length - count;
}

static void append(struct text *text, const void *bytes, size_t count)
{
    memcpy(extend(text, count), bytes, count);
}

static void put_little(uint8_t *to, uint64_t value, int count)
{
    for (int i = 0; i < count; i++)
        to[i] = (uint8_t)(value >> (8 * i));
}

/* A variable-length integer of the least width; how many bytes it has. */
static int put_number(uint8_t *to, uint64_t value)
{
    int width = value < 256 ? 1 : value <= UINT32_MAX ? 4 : 8;
    to[0] = (uint8_t)width;
    put_little(to + 1, value, width);
    return 1 + width;
}

/* ---- A feed's bytes ---- */

struct input {
    int file;
    uint8_t *bytes;
    size_t begin, end, room;
    uint64_t place;           /* the place in the feed of the byte at `begin` */
};

/* Reads on until `count` bytes are there; false where the feed ends before. */
static bool fill(struct input *input, size_t count)
{
    memmove(input->bytes, input->bytes + input->begin, input->end - input->begin);
    input->end -= input->begin;
    input->begin = 0;
    if (input->room < count) {
        input->room = count + BUFFER;
        input->bytes = realloc(input->bytes, input->room);
        if (input->bytes == NULL)
            fail("memory");
    }
    while (input->end < count) {
        ssize_t got = read(input->file, input->bytes + input->end, input->room - input->end);
        if (got < 0)
            fail("read");
        if (got == 0)
            return false;
        input->end += got;
    }
    return true;
}

/* Whether `count` bytes are there, from `begin` on. Reads more where they aren't yet. */
static inline bool has(struct input *input, size_t count)
{
    return input->end - input->begin >= count || fill(input, count);
}

static void go_past(struct input *input, size_t count)
{
    input->begin += count;
    input->place += count;
}

/* ---- A feed ---- */

struct feed {
    uint32_t id;
    char doc_path[4096], feed_path[4096];
    uint64_t limit;
    struct text document;
    int channels, size;       /* size 0 stands for texts */
    bool swapped;
    struct input input;
    struct text *ring;        /* the texts of the samples that wait */
    struct text spare;        /* room for the next one, which takes the place of one in the ring */
    uint64_t first, waiting;  /* the slot of the oldest, and how many there are */
    uint64_t received, written, expected, lost;
    bool ended;
    char end[64];
};

/* Copies values of `size` bytes each, the highest byte first in `from` where `swapped`. */
static inline void copy_values(uint8_t *to, const uint8_t *from, int count, int size, bool swapped)
{
    if (!swapped) {
        memcpy(to, from, (size_t)count * size);
        return;
    }
    for (int i = 0; i < count; i++, to += size, from += size) {
        uint16_t two;
        uint32_t four;
        uint64_t eight;
        switch (size) {
        case 1:
            *to = *from;
            break;
        case 2:
            memcpy(&two, from, 2);
            two = __builtin_bswap16(two);
            memcpy(to, &two, 2);
            break;
        case 4:
            memcpy(&four, from, 4);
            four = __builtin_bswap32(four);
            memcpy(to, &four, 4);
            break;
        case 8:
            memcpy(&eight, from, 8);
            eight = __builtin_bswap64(eight);
            memcpy(to, &eight, 8);
            break;
        }
    }
}

static void end_feed(struct feed *feed, const char *end)
{
    feed->ended = true;
    snprintf(feed->end, sizeof feed->end, "%s", end);
}

static bool end_at(struct feed *feed, const char *what, uint64_t at, int byte)
{
    feed->ended = true;
    if (byte < 0)
        snprintf(feed->end, sizeof feed->end, "%s %" PRIu64, what, at);
    else
        snprintf(feed->end, sizeof feed->end, "%s %" PRIu64 " %d", what, at, byte);
    return false;
}

static bool torn(struct feed *feed)
{
    return end_at(feed, "torn-sample", feed->input.place, -1);
}

/* The texts of a sample, from `used` bytes behind its first on. */
static bool read_texts(struct feed *feed, struct text *sample, size_t used)
{
    struct input *input = &feed->input;
    uint64_t left = TEXT_LIMIT;
    for (int i = 0; i < feed->channels; i++) {
        if (!has(input, used + 1))
            return torn(feed);
        int width = input->bytes[input->begin + used];
        if (width != 1 && width != 2 && width != 4 && width != 8)
            return end_at(feed, "bad-width", input->place + used, width);
        if (!has(input, used + 1 + width))
            return torn(feed);
        uint8_t number[8];
        copy_values(number, input->bytes + input->begin + used + 1, 1, width, feed->swapped);
        uint64_t length = 0;
        for (int j = width; j-- > 0;)
            length = length << 8 | number[j];
        if (length > left)
            return end_at(feed, "sample-too-long", input->place + used, -1);
        left -= length;
        used += 1 + width;
        if (!has(input, used + length))
            return torn(feed);
        uint8_t written[WIDEST_NUMBER];
        append(sample, written, put_number(written, length));
        append(sample, input->bytes + input->begin + used, length);
        used += length;
    }
    go_past(input, used);
    return true;
}

/* The next sample of a feed, as it stands in a file; false where the feed has ended. */
static bool read_sample(struct feed *feed, struct text *sample)
{
    struct input *input = &feed->input;
    if (!has(input, 1)) {
        end_feed(feed, "whole");
        return false;
    }
    int tag = input->bytes[input->begin];
    if (tag != 1 && tag != 2)
        return end_at(feed, "bad-tag", input->place, tag);
    size_t stamp = tag == 2 ? 8 : 0;
    size_t values = (size_t)feed->channels * feed->size;
    if (!has(input, 1 + stamp + values))
        return torn(feed);
    const uint8_t *from = input->bytes + input->begin + 1;
    sample->length = 0;
    uint8_t *to = extend(sample, 1 + stamp + values);
    to[0] = (uint8_t)stamp;
    if (stamp)
        copy_values(to + 1, from, 1, 8, feed->swapped);
    if (feed->size == 0)
        return read_texts(feed, sample, 1 + stamp);
    copy_values(to + 1 + stamp, from + stamp, feed->channels, feed->size, feed->swapped);
    go_past(input, 1 + stamp + values);
    return true;
}

/* Takes the reply and both test samples. */
static void begin_feed(struct feed *feed)
{
    struct input *input = &feed->input;
    size_t length = 4;
    while (has(input, length) && memcmp(input->bytes + input->begin + length - 4, "\r\n\r\n", 4) != 0)
        length++;
    if (!has(input, length)) {
        end_feed(feed, "torn-reply");
        return;
    }
    char reply[BUFFER];
    if (length >= sizeof reply)
        fail("a reply");
    memcpy(reply, input->bytes + input->begin, length);
    reply[length] = 0;
    bool little = strstr(reply, "\r\nByte-Order: 1234\r\n") != NULL;
    feed->swapped = strstr(reply, "\r\nByte-Order: 4321\r\n") != NULL;
    if (strncmp(reply, "LSL/110 200", 11) != 0 || little == feed->swapped ||
        strstr(reply, "\r\nData-Protocol-Version: 110\r\n") == NULL)
        fail("a reply");
    go_past(input, length);
    struct text dropped = {0};
    for (int i = 0; i < 2 && !feed->ended; i++)
        if (!read_sample(feed, &dropped) && strcmp(feed->end, "whole") == 0)
            torn(feed);
    free(dropped.bytes);
}

/* ---- The file ---- */

struct output {
    FILE *file;
    uint64_t bytes, mark, chunks, rows;
    struct text group;        /* the samples of the chunk that is being collected */
    uint32_t group_id;
    uint64_t group_count;
};

static void write_bytes(struct output *output, const void *bytes, size_t count)
{
    if (fwrite(bytes, 1, count, output->file) != count)
        fail("write");
    output->bytes += count;
}

/* A chunk of the content `front` and `rest`. */
static void write_chunk(struct output *output, int tag, const void *front, size_t front_size,
                        const void *rest, size_t rest_size)
{
    uint8_t head[WIDEST_NUMBER + 2];
    int used = put_number(head, 2 + front_size + rest_size);
    put_little(head + used, tag, 2);
    write_bytes(output, head, used + 2);
    write_bytes(output, front, front_size);
    write_bytes(output, rest, rest_size);
    output->chunks++;
}

static void write_samples(struct output *output, uint32_t id, uint64_t count, const void *texts, size_t size)
{
    uint8_t front[4 + WIDEST_NUMBER];
    put_little(front, id, 4);
    int used = 4 + put_number(front + 4, count);
    write_chunk(output, 3, front, used, texts, size);
    if (output->bytes - output->mark >= BOUNDARY_AFTER) {
        write_chunk(output, 5, BOUNDARY_BYTES, sizeof BOUNDARY_BYTES, "", 0);
        output->mark = output->bytes;
    }
}

static void close_group(struct output *output)
{
    if (output->group_count > 0)
        write_samples(output, output->group_id, output->group_count, output->group.bytes, output->group.length);
    output->group.length = 0;
    output->group_count = 0;
}

static void write_row(struct output *output, uint32_t id, uint64_t first, uint64_t count)
{
    uint8_t row[25] = {0};
    put_little(row + 1, id, 8);
    put_little(row + 9, first, 8);
    put_little(row + 17, count, 8);
    write_samples(output, 0, 1, row, sizeof row);
    output->rows++;
}

static void write_sample(struct output *output, uint32_t id, const struct text *sample)
{
    if (output->group_count > 0 && output->group.length + sample->length > GROUP_LIMIT)
        close_group(output);
    output->group_id = id;
    append(&output->group, sample->bytes, sample->length);
    output->group_count++;
}

static void write_document(struct output *output, int tag, uint32_t id, const void *document, size_t size)
{
    uint8_t front[4];
    put_little(front, id, 4);
    write_chunk(output, tag, front, sizeof front, document, size);
}

static void write_footer(struct output *output, uint32_t id, uint64_t count, uint64_t lost)
{
    char document[160];
    int size = snprintf(document, sizeof document,
                        "<?xml version=\"1.0\"?><info><sample_count>%" PRIu64 "</sample_count><overruns>%" PRIu64
                        "</overruns></info>", count, lost);
    write_document(output, 6, id, document, size);
}

/* ---- The turns ---- */

/* Reads a batch of a feed into its ring. */
static void read_batch(struct feed *feed, uint64_t ring, uint64_t batch)
{
    for (uint64_t i = 0; i < batch && !feed->ended; i++) {
        if (feed->received == feed->limit) {
            end_feed(feed, "limit");
            return;
        }
        /* Read aside: the oldest gives way only to a sample that came. */
        if (!read_sample(feed, &feed->spare))
            return;
        if (feed->waiting == ring) {
            feed->first = feed->first + 1 == ring ? 0 : feed->first + 1;
            feed->waiting--;
        }
        uint64_t slot = feed->first + feed->waiting;
        struct text *place = &feed->ring[slot < ring ? slot : slot - ring];
        struct text free_again = *place;
        *place = feed->spare;
        feed->spare = free_again;
        feed->waiting++;
        feed->received++;
    }
}

/* Writes what waits in a feed's ring. */
static void write_batch(struct feed *feed, uint64_t ring, struct output *output)
{
    uint64_t position = feed->received - feed->waiting;
    if (feed->waiting > 0 && position != feed->expected) {
        write_row(output, feed->id, feed->expected, position - feed->expected);
        feed->lost += position - feed->expected;
    }
    while (feed->waiting > 0) {
        write_sample(output, feed->id, &feed->ring[feed->first]);
        feed->first = feed->first + 1 == ring ? 0 : feed->first + 1;
        feed->waiting--;
        feed->written++;
    }
    feed->expected = feed->received;
    close_group(output);
}

/* ---- The plan ---- */

struct plan {
    uint64_t ring, batch;
    int count;
    struct feed feeds[MAX_FEEDS];
};

static void read_plan(const char *path, struct plan *plan)
{
    FILE *file = fopen(path, "r");
    if (file == NULL)
        fail(path);
    plan->ring = 4096;
    plan->batch = 512;
    bool turns = false;
    char line[9000];
    while (fgets(line, sizeof line, file) != NULL) {
        struct feed *feed = &plan->feeds[plan->count];
        char mode[16] = "";
        if (sscanf(line, " ring %" SCNu64, &plan->ring) == 1 || sscanf(line, " batch %" SCNu64, &plan->batch) == 1)
            continue;
        if (sscanf(line, " mode %15s", mode) == 1) {
            turns = strcmp(mode, "turns") == 0;
            continue;
        }
        feed->limit = UINT64_MAX;
        if (plan->count < MAX_FEEDS && sscanf(line, " feed %" SCNu32 " doc %4095s file %4095s limit %" SCNu64,
                                              &feed->id, feed->doc_path, feed->feed_path, &feed->limit) >= 3)
            plan->count++;
        else if (line[0] != '#' && line[strspn(line, " \r\n")] != 0)
            fail("a line of the plan");
    }
    fclose(file);
    errno = 0;
    if (!turns || plan->count == 0 || plan->ring == 0 || plan->batch == 0)
        fail("the plan");
}

static void read_shape(struct feed *feed)
{
    static const struct { const char *name; int size; } FORMATS[] = {
        {"int8", 1}, {"int16", 2}, {"int32", 4}, {"int64", 8}, {"float32", 4}, {"double64", 8}, {"string", 0}};
    const char *document = (const char *)feed->document.bytes;
    const char *count = strstr(document, "<channel_count>"), *format = strstr(document, "<channel_format>");
    if (count == NULL || format == NULL || sscanf(count, "<channel_count>%d<", &feed->channels) != 1)
        fail(feed->doc_path);
    format += strlen("<channel_format>");
    for (size_t i = 0; i < sizeof FORMATS / sizeof *FORMATS; i++) {
        size_t length = strlen(FORMATS[i].name);
        if (strncmp(format, FORMATS[i].name, length) == 0 && format[length] == '<') {
            feed->size = FORMATS[i].size;
            return;
        }
    }
    fail(feed->doc_path);
}

static void open_feed(struct feed *feed, uint64_t ring)
{
    FILE *file = fopen(feed->doc_path, "r");
    if (file == NULL)
        fail(feed->doc_path);
    for (int byte; (byte = getc(file)) != EOF;)
        *extend(&feed->document, 1) = (uint8_t)byte;
    fclose(file);
    *extend(&feed->document, 1) = 0;
    feed->document.length--;
    read_shape(feed);
    feed->ring = calloc(ring, sizeof *feed->ring);
    feed->input.room = BUFFER;
    feed->input.bytes = malloc(BUFFER);
    if (feed->ring == NULL || feed->input.bytes == NULL)
        fail("memory");
    feed->input.file = open(feed->feed_path, O_RDONLY);
    if (feed->input.file < 0)
        fail(feed->feed_path);
}

int main(int count, char **words)
{
    static struct plan plan;
    static struct output output;
    static char waiting[BUFFER]; /* without room that is lent, the C library takes 4,096 bytes of its own */
    if (count != 3)
        fail("recorder PLAN OUT");
    read_plan(words[1], &plan);
    for (int i = 0; i < plan.count; i++)
        open_feed(&plan.feeds[i], plan.ring);

    output.file = fopen(words[2], "w");
    if (output.file == NULL || setvbuf(output.file, waiting, _IOFBF, sizeof waiting) != 0)
        fail(words[2]);
    write_bytes(&output, "XDF:", 4);
    write_chunk(&output, 1, VERSION, strlen(VERSION), "", 0);
    write_document(&output, 2, 0, LEDGER, strlen(LEDGER));
    for (int i = 0; i < plan.count; i++) {
        struct feed *feed = &plan.feeds[i];
        write_document(&output, 2, feed->id, feed->document.bytes, feed->document.length);
        begin_feed(feed);
    }

    for (bool more = true; more;) {
        more = false;
        for (int i = 0; i < plan.count; i++) {
            read_batch(&plan.feeds[i], plan.ring, plan.batch);
            write_batch(&plan.feeds[i], plan.ring, &output);
            more |= !plan.feeds[i].ended;
        }
    }

    write_footer(&output, 0, output.rows, 0);
    for (int i = 0; i < plan.count; i++)
        write_footer(&output, plan.feeds[i].id, plan.feeds[i].written, plan.feeds[i].lost);
    if (fclose(output.file) != 0)
        fail(words[2]);
    bool whole = true;
    for (int i = 0; i < plan.count; i++) {
        struct feed *feed = &plan.feeds[i];
        printf("feed %" PRIu32 " received %" PRIu64 " kept %" PRIu64 " lost %" PRIu64 " end %s\n",
               feed->id, feed->received, feed->written, feed->lost, feed->end);
        whole &= strcmp(feed->end, "whole") == 0 || strcmp(feed->end, "limit") == 0;
    }
    printf("recorded bytes %" PRIu64 " chunks %" PRIu64 "\n", output.bytes, output.chunks);
    return whole ? 0 : 1;
}
