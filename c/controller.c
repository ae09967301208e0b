/*
 * A controller: reads a day file, prints its listing, and the STOP line after it where the listing stops.
 *
 *     controller [-r BYTES] [-t] [FILE]
 *
 * FILE is the day file; without it, or with -, standard input. -r: reserve an output list of so many bytes (else one
 * that is enough for every day file). -t: tell the parts of the ending on standard error.
 * Exit status: 0 for every file that could be read, stopped listings too; 1 if it cannot be read or the listing cannot
 * be written; 2 for words that are not understood.
 */
#include <errno.h>
#include <inttypes.h>
#include <stdio.h>
#include <stdlib.h>
#include <string.h>

#include "sundrixa.h"

struct options {
    size_t room;
    int tell;
    const char *path; /* NULL: standard input */
};

static int usage(const char *program)
{
    fprintf(stderr, "usage: %s [-r BYTES] [-t] [FILE]\n", program);
    return 2;
}

/* Whether the word is a number of bytes that can be reserved. */
static int read_size(const char *word, size_t *size)
{
    char *end;
    unsigned long long value;

    /* strtoull would take spaces and signs */
    if (word[0] < '0' || word[0] > '9')
        return 0;
    errno = 0;
    value = strtoull(word, &end, 10);
    if (errno != 0 || *end != '\0' || value > PTRDIFF_MAX)
        return 0;
    *size = (size_t)value;
    return 1;
}

static int read_options(int argc, char **argv, struct options *options)
{
    int i;

    options->room = SUNDRIXA_ENOUGH_ROOM;
    options->tell = 0;
    options->path = NULL;
    for (i = 1; i < argc && argv[i][0] == '-' && argv[i][1] != '\0'; i++) {
        if (strcmp(argv[i], "-t") == 0) {
            options->tell = 1;
        } else if (strcmp(argv[i], "-r") == 0 && i + 1 < argc) {
            i++;
            if (!read_size(argv[i], &options->room))
                return 0;
        } else {
            return 0;
        }
    }
    if (i < argc && strcmp(argv[i], "-") != 0)
        options->path = argv[i];
    return argc - i <= 1;
}

/* Reads the file's front, one byte more than a day file may have: enough for the library to see that it is too long. */
static int read_file(const char *path, uint8_t *file, size_t most, size_t *length)
{
    FILE *stream = path == NULL ? stdin : fopen(path, "rb");
    int failed;

    if (stream == NULL)
        return 0;
    *length = fread(file, 1, most, stream);
    failed = ferror(stream);
    if (stream != stdin)
        failed |= fclose(stream) != 0;
    return !failed;
}

int main(int argc, char **argv)
{
    static uint8_t file[SUNDRIXA_FILE_MOST + 1];
    struct options options;
    struct sundrixa_listing listing;
    size_t length;
    uint8_t *out;

    if (!read_options(argc, argv, &options))
        return usage(argv[0]);
    if (!read_file(options.path, file, sizeof file, &length)) {
        fprintf(stderr, "%s: cannot read %s\n", argv[0], options.path == NULL ? "standard input" : options.path);
        return 1;
    }
    /* one byte at least: the library wants a pointer to a byte even for a list without room */
    out = calloc(options.room > 0 ? options.room : 1, 1);
    if (out == NULL) {
        fprintf(stderr, "%s: cannot reserve %zu bytes\n", argv[0], options.room);
        return 1;
    }

    listing = sundrixa_list(file, length, out, options.room);
    fwrite(out, 1, (size_t)listing.length, stdout);
    free(out);
    if (options.tell)
        fprintf(stderr,
                "length %" PRIu64 " refusal %" PRIu64 " offset %" PRIu64 " inner %" PRIu64 " position %" PRIu64 "\n",
                listing.length, listing.refusal, listing.offset, listing.inner, listing.position);
    if (listing.refusal != 0) {
        uint8_t line[SUNDRIXA_STOP_ROOM];
        struct sundrixa_line stop =
            sundrixa_stop_line(listing.refusal, listing.offset, listing.inner, line, sizeof line);

        fwrite(line, 1, (size_t)stop.length, stdout);
    }
    if (fflush(stdout) != 0 || ferror(stdout)) {
        fprintf(stderr, "%s: cannot write the listing\n", argv[0]);
        return 1;
    }
    return 0;
}
