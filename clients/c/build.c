/* An example of the calls of hodkhaki.h that build: builds the archive of a collection.
 *
 *     build KIND KEYS VALUES WIDTH FILE [container] < ITEMS
 *
 * words.h has the names of kinds, types and widths, and the words of keys and values. An item is a line
 * `VALUE KEY`, without spaces in the value. An item of a set is a line with a space in front. A line has
 * at most 65,535 bytes, and none is zero. The file has the archive, or its container with a checksum. The
 * last status is printed. It is HK_TOO_LONG for a longer line, and HK_VALUE_TOO_LARGE for a word that is
 * no value of its type. The file is written only if it is HK_OK, else its message is printed to standard
 * error. A file that can't be written whole is left in part.
 *
 * The program exits with 1 if the lines can't be read or the file or standard output can't be
 * written, with 2 if the arguments are wrong, and else with 0. */
#include "words.h"

static char line[1 << 16];

/* Appends the item of the line. */
static hk_status put(hk_builder *builder, hk_types types) {
    hk_value key, value;
    char *word = line + strcspn(line, " ");
    if (*word == ' ') {
        *word++ = 0;
    }
    if (!read_value(types.value, line, &value) || !read_value(types.key, word, &key)) {
        return HK_VALUE_TOO_LARGE;
    }
    return hk_builder_put(builder, key, value);
}

/* Builds the archive of the items of all lines. */
static hk_status build(hk_types types, uint8_t **bytes, size_t *length) {
    hk_builder *builder;
    hk_status status = hk_builder_new(types, &builder);
    while (status == HK_OK && (status = next_line(line, sizeof line)) == HK_OK) {
        status = put(builder, types);
    }
    if (status == HK_END && !ferror(stdin)) {
        status = hk_builder_finish(builder, bytes, length);
    }
    hk_builder_free(builder);
    return status;
}

/* Writes a file: the header of a container, which may be of no bytes, and an archive. Prints the error
 * and returns false if that fails. */
static bool written(const char *path, const uint8_t *header, size_t header_length, const uint8_t *bytes,
                    size_t length) {
    FILE *file = fopen(path, "wb");
    if (file == NULL) {
        perror(path);
        return false;
    }
    const bool is_whole = fwrite(header, 1, header_length, file) == header_length
        && fwrite(bytes, 1, length, file) == length;
    if (!is_whole) {
        perror(path);
    }
    if (fclose(file) != 0 && is_whole) {
        perror(path);
        return false;
    }
    return is_whole;
}

int main(int count, char **words) {
    hk_types types;
    uint8_t header[HK_CONTAINER_HEADER] = {0}, *bytes = NULL;
    size_t length = 0;
    const bool in_container = count == 7 && strcmp(words[6], "container") == 0;
    if ((count != 6 && !in_container) || !read_types((const char *const *)words + 1, &types)) {
        fprintf(stderr, "build KIND KEYS VALUES WIDTH FILE [container] < ITEMS\n");
        return 2;
    }
    hk_status status = build(types, &bytes, &length);
    if (status == HK_OK && in_container) {
        status = hk_container_header(bytes, length, types, true, header);
    }
    if (!ferror(stdin)) {
        print_status(words[5], status);
    }
    const bool is_written = status != HK_OK
        || written(words[5], header, in_container ? sizeof header : 0, bytes, length);
    hk_bytes_free(bytes);
    return streams_are_good() && is_written ? 0 : 1;
}
