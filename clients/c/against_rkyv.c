/* Compares the calls of hodkhaki.h with archives that the table code of rkyv 0.8.18 wrote.
 *
 *     against_rkyv FILE
 *
 * The file is that of crates/test_against_rkyv. A line has seven fields, separated by tabs: the
 * collection, the types of keys and of values, the width, the number of entries, the entries in
 * insertion order, and the bytes in hexadecimal.
 *
 * For each line whose types hodkhaki.h has, the archive of the entries is built, and has to be the
 * bytes of the line. Then the bytes of the line are opened, each key is looked up, and the entries
 * are iterated. In an index map and an index set, each entry is looked up by its index.
 *
 * Prints the number of archives of each collection that agree, and ends with 1 if one has none. At
 * the first difference, prints the number of the line and the step, and ends with 1. Ends with 2 if
 * its argument is missing. */
#include "words.h"

/* The names of the kinds in the file, in the order of their codes. */
static const struct word collections[] = {
    {"map", HK_MAP}, {"set", HK_SET}, {"index map", HK_INDEX_MAP}, {"index set", HK_INDEX_SET}};

/* A line of the file. The texts of its entries are in the bytes of the file. */
struct line {
    unsigned long number;
    hk_types types;
    size_t count;
    hk_pair *entries;
    /* For each entry, the number of times that an iteration has stored it. */
    unsigned *stored;
    uint8_t *bytes;
    size_t length;
};

/* Memory for this many elements, or the end of the program. */
static void *allocate(size_t count, size_t size) {
    void *block = calloc(count != 0 ? count : 1, size);
    if (block == NULL) {
        puts("no memory");
        exit(1);
    }
    return block;
}

/* Whether a condition of a step is true. If not, prints the line and the step. */
static bool is_true(const struct line *line, const char *step, bool condition) {
    if (!condition) {
        printf("line %lu: %s\n", line->number, step);
    }
    return condition;
}

/* Whether the status of a step is the expected one. */
static bool returns(const struct line *line, const char *step, hk_status got, hk_status wanted) {
    if (got != wanted) {
        printf("line %lu: %s: %s, not %s\n", line->number, step, hk_status_name(got),
               hk_status_name(wanted));
    }
    return got == wanted;
}

static bool same_value(hk_value one, hk_value other) {
    return one.number == other.number && one.length == other.length
        && (one.length == 0 || memcmp(one.bytes, other.bytes, one.length) == 0);
}

/* The archive of the entries, by the call for an array of them. */
static hk_status build(const struct line *line, uint8_t **bytes, size_t *length) {
    return hk_build(line->entries, line->count, line->types, bytes, length);
}

/* The archive of the entries, by a builder. */
static hk_status build_by_builder(const struct line *line, uint8_t **bytes, size_t *length) {
    hk_builder *builder = NULL;
    hk_status status = hk_builder_new(line->types, &builder);
    for (size_t i = 0; status == HK_OK && i < line->count; i++) {
        status = hk_builder_put(builder, line->entries[i].key, line->entries[i].value);
    }
    if (status == HK_OK) {
        status = hk_builder_finish(builder, bytes, length);
    }
    hk_builder_free(builder);
    return status;
}

/* Whether the archive that a call builds is the bytes of the line. */
static bool builds(const struct line *line, const char *step,
                   hk_status (*call)(const struct line *, uint8_t **, size_t *)) {
    uint8_t *bytes = NULL;
    size_t length = 0;
    bool good = returns(line, step, call(line, &bytes, &length), HK_OK);
    good = good && is_true(line, step, length == line->length)
        && is_true(line, step, memcmp(bytes, line->bytes, length) == 0);
    hk_bytes_free(bytes);
    return good;
}

/* A key of the line's type that no entry has. The texts of the file have no blanks. */
static hk_value absent_key(const struct line *line) {
    hk_value key = hk_number(0);
    if (line->types.key == HK_TEXT) {
        return hk_str("an absent key");
    }
    for (size_t i = 0; i < line->count; i++) {
        if (line->entries[i].key.number == key.number) {
            key.number++;
            i = SIZE_MAX;
        }
    }
    return key;
}

/* Whether the line has this entry, and the iteration has not stored it before. */
static bool is_new_entry(const struct line *line, const hk_item *item) {
    for (size_t i = 0; i < line->count; i++) {
        if (same_value(line->entries[i].key, item->key) && same_value(line->entries[i].value, item->value)) {
            return line->stored[i]++ == 0;
        }
    }
    return false;
}

/* Whether the entries of an index map or an index set are at their indices. */
static bool reads_indices(const struct line *line, const hk_map *map) {
    bool good = true;
    hk_item item = HK_ITEM_START;
    for (size_t i = 0; good && i < line->count; i++) {
        const hk_pair *entry = &line->entries[i];
        hk_found found = {0, hk_unit()};
        good = returns(line, "find", hk_find(map, entry->key, &found), HK_OK)
            && is_true(line, "the index of find", found.index == i)
            && is_true(line, "the value of find", same_value(found.value, entry->value))
            && returns(line, "at", hk_at(map, i, &item), HK_OK)
            && is_true(line, "the key of at", same_value(item.key, entry->key))
            && is_true(line, "the value of at", same_value(item.value, entry->value));
    }
    return good && returns(line, "find an absent key", hk_find(map, absent_key(line), NULL), HK_NOT_FOUND)
        && returns(line, "at the end", hk_at(map, line->count, &item), HK_END);
}

/* Whether the bytes of the line open as a collection with its entries. */
static bool reads(const struct line *line) {
    const bool of_index = line->types.kind == HK_INDEX_MAP || line->types.kind == HK_INDEX_SET;
    hk_map map;
    size_t count = 0;
    hk_item item = HK_ITEM_START;
    bool good = returns(line, "open", hk_open(line->bytes, line->length, line->types, &map), HK_OK)
        && returns(line, "count", hk_count(&map, &count), HK_OK)
        && is_true(line, "count", count == line->count);
    for (size_t i = 0; good && i < line->count; i++) {
        hk_value value = hk_unit();
        good = returns(line, "get", hk_get(&map, line->entries[i].key, &value), HK_OK)
            && is_true(line, "the value of get", same_value(value, line->entries[i].value))
            && returns(line, "contains", hk_contains(&map, line->entries[i].key), HK_OK);
    }
    good = good
        && returns(line, "get an absent key", hk_get(&map, absent_key(line), NULL), HK_NOT_FOUND);
    for (size_t i = 0; good && i <= line->count; i++) {
        good = returns(line, "next", hk_next(&map, &item), i < line->count ? HK_OK : HK_END)
            && (i == line->count || is_true(line, "the entry of next", is_new_entry(line, &item)));
    }
    return good && (!of_index || reads_indices(line, &map));
}

/* Removes the part before a separator from the rest, and the separator, and ends it with a zero byte.
 * Without a separator, it is all of the rest, and the rest is empty. */
static char *before(char **rest, char separator) {
    char *part = *rest, *at = strchr(part, separator);
    *rest = at != NULL ? at + 1 : part + strlen(part);
    if (at != NULL) {
        *at = 0;
    }
    return part;
}

/* Reads a key or a value. An empty text is two quotes, and the value of an item of a set is a word of no
 * bytes. */
static bool read_part(uint8_t type, char *word, hk_value *value) {
    const bool is_empty = type == HK_TEXT && strcmp(word, "\"\"") == 0;
    return (*word != 0 || type == HK_UNIT) && read_value(type, is_empty ? word + 2 : word, value);
}

/* Reads the entries and the bytes of a line. */
static bool read_contents(struct line *line, char *entries, char *digits) {
    line->entries = (hk_pair *)allocate(line->count, sizeof *line->entries);
    line->stored = (unsigned *)allocate(line->count, sizeof *line->stored);
    for (size_t i = 0; i < line->count; i++) {
        char *value = before(&entries, ' ');
        char *key = before(&value, '=');
        if (!read_part(line->types.key, key, &line->entries[i].key)
            || !read_part(line->types.value, value, &line->entries[i].value)) {
            return false;
        }
    }
    line->bytes = (uint8_t *)digits;
    return *entries == 0 && read_bytes(digits, &line->length);
}

/* Whether a line agrees. One whose types hodkhaki.h does not have is not counted. */
static bool line_agrees(unsigned long number, char *rest, unsigned long *counts) {
    struct line line = {number, {0, 0, 0, 0}, 0, NULL, NULL, NULL, 0};
    char *fields[6];
    uint64_t count = 0;
    for (size_t i = 0; i < 6; i++) {
        fields[i] = before(&rest, '\t');
    }
    if (!is_true(&line, "the fields", *rest != 0)
        || !is_true(&line, "the collection", READ_CODE(collections, fields[0], &line.types.kind))
        || !is_true(&line, "the width", READ_CODE(width_words, fields[3], &line.types.width))
        || !is_true(&line, "the count", read_integer(HK_U32, fields[4], &count))) {
        return false;
    }
    if (!READ_CODE(type_words, fields[1], &line.types.key)
        || !READ_CODE(type_words, fields[2], &line.types.value)) {
        return true;
    }
    line.count = (size_t)count;
    const bool good = is_true(&line, "the entries or the bytes", read_contents(&line, fields[5], rest))
        && builds(&line, "build", build) && builds(&line, "build by a builder", build_by_builder)
        && reads(&line);
    counts[line.types.kind - HK_MAP] += good;
    free(line.entries);
    free(line.stored);
    return good;
}

/* The bytes of a file and a zero byte, which the caller frees, or null. */
static char *contents_of(const char *path) {
    FILE *file = fopen(path, "rb");
    size_t room = 1 << 16, length = 0, got = 1;
    char *bytes = file != NULL ? (char *)allocate(room, 1) : NULL;
    while (bytes != NULL && got != 0) {
        got = fread(bytes + length, 1, room - length - 1, file);
        length += got;
        if (length + 1 == room) {
            char *larger = (char *)allocate(2 * room, 1);
            memcpy(larger, bytes, length);
            free(bytes);
            bytes = larger;
            room *= 2;
        }
    }
    if (bytes != NULL && ferror(file)) {
        free(bytes);
        bytes = NULL;
    }
    if (bytes != NULL) {
        bytes[length] = 0;
    }
    if (file != NULL) {
        fclose(file);
    }
    return bytes;
}

int main(int count, char **words) {
    unsigned long counts[4] = {0, 0, 0, 0}, number = 0;
    bool good = true, all_tested = true;
    if (count != 2) {
        fputs("usage: against_rkyv FILE\n", stderr);
        return 2;
    }
    char *contents = contents_of(words[1]), *rest = contents;
    if (contents == NULL) {
        perror(words[1]);
        return 1;
    }
    while (good && *rest != 0) {
        number++;
        good = line_agrees(number, before(&rest, '\n'), counts);
    }
    for (size_t i = 0; good && i < 4; i++) {
        printf("%s: %lu archives agree\n", collections[i].name, counts[i]);
        all_tested &= counts[i] != 0;
    }
    free(contents);
    return good && all_tested ? 0 : 1;
}
