/* An example of hodkhaki.h: opens the archive of a collection, or its container, and runs commands.
 *
 *     maps KIND KEYS VALUES WIDTH FILE [container] < COMMANDS
 *
 * words.h has the names of kinds, types and widths, and the words of keys and values. WIDTH may be `any`
 * for a container. A command is a line `get KEY`, `set KEY VALUE`, `count` or `list`, and for an index
 * map or index set `at INDEX`. `get` and `set` take no empty key and none with a space, which `list` may
 * print. Each command but `list` prints its status and, if that is HK_OK, its result on a line. `list`
 * prints a line for each item. An unknown command, and one with a word that is no value of its type,
 * prints HK_NOT_FOUND. `set` doesn't change the file. A line has at most 65,535 bytes, and none is zero.
 * A longer line prints HK_TOO_LONG, and no further line is read. The first line that is printed is the
 * status of opening. If it isn't HK_OK, its message is printed to standard error.
 *
 * The program exits with 1 if the file or the lines can't be read or standard output can't be
 * written, with 2 if the arguments are wrong, and else with 0. */
#include "words.h"

static char line[1 << 16];

static bool is_index(hk_types types) {
    return types.kind == HK_INDEX_MAP || types.kind == HK_INDEX_SET;
}

/* Prints a value after a space. That of an item of a set is not printed. */
static void print_after(uint8_t type, hk_value value) {
    printf("%s", type != HK_UNIT ? " " : "");
    print_value(type, value);
}

static void list(const hk_map *map) {
    hk_item item = HK_ITEM_START;
    while (hk_next(map, &item) == HK_OK) {
        print_value(map->types.key, item.key);
        print_after(map->types.value, item.value);
        printf("\n");
    }
}

static void count(const hk_map *map) {
    size_t count = 0;
    const hk_status status = hk_count(map, &count);
    printf("%s %llu\n", hk_status_name(status), (unsigned long long)count);
}

/* Looks up a key. In an index map and an index set, its index is printed too. */
static void get(const hk_map *map, hk_value key) {
    hk_found found = {0, hk_unit()};
    const hk_status status =
        is_index(map->types) ? hk_find(map, key, &found) : hk_get(map, key, &found.value);
    printf("%s", hk_status_name(status));
    if (status == HK_OK && is_index(map->types)) {
        printf(" %llu", (unsigned long long)found.index);
    }
    if (status == HK_OK) {
        print_after(map->types.value, found.value);
    }
    printf("\n");
}

static void at(const hk_map *map, size_t index) {
    hk_item item = HK_ITEM_START;
    const hk_status status = hk_at(map, index, &item);
    printf("%s", hk_status_name(status));
    if (status == HK_OK) {
        print_after(map->types.key, item.key);
        print_after(map->types.value, item.value);
    }
    printf("\n");
}

static void run(hk_map *map) {
    char *command = strtok(line, " "), *word = strtok(NULL, " "), *other = strtok(NULL, " ");
    hk_value key, value;
    if (command == NULL) {
        return;
    }
    if (strcmp(command, "list") == 0) {
        list(map);
    } else if (strcmp(command, "count") == 0) {
        count(map);
    } else if (strcmp(command, "at") == 0 && word != NULL && read_value(HK_U64, word, &key)) {
        at(map, (size_t)key.number);
    } else if (strcmp(command, "get") == 0 && word != NULL && read_value(map->types.key, word, &key)) {
        get(map, key);
    } else if (strcmp(command, "set") == 0 && other != NULL && read_value(map->types.key, word, &key)
               && read_value(map->types.value, other, &value)) {
        printf("%s\n", hk_status_name(hk_set(map, key, value)));
    } else {
        printf("%s\n", hk_status_name(HK_NOT_FOUND));
    }
}

/* Reads a file. Prints the error and returns null if that fails. */
static void *bytes_of(const char *path, size_t *length) {
    FILE *file = fopen(path, "rb");
    long size = file != NULL && fseek(file, 0, SEEK_END) == 0 ? ftell(file) : -1;
    void *bytes = size < 0 ? NULL : malloc(size != 0 ? (size_t)size : 1);
    if (bytes == NULL) {
        perror(path);
    } else {
        rewind(file);
        *length = fread(bytes, 1, (size_t)size, file);
        if (*length != (size_t)size) {
            fprintf(stderr, "%s: it can't be read whole\n", path);
            free(bytes);
            bytes = NULL;
        }
    }
    if (file != NULL) {
        fclose(file);
    }
    return bytes;
}

int main(int count, char **words) {
    size_t length = 0;
    hk_types types;
    hk_map map;
    const bool in_container = count == 7 && strcmp(words[6], "container") == 0;
    if ((count != 6 && !in_container) || !read_types((const char *const *)words + 1, &types)) {
        fprintf(stderr, "maps KIND KEYS VALUES WIDTH FILE [container] < COMMANDS\n");
        return 2;
    }
    void *bytes = bytes_of(words[5], &length);
    if (bytes == NULL) {
        return 1;
    }
    hk_status status = in_container ? hk_open_container_writable(bytes, length, types, &map)
                                    : hk_open_writable(bytes, length, types, &map);
    print_status(words[5], status);
    while (status == HK_OK && (status = next_line(line, sizeof line)) == HK_OK) {
        run(&map);
    }
    if (status == HK_TOO_LONG) {
        printf("%s\n", hk_status_name(status));
    }
    free(bytes);
    return streams_are_good() ? 0 : 1;
}
