/* A test of hodkhaki.h: each call, with collections of all types, and with archives that are written out by
 * hand. Prints the differences, and exits with 1 if there are any. This file is C99, and C++11 too. */
#include "test.h"

static void same_items(const char *what, const hk_item *got, const hk_item *wanted, size_t count) {
    for (size_t i = 0; i < count; i++) {
        same(what, got[i].next, wanted[i].next);
        same_value(what, got[i].key, wanted[i].key);
        same_value(what, got[i].value, wanted[i].value);
    }
}

/* Three values of each type. Those of an integer are 1, the greatest one, and 7. */
static hk_value sample(uint8_t type, size_t index) {
    static const hk_value texts[] = {T("a text out of line"), T(""), T("\xe2\x82\xac")};
    static const hk_value strings[] = {T("\xff"), T(""), T("\0a byte string")};
    static const uint32_t characters[] = {0x20ac, 0x10ffff, 0};
    switch (type) {
    case HK_UNIT: return hk_unit();
    case HK_TEXT: return texts[index];
    case HK_BYTES: return strings[index];
    case HK_BOOL: return hk_bool(index % 2 == 1);
    case HK_CHAR: return hk_char(characters[index]);
    default: return index == 1 ? greatest(type) : hk_number(1 + 3 * index);
    }
}

/* The index of the first pair with the key of a pair. */
static size_t first_of(const hk_pair *pairs, size_t index) {
    size_t first = 0;
    while (!equal(pairs[first].key, pairs[index].key)) {
        first++;
    }
    return first;
}

static hk_status set(hk_map *map, hk_value key) {
    return hk_set(map, key, greatest(map->types.value));
}

/* The errors of a key, and the members of a key that calls do not read. */
static void key_errors(hk_map *map, key_call *call) {
    const uint8_t type = map->types.key;
    const hk_value null_number = {77, NULL, SIZE_MAX};
    if (type == HK_TEXT) {
        const hk_value with_number = {77, "absent", 6};
        returns("not a text", call(map, hk_str("a\xff")), HK_NOT_TEXT);
        returns("a text that is cut", call(map, hk_text("\xc3\xa9", 1)), HK_NOT_TEXT);
        returns("null", call(map, hk_text(NULL, 1)), HK_NULL);
        returns("null, too long", call(map, hk_text(NULL, SIZE_MAX)), HK_NULL);
        returns("too long, not a text", call(map, hk_text("\xff", SIZE_MAX)), HK_TOO_LONG);
        returns("a text with a number", call(map, with_number), HK_NOT_FOUND);
        return;
    }
    returns("a number of null bytes", call(map, null_number), HK_NOT_FOUND);
    if (size_of(type) < 8) {
        returns("too large", call(map, hk_number(1ull << 8 * size_of(type))), HK_VALUE_TOO_LARGE);
        returns("too large", call(map, hk_number(UINT64_MAX)), HK_VALUE_TOO_LARGE);
    }
    if (type == HK_CHAR) {
        returns("a surrogate", call(map, hk_char(0xd800)), HK_VALUE_TOO_LARGE);
        returns("a surrogate", call(map, hk_char(0xdfff)), HK_VALUE_TOO_LARGE);
        returns("no character", call(map, hk_char(0x110000)), HK_VALUE_TOO_LARGE);
        returns("a character", call(map, hk_char(0xe000)), HK_NOT_FOUND);
    }
}

/* Tests that the bytes of a stored value are a part of the archive. */
static void in_archive(const hk_map *map, hk_value value) {
    const uint8_t *bytes = (const uint8_t *)value.bytes;
    same("in the archive", value.length == 0
         || (map->bytes <= bytes && bytes + value.length <= map->bytes + map->length), 1);
}

/* The result of a lookup of one key. */
static hk_looked_up looked_up(const hk_map *map, hk_value key) {
    hk_looked_up result = {HK_OK, {0, NONE}};
    result.status = hk_get(map, key, &result.found.value);
    if (result.status == HK_OK && is_index(map->types)) {
        returns("find", hk_find(map, key, &result.found), HK_OK);
    }
    return result;
}

/* The results of lookups of several keys by one call are those of as many calls for one. The keys are
 * those of the pairs and others, also such as have errors. */
static void looks_up_several(const hk_map *map, const hk_pair *pairs, size_t count) {
    static const size_t numbers[] = {0, 1, 2, 63, 64, 65, 128, 150};
    const hk_value others[] = {absent(map->types.key), hk_number(UINT64_MAX), hk_str("a\xff"),
                               hk_text(NULL, 1), hk_text("\xff", SIZE_MAX), hk_text(NULL, 0)};
    hk_value keys[150];
    hk_looked_up results[COUNT(keys) + 1];
    for (size_t i = 0; i < COUNT(keys); i++) {
        const size_t k = i % (count + COUNT(others));
        keys[i] = k < count ? pairs[k].key : others[k - count];
    }
    for (size_t n = 0; n < COUNT(numbers); n++) {
        const size_t number = numbers[n];
        hk_looked_up *after = results + number;
        after->status = HK_END;
        after->found.index = 99;
        returns("get many", number != 0 ? hk_get_many(map, keys, number, results)
                                        : hk_get_many(map, NULL, 0, NULL), HK_OK);
        for (size_t i = 0; i < number; i++) {
            const hk_looked_up wanted = looked_up(map, keys[i]);
            returns("a status of several", results[i].status, wanted.status);
            same("an index of several", results[i].found.index, wanted.found.index);
            same_value("a value of several", results[i].found.value, wanted.found.value);
            in_archive(map, results[i].found.value);
        }
        same("kept", after->status == HK_END && after->found.index == 99, 1);
    }
    results[0].status = HK_END;
    returns("no keys", hk_get_many(map, NULL, 1, results), HK_NULL);
    returns("no results", hk_get_many(map, keys, 1, NULL), HK_NULL);
    returns("no keys, too many", hk_get_many(map, NULL, SIZE_MAX, results), HK_NULL);
    returns("too many keys", hk_get_many(map, keys, SIZE_MAX, results), HK_TOO_LONG);
    returns("too many results", hk_get_many(map, keys, PTRDIFF_MAX / sizeof *results + 1, results),
            HK_TOO_LONG);
    returns("kept", results[0].status, HK_END);
}

/* The lookups of a collection with these pairs. */
static void looks_up(hk_map *map, const hk_pair *pairs, size_t count) {
    const hk_status of_index = is_index(map->types) ? HK_OK : HK_WRONG_KIND;
    for (size_t i = 0; i < count; i++) {
        const size_t first = first_of(pairs, i);
        hk_value value = {9, "kept", 4};
        hk_found found = {99, {9, "kept", 4}};
        returns("get", hk_get(map, pairs[i].key, &value), HK_OK);
        same_value("the value of get", value, pairs[first].value);
        in_archive(map, value);
        returns("get no value", hk_get(map, pairs[i].key, NULL), HK_OK);
        returns("contains", hk_contains(map, pairs[i].key), HK_OK);
        returns("find", hk_find(map, pairs[i].key, &found), of_index);
        same("the index of find", found.index, of_index == HK_OK ? first : 99);
        if (of_index == HK_OK) {
            same_value("the value of find", found.value, pairs[first].value);
        }
        returns("find nothing", hk_find(map, pairs[i].key, NULL), of_index);
    }
    returns("get another", get(map, absent(map->types.key)), HK_NOT_FOUND);
    returns("contains another", contains(map, absent(map->types.key)), HK_NOT_FOUND);
    returns("find another", find(map, absent(map->types.key)),
            of_index == HK_OK ? HK_NOT_FOUND : of_index);
    looks_up_several(map, pairs, count);
    key_errors(map, get);
    key_errors(map, contains);
    if (of_index == HK_OK) {
        key_errors(map, find);
    }
}

/* The iterations of a collection with these pairs. Several items of one call are those of as many calls
 * for one. */
static void iterates(const hk_map *map, const hk_pair *pairs, size_t count) {
    hk_item all[MOST + 1], some[MOST + 3], one = HK_ITEM_START;
    size_t stored = 9;
    returns("all items", hk_items(map, 0, all, MOST + 1, &stored), HK_OK);
    same("the number of all", stored, count);
    for (size_t i = 0; i < count; i++) {
        size_t times = 0, wanted = 0;
        for (size_t k = 0; k < count; k++) {
            times += equal(all[k].key, pairs[i].key) && equal(all[k].value, pairs[i].value);
            wanted += equal(pairs[k].key, pairs[i].key) && equal(pairs[k].value, pairs[i].value);
        }
        same("an item of all", times, wanted);
        returns("next", hk_next(map, &one), HK_OK);
        same_items("the item of next", &one, &all[i], 1);
        in_archive(map, one.key);
        in_archive(map, one.value);
        same("in order", is_index(map->types) ? all[i].next == i + 1 : all[i].next > i, 1);
        same("the pair", !is_index(map->types) || equal(all[i].key, pairs[i].key), 1);
    }
    for (int again = 0; again < 2; again++) {
        const hk_item kept = one;
        returns("end", hk_next(map, &one), HK_END);
        same("kept", one.next == kept.next && equal(one.key, kept.key) && equal(one.value, kept.value), 1);
    }
    one.next = UINT64_MAX;
    returns("far after the end", hk_next(map, &one), HK_END);
    for (size_t from = 0; from <= count; from++) {
        for (size_t room = 0; room <= count + 2; room++) {
            const size_t left = count - from, wanted = room < left ? room : left;
            const uint64_t next = from != 0 ? all[from - 1].next : 0;
            returns("items", hk_items(map, next, room != 0 ? some : NULL, room, &stored), HK_OK);
            same("the number of items", stored, wanted);
            same_items("an item of several", some, all + from, wanted);
        }
    }
    returns("far after the end", hk_items(map, UINT64_MAX, some, MOST, &stored), HK_OK);
    same("none", stored, 0);
    stored = 9;
    returns("null", hk_next(map, NULL), HK_NULL);
    returns("null, too many", hk_items(map, 0, some, SIZE_MAX, NULL), HK_NULL);
    returns("null, too many", hk_items(map, 0, NULL, SIZE_MAX, &stored), HK_NULL);
    returns("too many", hk_items(map, 0, some, SIZE_MAX, &stored), HK_TOO_LONG);
    same("kept", stored, 9);

    const bool of_index = is_index(map->types);
    for (size_t i = 0; i < count + 2; i++) {
        hk_item item = {9, NONE, NONE};
        const size_t index = i <= count ? i : SIZE_MAX;
        returns("at", hk_at(map, index, &item), !of_index ? HK_WRONG_KIND : i < count ? HK_OK : HK_END);
        if (of_index && i < count) {
            same_items("the item at", &item, &all[i], 1);
        } else {
            same("kept", item.next, 9);
        }
    }
    returns("at null", hk_at(map, count, NULL), of_index ? HK_NULL : HK_WRONG_KIND);
}

/* The number of misplaced keys. In a table with fewer than 17 buckets, each lookup of a key reads sixteen
 * control bytes once. */
static void are_misplaced(const hk_map *map, uint64_t keys, uint64_t misplaced) {
    uint64_t count = 9;
    if (keys > 0) {
        returns("one too small", hk_misplaced_up_to(map, keys - 1, &count), HK_LIMIT_REACHED);
        returns("a limit of 0", hk_misplaced_up_to(map, 0, &count), HK_LIMIT_REACHED);
        same("kept", count, 9);
    }
    returns("exact", hk_misplaced_up_to(map, keys, &count), HK_OK);
    same("misplaced", count, misplaced);
    count = 9;
    returns("no limit", hk_misplaced_up_to(map, UINT64_MAX, &count), HK_OK);
    same("misplaced", count, misplaced);
    returns("null, limit", hk_misplaced_up_to(map, 0, NULL), HK_NULL);
}

/* All that reads, of a collection with these pairs. A key is misplaced if an earlier pair has it. */
static void reads(hk_map *map, const hk_pair *pairs, size_t count) {
    size_t got = 9, misplaced = 0;
    returns("count", hk_count(map, &got), HK_OK);
    same("count", got, count);
    returns("count null", hk_count(map, NULL), HK_NULL);
    looks_up(map, pairs, count);
    iterates(map, pairs, count);
    for (size_t i = 0; i < count; i++) {
        misplaced += first_of(pairs, i) != i;
    }
    if (count < 14) {
        are_misplaced(map, count, misplaced);
    }
}

/* Writing in place. After each value that is written, the collection has the others as before. */
static void writes(uint8_t *bytes, size_t length, hk_types types, const hk_pair *pairs, size_t count) {
    hk_pair changed[MOST];
    hk_map map;
    const bool written = is_written(types.value);
    const hk_status of_absent = written ? HK_NOT_FOUND : HK_WRONG_KIND;
    returns("open", hk_open(bytes, length, types, &map), HK_OK);
    returns("read only, too large", hk_set(&map, absent(types.key), hk_number(UINT64_MAX)),
            written ? HK_READ_ONLY : HK_WRONG_KIND);
    returns("open", hk_open_writable(bytes, length, types, &map), HK_OK);
    returns("set another", hk_set(&map, absent(types.key), hk_number(1)), of_absent);
    if (!written) {
        returns("wrong kind, null", hk_set(&map, hk_text(NULL, 1), hk_unit()), HK_WRONG_KIND);
        return;
    }
    key_errors(&map, set);
    memcpy(changed, pairs, count * sizeof *pairs);
    for (size_t i = 0; i < count; i++) {
        if (size_of(types.value) < 8) {
            const hk_value large = hk_number(1ull << 8 * size_of(types.value));
            returns("too large", hk_set(&map, pairs[i].key, large), HK_VALUE_TOO_LARGE);
            returns("too large, not found", hk_set(&map, absent(types.key), large), HK_VALUE_TOO_LARGE);
        }
        changed[first_of(pairs, i)].value = greatest(types.value);
        returns("set", hk_set(&map, pairs[i].key, greatest(types.value)), HK_OK);
        looks_up(&map, changed, count);
    }
    returns("open again", hk_open(bytes, length, types, &map), HK_OK);
    looks_up(&map, changed, count);
}

/* The archive of pairs by `hk_build` and by a builder, which are the same. The caller frees it. */
static uint8_t *built(hk_types types, const hk_pair *pairs, size_t count, size_t *length) {
    uint8_t *bytes = NULL, *other = NULL;
    size_t other_length = 9;
    hk_builder *builder = NULL;
    returns("build", hk_build(count != 0 ? pairs : NULL, count, types, &bytes, length), HK_OK);
    returns("new", hk_builder_new(types, &builder), HK_OK);
    for (size_t i = 0; i <= count; i++) {
        /* A builder takes further items after it has built an archive. */
        hk_bytes_free(other);
        returns("finish", hk_builder_finish(builder, &other, &other_length), HK_OK);
        if (i < count) {
            returns("put", hk_builder_put(builder, pairs[i].key, pairs[i].value), HK_OK);
        }
    }
    hk_builder_free(builder);
    same("the length by a builder", other_length, *length);
    same("by a builder", other_length == *length && memcmp(bytes, other, *length) == 0, 1);
    hk_bytes_free(other);
    return bytes;
}

/* Collections of all types: of none to three items, the third of which has the key of the first. A
 * builder, `hk_build` and containers take the types if there is such a collection. */
static void collections(void) {
    unsigned tested = 0;
    for (size_t index = 0; index < ALL; index++) {
        const hk_types types = types_at(index);
        hk_pair pairs[3];
        current = types;
        for (size_t i = 0; i < 3; i++) {
            pairs[i].key = sample(types.key, i % 2);
            pairs[i].value = sample(types.value, i);
        }
        if (!is_there(types)) {
            uint8_t *bytes = NULL;
            size_t length = 9;
            returns("build", hk_build(pairs, 3, types, &bytes, &length), HK_UNKNOWN_KIND);
            continue;
        }
        for (size_t count = 0; count <= 3; count++) {
            size_t length = 9;
            hk_map map;
            uint8_t *bytes = built(types, pairs, count, &length);
            returns("open", hk_open(bytes, length, types, &map), HK_OK);
            same("the types", memcmp(&map.types, &types, sizeof types) == 0, 1);
            reads(&map, pairs, count);
            writes(bytes, length, types, pairs, count);
            hk_bytes_free(bytes);
            same("blocks", blocks, 0);
        }
        tested++;
    }
    same("collections", tested, 10 * (14 + 1) * 2 * 2);
}

/* Whether the bytes open as the collection of the row. `hk_explain` has the same error. */
static hk_status opens(const uint8_t *bytes, size_t length, hk_types types) {
    hk_error error = {9, 9, 9, 9};
    hk_item items[MOST];
    size_t count = 0;
    hk_map map;
    const hk_status status = hk_open(bytes, length, types, &map);
    returns("explain", hk_explain(bytes, length, types, &error), HK_OK);
    same("the error", error.status, status);
    same("no numbers", status != HK_OK || (error.position == 0 && error.first == 0 && error.second == 0), 1);
    if (status == HK_OK) {
        returns("items", hk_items(&map, 0, items, MOST, &count), HK_OK);
    }
    for (size_t i = 0; i < count; i++) {
        const hk_status found = hk_get(&map, items[i].key, NULL);
        same("found or not", found == HK_OK || found == HK_NOT_FOUND, 1);
    }
    return status;
}

/* An archive that is written out by hand: at any address, cut, and with each bit of it changed. */
static void row_reads(const struct row *row) {
    uint8_t *bytes = bytes_of(row), moved[160];
    hk_map map;
    for (size_t at = 0; at < 8; at++) {
        memcpy(moved + at, bytes, row->length);
        returns("open", hk_open(moved + at, row->length, row->types, &map), HK_OK);
        reads(&map, row->pairs, row->count);
    }
    returns("cut", opens(bytes, row->length - 1, row->types), HK_UNALIGNED);
    returns("empty", opens(NULL, 0, row->types), HK_OUT_OF_RANGE);
    for (size_t i = 0; i < 8 * row->length; i++) {
        bytes[i / 8] ^= (uint8_t)(1 << i % 8);
        opens(bytes, row->length, row->types);
        bytes[i / 8] ^= (uint8_t)(1 << i % 8);
    }
    returns("as before", opens(bytes, row->length, row->types), HK_OK);
    writes(bytes, row->length, row->types, row->pairs, row->count);
    free(bytes);
}

/* The calls build the archive of a row. If a request of memory fails, nothing is stored. */
static void row_is_built(const struct row *row) {
    uint8_t *bytes = bytes_of(row), *made;
    size_t length = 9, all = 0;
    made = built(row->types, row->pairs, row->count, &length);
    same("the length", length, row->length);
    same("the bytes", length == row->length && memcmp(made, bytes, length) == 0, 1);
    hk_bytes_free(made);
    requests = 0;
    returns("build", hk_build(row->pairs, row->count, row->types, &made, &length), HK_OK);
    hk_bytes_free(made);
    made = NULL;
    length = 9;
    all = requests;
    same("some requests", all > 0, 1);
    for (size_t one = 0; one < all; one++) {
        requests = 0;
        failing = one;
        returns("fail", hk_build(row->pairs, row->count, row->types, &made, &length), HK_NO_MEMORY);
        same("kept", made == NULL && length == 9 && blocks == 0, 1);
    }
    failing = SIZE_MAX;
    same("blocks", blocks, 0);
    free(bytes);
}

/* The status of opening a container of some types as one of others. */
static hk_status opened_as(hk_types types, hk_types other) {
    return types.kind != other.kind     ? HK_CONTAINER_WRONG_COLLECTION
           : types.key != other.key     ? HK_CONTAINER_WRONG_KEY_TYPE
           : types.value != other.value ? HK_CONTAINER_WRONG_VALUE_TYPE
           : types.width != other.width && other.width != HK_ANY_WIDTH ? HK_CONTAINER_WRONG_WIDTH
                                                                       : HK_OK;
}

/* The container of a row: it opens as its own types only, and not as an archive. */
static void row_in_container(const struct row *row, bool checksum) {
    const hk_types of = row->types;
    const uint8_t wanted[] = {0x89,    'R',    'K',      'Y',      'V', 0x0d, 0x0a, 0x1a, 1, 0, of.kind,
                              of.key, of.value, of.width, checksum, 0,   (uint8_t)row->length};
    uint8_t *archive = bytes_of(row), bytes[192], other[192] = {0}, header[HK_CONTAINER_HEADER];
    size_t size = 9;
    hk_types types = {9, 9, 9, 9};
    hk_map map;
    returns("size", hk_container_size(row->length, &size), HK_OK);
    same("size", size, row->length + 32);
    returns("write", hk_container_write(archive, row->length, row->types, checksum, bytes, size), HK_OK);
    same("the header", memcmp(bytes, wanted, sizeof wanted) == 0, 1);
    same("the archive", memcmp(bytes + HK_CONTAINER_HEADER, archive, row->length) == 0, 1);
    returns("header", hk_container_header(archive, row->length, row->types, checksum, header), HK_OK);
    same("the same header", memcmp(bytes, header, sizeof header) == 0, 1);
    /* An archive may be at any position of the container. */
    for (size_t at = 0; at <= HK_CONTAINER_HEADER; at += 16) {
        memcpy(other + at, archive, row->length);
        returns("write", hk_container_write(other + at, row->length, of, checksum, other, size), HK_OK);
        same("the same", memcmp(bytes, other, size) == 0, 1);
    }
    returns("types", hk_container_types(bytes, HK_CONTAINER_HEADER, &types), HK_OK);
    same("the types", memcmp(&types, &row->types, sizeof types) == 0, 1);
    for (size_t i = 0; i < 3 * COUNT(rows); i++) {
        hk_error error = {9, 9, 9, 9};
        hk_types as = rows[i / 3].types;
        as.width = i % 3 == 0 ? HK_ANY_WIDTH : i % 3 == 1 ? HK_NARROW : HK_WIDE;
        const hk_status status = opened_as(row->types, as);
        returns("open", hk_open_container(bytes, size, as, &map), status);
        same("open or closed", map.types.kind, status == HK_OK ? row->types.kind : 0);
        returns("explain", hk_container_explain(bytes, size, as, &error), HK_OK);
        same("the error", error.status, status);
        if (status == HK_OK) {
            same("the types", memcmp(&map.types, &row->types, sizeof types) == 0, 1);
            reads(&map, row->pairs, row->count);
            returns("read only", hk_set(&map, absent(as.key), hk_number(1)),
                    is_written(as.value) ? HK_READ_ONLY : HK_WRONG_KIND);
        }
    }
    returns("as an archive", opens(bytes, size, row->types), HK_IS_CONTAINER);
    returns("as an archive", hk_open_writable(bytes, size, row->types, &map), HK_IS_CONTAINER);
    same("closed", map.types.kind, 0);
    returns("cut", hk_open_container(bytes, size - 1, row->types, &map), HK_CONTAINER_WRONG_LENGTH);
    /* Without the first byte it is an archive after 31 other bytes. */
    returns("not a container", opens(bytes + 1, size - 1, row->types), HK_UNALIGNED);
    if (is_written(row->types.value) && checksum) {
        hk_value value = NONE;
        returns("write", hk_open_container_writable(bytes, size, row->types, &map), HK_OK);
        returns("set", hk_set(&map, row->pairs[0].key, greatest(row->types.value)), HK_OK);
        returns("an old checksum", hk_open_container(bytes, size, row->types, &map),
                HK_CONTAINER_WRONG_CHECKSUM);
        returns("update", hk_container_update(bytes, size), HK_OK);
        returns("open", hk_open_container(bytes, size, row->types, &map), HK_OK);
        returns("get", hk_get(&map, row->pairs[0].key, &value), HK_OK);
        same_value("written", value, greatest(row->types.value));
    }
    free(archive);
}

/* An archive whose first bytes are a container, as a byte string in it, is not a container. */
static void container_in_an_archive(void) {
    const hk_types types = hk_types_of(HK_MAP, HK_U8, HK_BYTES, HK_NARROW);
    uint8_t *archive = bytes_of(one_to_two), container[92], *bytes = NULL;
    size_t length = 0;
    hk_value value = NONE;
    hk_map map;
    returns("write", hk_container_write(archive, 60, one_to_two->types, true, container, 92), HK_OK);
    const hk_pair pair = {hk_number(1), hk_bytes(container, sizeof container)};
    returns("build", hk_build(&pair, 1, types, &bytes, &length), HK_OK);
    same("the first bytes", memcmp(bytes, container, sizeof container) == 0, 1);
    returns("open", hk_open(bytes, length, types, &map), HK_OK);
    returns("get", hk_get(&map, hk_number(1), &value), HK_OK);
    same_value("the container", value, pair.value);
    hk_bytes_free(bytes);
    free(archive);
}

/* The structs have the sizes that the static library and the Rust crate have too. */
static void sizes(void) {
    same("types", sizeof(hk_types), 4);
    same("value", sizeof(hk_value), 24);
    same("pair", sizeof(hk_pair), 48);
    same("item", sizeof(hk_item), 56);
    same("found", sizeof(hk_found), 32);
    same("looked up", sizeof(hk_looked_up), 40);
    same("table header", sizeof(hk_table_header), 40);
    same("map", sizeof(hk_map), 80);
    same("error", sizeof(hk_error), 32);
}

/* The functions that make values and read them. */
static void values(void) {
    const hk_item item = HK_ITEM_START;
    char version[32];
    same("an item", item.next == 0 && item.key.length == 0 && item.value.bytes == NULL, 1);
    same("a number", hk_number(UINT64_MAX).number, UINT64_MAX);
    same("i8", hk_i8(-1).number, 0xff);
    same("i16", hk_i16(-2).number, 0xfffe);
    same("i32", hk_i32(INT32_MIN).number, 0x80000000);
    same("i64", hk_i64(-1).number, UINT64_MAX);
    same("signed numbers", hk_as_i8(hk_i8(-1)) == -1 && hk_as_i16(hk_i16(-2)) == -2, 1);
    same("signed numbers", hk_as_i32(hk_i32(INT32_MIN)) == INT32_MIN && hk_as_i64(hk_i64(-7)) == -7, 1);
    same("bool", hk_bool(true).number == 1 && hk_bool(false).number == 0, 1);
    same("bool", hk_as_bool(hk_bool(true)) && !hk_as_bool(hk_bool(false)), 1);
    same("char", hk_char(0x20ac).number == 0x20ac && hk_as_char(hk_char(0x20ac)) == 0x20ac, 1);
    same("f32", hk_f32(1.5f).number == 0x3fc00000 && hk_as_f32(hk_f32(-0.5f)) == -0.5f, 1);
    same("f64", hk_f64(1.5).number == 0x3ff8000000000000 && hk_as_f64(hk_f64(-0.5)) == -0.5, 1);
    same("text", hk_text("abc", 2).length == 2 && hk_as_text(hk_text("abc", 2))[1] == 'b', 1);
    same("str", hk_str("abc").length == 3 && hk_str("").length == 0, 1);
    same("bytes", hk_bytes("\0b", 2).length == 2 && hk_bytes(NULL, 0).bytes == NULL, 1);
    same("unit", hk_unit().number == 0 && hk_unit().length == 0 && hk_unit().bytes != NULL, 1);
    snprintf(version, sizeof version, "%d.%d.%d", HK_VERSION_MAJOR, HK_VERSION_MINOR, HK_VERSION_PATCH);
    same("version", strcmp(version, HK_VERSION) == 0, 1);
}

/* A status and its name. */
#define NAMED(status) {status, #status}

/* Each status has its name and its message, and other numbers have none. */
static void names(void) {
    static const struct named {
        uint32_t status;
        const char *name;
    } named[] = {
        NAMED(HK_OK), NAMED(HK_NOT_FOUND), NAMED(HK_END), NAMED(HK_VALUE_TOO_LARGE),
        NAMED(HK_NOT_TEXT), NAMED(HK_NULL), NAMED(HK_TOO_LONG), NAMED(HK_UNKNOWN_KIND),
        NAMED(HK_UNKNOWN_WIDTH), NAMED(HK_WRONG_KIND), NAMED(HK_CLOSED),
        NAMED(HK_READ_ONLY), NAMED(HK_NO_MEMORY), NAMED(HK_WRONG_SIZE), NAMED(HK_OVERLAP),
        NAMED(HK_LIMIT_REACHED), NAMED(HK_OUT_OF_RANGE), NAMED(HK_UNALIGNED),
        NAMED(HK_INVALID_LENGTH),
        NAMED(HK_WRONG_NUMBER_OF_ELEMENTS), NAMED(HK_UNWRAPPED_CONTROL_BYTE),
        NAMED(HK_PLACE_OUT_OF_RANGE), NAMED(HK_INVALID_VALUE), NAMED(HK_REFUSED),
        NAMED(HK_CAPACITY_TOO_LARGE), NAMED(HK_POSITION_TOO_LARGE),
        NAMED(HK_DISTANCE_TOO_LARGE), NAMED(HK_TEXT_TOO_LONG), NAMED(HK_INVALID_LOAD_FACTOR),
        NAMED(HK_ITERATOR_LENGTH_MISMATCH), NAMED(HK_CONTAINER_TOO_SHORT),
        NAMED(HK_CONTAINER_WRONG_MAGIC), NAMED(HK_CONTAINER_UNSUPPORTED_VERSION),
        NAMED(HK_CONTAINER_UNKNOWN_COLLECTION), NAMED(HK_CONTAINER_UNKNOWN_KEY_TYPE),
        NAMED(HK_CONTAINER_UNKNOWN_VALUE_TYPE), NAMED(HK_CONTAINER_UNKNOWN_WIDTH),
        NAMED(HK_CONTAINER_UNKNOWN_FLAGS), NAMED(HK_CONTAINER_UNEXPECTED_CHECKSUM),
        NAMED(HK_CONTAINER_NONZERO_RESERVED), NAMED(HK_CONTAINER_WRONG_COLLECTION),
        NAMED(HK_CONTAINER_WRONG_KEY_TYPE), NAMED(HK_CONTAINER_WRONG_VALUE_TYPE),
        NAMED(HK_CONTAINER_WRONG_WIDTH), NAMED(HK_CONTAINER_WRONG_LENGTH),
        NAMED(HK_CONTAINER_WRONG_CHECKSUM), NAMED(HK_IS_CONTAINER),
    };
    const size_t count = sizeof named / sizeof *named;
    size_t next = 0;
    for (uint32_t status = 0; status < 64; status++) {
        const bool is_named = next < count && named[next].status == status;
        const char *wanted = is_named ? named[next].name : "unknown";
        same(wanted, strcmp(hk_status_name(status), wanted) == 0, 1);
        const char *message = hk_status_message(status);
        same(message, strcmp(message, "unknown status") != 0, is_named);
        same(message, message[0] != 0, 1);
        for (size_t i = 0; i < next; i++) {
            same(message, is_named && strcmp(message, hk_status_message(named[i].status)) == 0, 0);
        }
        next += is_named;
    }
    same("all", next, count);
    same("unknown", strcmp(hk_status_message(UINT32_MAX), "unknown status") == 0, 1);
    same("unknown", strcmp(hk_status_name(UINT32_MAX), "unknown") == 0, 1);
    same("end", strcmp(hk_status_message(HK_END), "no item remains, or none has the index") == 0, 1);
}

/* The number of calls that failed to allocate. Each of them is repeated. */
static size_t failures;

static bool again(hk_status status) {
    failures += status == HK_NO_MEMORY;
    if (status != HK_NO_MEMORY) {
        returns("a call", status, HK_OK);
    }
    return status == HK_NO_MEMORY && failures < 9;
}

/* The archive of forty pairs, built while one request of memory fails. */
static uint8_t *made_with(size_t one, hk_types types, hk_pair *pairs, size_t *length) {
    static char keys[MOST][MOST];
    uint8_t *bytes = NULL;
    hk_builder *builder = NULL;
    failing = one;
    requests = failures = 0;
    while (again(hk_builder_new(types, &builder))) {
    }
    for (unsigned i = 0; i < MOST; i++) {
        memset(keys[i], (int)('A' + i), MOST);
        pairs[i].key = types.key == HK_TEXT ? hk_text(keys[i], i) : hk_number(i);
        pairs[i].value = types.value == HK_TEXT ? hk_text(keys[i], MOST - i) : hk_number(i);
        while (again(hk_builder_put(builder, pairs[i].key, pairs[i].value))) {
        }
        /* The value of an item of a set is not read. */
        pairs[i].value = types.value == HK_UNIT ? hk_unit() : pairs[i].value;
    }
    while (again(hk_builder_finish(builder, &bytes, length))) {
    }
    hk_builder_free(builder);
    failing = SIZE_MAX;
    return bytes;
}

/* Forty pairs. Each request of memory fails in turn. One call then fails with HK_NO_MEMORY, and the
 * archive is the same. */
static void forty_pairs(uint8_t kind, uint8_t key, uint8_t value, uint8_t width) {
    const hk_types types = hk_types_of(kind, key, value, width);
    hk_pair pairs[MOST];
    size_t length = 0;
    hk_map map;
    current = types;
    uint8_t *bytes = made_with(SIZE_MAX, types, pairs, &length);
    const size_t all = requests;
    same("more than five requests", all > 5, 1);
    for (size_t one = 0; one < all; one++) {
        size_t other_length = 0;
        uint8_t *other = made_with(one, types, pairs, &other_length);
        same("failures", failures, 1);
        same("the same", other_length == length && memcmp(bytes, other, length) == 0, 1);
        hk_bytes_free(other);
    }
    returns("open", hk_open(bytes, length, types, &map), HK_OK);
    reads(&map, pairs, MOST);
    hk_bytes_free(bytes);
    same("blocks", blocks, 0);
}

/* A valid archive of others may have misplaced keys, which lookups do not find. */
static void misplaced_of_others(void) {
    hk_map map;
    hk_item item = HK_ITEM_START;

    /* The control byte of the key has another tag. */
    uint8_t *bytes = changed_row(one_to_two, 17, 0x29);
    bytes[19] = 0x29;
    returns("open", hk_open(bytes, one_to_two->length, one_to_two->types, &map), HK_OK);
    are_misplaced(&map, 1, 1);
    returns("not found", get(&map, hk_number(1)), HK_NOT_FOUND);
    returns("but there", hk_next(&map, &item), HK_OK);
    same("key", item.key.number, 1);
    free(bytes);

    /* The bucket of the key 5 has the index of the first pair. The key 1 is there twice. */
    bytes = changed_row(three_pairs, 4, 0);
    returns("open", hk_open(bytes, three_pairs->length, three_pairs->types, &map), HK_OK);
    are_misplaced(&map, 3, 2);
    returns("not found", find(&map, hk_number(5)), HK_NOT_FOUND);
    free(bytes);
}

/* In a map with many buckets, a lookup may read all control bytes. */
static void misplaced_of_many(void) {
    enum { BUCKETS = 64, CONTROLS = BUCKETS + 15, HEADER = 8 * BUCKETS + CONTROLS + 1 };
    uint8_t bytes[HEADER + 12];
    uint64_t count = 9;
    hk_map map;

    /* 63 pairs of 0 and 0, each with the tag 2. The hash of 0 is 0, with the tag 0, so no lookup finds
     * a pair. Bucket 63 is empty. A lookup reads the control bytes of the buckets 0 to 15, then of 16
     * to 31, then of 48 to 63, one of which is empty. */
    memset(bytes, 0, sizeof bytes);
    memset(bytes + 8 * BUCKETS, 2, CONTROLS);
    bytes[8 * BUCKETS + BUCKETS - 1] = 0xff;
    bytes[HEADER] = (uint8_t)-(CONTROLS + 1);
    memset(bytes + HEADER + 1, 0xff, 3);
    bytes[HEADER + 4] = BUCKETS - 1;
    bytes[HEADER + 8] = BUCKETS;
    returns("open", hk_open(bytes, sizeof bytes, one_to_two->types, &map), HK_OK);
    returns("one too small", hk_misplaced_up_to(&map, 3 * 63 - 1, &count), HK_LIMIT_REACHED);
    returns("twice the pairs", hk_misplaced_up_to(&map, 2 * 63, &count), HK_LIMIT_REACHED);
    same("kept", count, 9);
    returns("exact", hk_misplaced_up_to(&map, 3 * 63, &count), HK_OK);
    same("misplaced", count, 63);
}

int main(void) {
    sizes();
    values();
    names();
    for (size_t i = 0; i < COUNT(rows); i++) {
        current = rows[i].types;
        row_reads(&rows[i]);
        row_is_built(&rows[i]);
        row_in_container(&rows[i], false);
        row_in_container(&rows[i], true);
    }
    collections();
    container_in_an_archive();
    forty_pairs(HK_MAP, HK_U32, HK_U64, HK_NARROW);
    forty_pairs(HK_MAP, HK_U64, HK_U8, HK_WIDE);
    forty_pairs(HK_MAP, HK_TEXT, HK_TEXT, HK_NARROW);
    forty_pairs(HK_SET, HK_TEXT, HK_UNIT, HK_WIDE);
    forty_pairs(HK_INDEX_MAP, HK_CHAR, HK_I16, HK_NARROW);
    forty_pairs(HK_INDEX_MAP, HK_TEXT, HK_U64, HK_NARROW);
    forty_pairs(HK_INDEX_SET, HK_I8, HK_UNIT, HK_NARROW);
    misplaced_of_others();
    misplaced_of_many();
    return finished();
}
