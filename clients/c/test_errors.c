/* A test of the errors of hodkhaki.h: each one that small inputs can cause, alone and with the next one.
 * Prints the differences, and exits with 1 if there are any. This file is C99, and C++11 too. */
#include "test.h"

static void is_error(const char *what, hk_error error, hk_error wanted) {
    same(what, error.status, wanted.status);
    same(what, (uint64_t)error.position, (uint64_t)wanted.position);
    same(what, error.first, wanted.first);
    same(what, error.second, wanted.second);
}

/* The error of a row with one byte changed, and its numbers. */
static void explanations(void) {
    static const struct changed {
        size_t row;
        size_t position;
        uint8_t byte;
        hk_error error;
    } changes[] = {
        {0, 0, 1, {HK_OK, 0, 0, 0}},
        {0, 48, 0, {HK_OUT_OF_RANGE, -224, 47, 0}},
        {0, 48, 0xe1, {HK_UNALIGNED, 1, 4, 0}},
        {0, 52, 2, {HK_INVALID_LENGTH, 0, 2, 2}},
        {0, 17, 0xff, {HK_WRONG_NUMBER_OF_ELEMENTS, 0, 1, 0}},
        {0, 19, 0xff, {HK_UNWRAPPED_CONTROL_BYTE, 0, 3, 0}},
        {1, 0, 0xc3, {HK_INVALID_VALUE, 0, 0, 0}},
        {2, 44, 0xd7, {HK_OUT_OF_RANGE, -1, 9, 0}},
        {2, 8, 0xc3, {HK_INVALID_VALUE, 40, 0, 0}},
        {3, 16, 0xc3, {HK_INVALID_VALUE, 16, 0, 0}},
        {3, 0, 0xc3, {HK_INVALID_VALUE, 0, 0, 0}},
        {4, 44, 2, {HK_INVALID_LENGTH, 0, 2, 2}},
        {5, 0, 0xc3, {HK_INVALID_VALUE, 0, 0, 0}},
        {6, 52, 2, {HK_INVALID_LENGTH, 0, 2, 2}},
        {7, 68, 2, {HK_INVALID_LENGTH, 0, 2, 2}},
        {8, 8, 0xc3, {HK_INVALID_VALUE, 24, 0, 0}},
        {9, 0, 2, {HK_OK, 0, 0, 0}},
        {9, 72, 0xc9, {HK_UNALIGNED, 1, 4, 0}},
        {9, 76, 4, {HK_INVALID_LENGTH, 0, 4, 4}},
        {9, 17, 0xff, {HK_WRONG_NUMBER_OF_ELEMENTS, 0, 3, 2}},
        {9, 21, 0x29, {HK_UNWRAPPED_CONTROL_BYTE, 0, 5, 0}},
        {9, 0, 3, {HK_PLACE_OUT_OF_RANGE, 0, 3, 3}},
        {9, 84, 0xe0, {HK_OUT_OF_RANGE, 52, 24, 0}},
        {10, 48, 0xc3, {HK_INVALID_VALUE, 48, 0, 0}},
        {11, 0, 1, {HK_PLACE_OUT_OF_RANGE, 0, 1, 1}},
        {12, 39, 0xc3, {HK_INVALID_VALUE, 52, 0, 0}},
        {14, 64, 0xc3, {HK_INVALID_VALUE, 64, 0, 0}},
        {14, 48, 0xc3, {HK_INVALID_VALUE, 48, 0, 0}},
        {15, 1, 2, {HK_INVALID_VALUE, 1, 0, 0}},
        {17, 18, 0x11, {HK_INVALID_VALUE, 16, 0, 0}},
        {17, 20, 0xe9, {HK_OUT_OF_RANGE, -3, 2, 0}},
        {21, 52, 0x11, {HK_OK, 0, 0, 0}},
        {21, 54, 0x11, {HK_INVALID_VALUE, 52, 0, 0}},
        {24, 68, 0xc3, {HK_INVALID_VALUE, 96, 0, 0}},
        {25, 42, 0x11, {HK_INVALID_VALUE, 40, 0, 0}},
    };
    hk_error error = {9, 9, 9, 9};
    const hk_error of_nothing = {HK_OUT_OF_RANGE, -12, 12, 0};
    hk_map map;
    for (size_t i = 0; i < COUNT(changes); i++) {
        const struct row *row = &rows[changes[i].row];
        uint8_t *bytes = changed_row(row, changes[i].position, changes[i].byte);
        current = row->types;
        returns("explain", hk_explain(bytes, row->length, row->types, &error), HK_OK);
        is_error("an error", error, changes[i].error);
        returns("open", hk_open(bytes, row->length, row->types, &map), (hk_status)changes[i].error.status);
        free(bytes);
    }
    returns("empty", hk_explain(NULL, 0, one_to_two->types, &error), HK_OK);
    is_error("empty", error, of_nothing);
}

/* The container of the map of 1 to 2 has 92 bytes. */
#define CONTAINER 92

/* Writes the container of the map of 1 to 2, with a checksum or without one. */
static void container_of(uint8_t *bytes, bool checksum) {
    uint8_t *archive = bytes_of(one_to_two);
    returns("write", hk_container_write(archive, 60, one_to_two->types, checksum, bytes, CONTAINER), HK_OK);
    free(archive);
}

/* The status of a header with one wrong byte, as docs/FORMAT.md has it. */
static hk_status header_status(size_t index, uint8_t byte, bool checked) {
    const bool is_type = memchr(all_types, byte, sizeof all_types) != NULL;
    switch (index) {
    case 8:
    case 9: return HK_CONTAINER_UNSUPPORTED_VERSION;
    case 10:
        return byte >= 1 && byte <= 4 ? HK_CONTAINER_WRONG_COLLECTION : HK_CONTAINER_UNKNOWN_COLLECTION;
    case 11: return is_type ? HK_CONTAINER_WRONG_KEY_TYPE : HK_CONTAINER_UNKNOWN_KEY_TYPE;
    case 12: return is_type ? HK_CONTAINER_WRONG_VALUE_TYPE : HK_CONTAINER_UNKNOWN_VALUE_TYPE;
    case 13: return byte == 8 ? HK_CONTAINER_WRONG_WIDTH : HK_CONTAINER_UNKNOWN_WIDTH;
    case 14:
        return byte > 1    ? HK_CONTAINER_UNKNOWN_FLAGS
               : byte == 1 ? HK_CONTAINER_WRONG_CHECKSUM
                           : HK_CONTAINER_UNEXPECTED_CHECKSUM;
    case 15: return HK_CONTAINER_UNKNOWN_FLAGS;
    default: break;
    }
    return index < 8    ? HK_CONTAINER_WRONG_MAGIC
           : index < 24 ? HK_CONTAINER_WRONG_LENGTH
           : index >= 28 ? HK_CONTAINER_NONZERO_RESERVED
           : checked     ? HK_CONTAINER_WRONG_CHECKSUM
                         : HK_CONTAINER_UNEXPECTED_CHECKSUM;
}

/* Each byte of a header is each other byte, and a container is cut. */
static void damaged_containers(void) {
    uint8_t bytes[CONTAINER + 1] = {0};
    const hk_types types = one_to_two->types;
    hk_types any = types, found = {9, 9, 9, 9};
    hk_map map;
    any.width = HK_ANY_WIDTH;
    for (int checked = 0; checked < 2; checked++) {
        container_of(bytes, checked == 1);
        for (size_t index = 0; index < HK_CONTAINER_HEADER; index++) {
            const uint8_t kept = bytes[index];
            for (unsigned byte = 0; byte < 256; byte++) {
                const hk_status wrong = header_status(index, (uint8_t)byte, checked == 1);
                const hk_status wanted = byte == kept ? HK_OK : wrong;
                bytes[index] = (uint8_t)byte;
                returns("a header", hk_open_container(bytes, CONTAINER, types, &map), wanted);
                if (wanted != HK_OK && wanted < HK_CONTAINER_WRONG_COLLECTION) {
                    returns("its types", hk_container_types(bytes, CONTAINER, &found), wanted);
                }
            }
            bytes[index] = kept;
        }
        for (size_t length = 0; length <= CONTAINER + 1; length++) {
            const hk_status wanted = length < 32 ? HK_CONTAINER_TOO_SHORT : HK_CONTAINER_WRONG_LENGTH;
            returns("a length", hk_open_container(bytes, length, any, &map),
                    length == CONTAINER ? HK_OK : wanted);
        }
    }
    bytes[CONTAINER - 12] ^= 1;
    returns("a damaged archive", hk_open_container(bytes, CONTAINER, types, &map),
            HK_CONTAINER_WRONG_CHECKSUM);
    container_of(bytes, false);
    bytes[32 + 17] = 0xff;
    returns("an invalid archive", hk_open_container(bytes, CONTAINER, types, &map),
            HK_WRONG_NUMBER_OF_ELEMENTS);
    same("kept", found.kind == 9 && found.key == 9 && found.value == 9 && found.width == 9, 1);
}

/* The types of a container: those of each collection, and none of others. */
static void types_of_containers(void) {
    uint8_t bytes[CONTAINER];
    hk_types found = {9, 9, 9, 9};
    container_of(bytes, false);
    for (size_t index = 0; index < ALL; index++) {
        const hk_types types = types_at(index), kept = found;
        uint8_t header[HK_CONTAINER_HEADER];
        const bool has = is_there(types);
        memcpy(bytes + 10, &types, sizeof types);
        returns("types", hk_container_types(bytes, CONTAINER, &found), has ? HK_OK : HK_UNKNOWN_KIND);
        same("the types", memcmp(&found, has ? &types : &kept, sizeof found) == 0, 1);
        returns("a header", hk_container_header(NULL, 0, types, false, header),
                has ? HK_OK : HK_UNKNOWN_KIND);
    }
    returns("null", hk_container_types(bytes, CONTAINER, NULL), HK_NULL);
    returns("null", hk_container_types(NULL, 1, &found), HK_NULL);
    returns("null, too long", hk_container_types(NULL, SIZE_MAX, &found), HK_NULL);
    returns("too long", hk_container_types(bytes, SIZE_MAX, &found), HK_TOO_LONG);
    returns("nothing", hk_container_types(NULL, 0, &found), HK_CONTAINER_TOO_SHORT);
    returns("cut", hk_container_types(bytes, 31, &found), HK_CONTAINER_TOO_SHORT);
}

/* The error of the container of a row with one byte changed, opened as some types, and its numbers. */
static void container_explanations(void) {
    static const struct changed {
        hk_types types;
        size_t position;
        uint8_t byte;
        hk_error error;
    } changes[] = {
        {{HK_MAP, HK_U32, HK_U32, HK_NARROW}, 32, 1, {HK_OK, 0, 0, 0}},
        {{HK_MAP, HK_U32, HK_U32, HK_ANY_WIDTH}, 32, 1, {HK_OK, 0, 0, 0}},
        {{HK_MAP, HK_U32, HK_U32, HK_ANY_WIDTH}, 1, 'r', {HK_CONTAINER_WRONG_MAGIC, 0, 0, 0}},
        {{HK_MAP, HK_U32, HK_U32, HK_ANY_WIDTH}, 8, 2, {HK_CONTAINER_UNSUPPORTED_VERSION, 0, 2, 0}},
        {{HK_MAP, HK_U32, HK_U32, HK_WIDE}, 32, 1, {HK_CONTAINER_WRONG_WIDTH, 0, 8, 4}},
        {{HK_MAP, HK_U32, HK_U64, HK_NARROW}, 32, 1, {HK_CONTAINER_WRONG_VALUE_TYPE, 0, 0x18, 0x14}},
        {{HK_MAP, HK_U32, HK_F32, HK_NARROW}, 32, 1, {HK_CONTAINER_WRONG_VALUE_TYPE, 0, 0x34, 0x14}},
        {{HK_MAP, HK_TEXT, HK_U32, HK_ANY_WIDTH}, 32, 1, {HK_CONTAINER_WRONG_KEY_TYPE, 0, 4, 0x14}},
        {{HK_INDEX_MAP, HK_U32, HK_U32, HK_NARROW}, 32, 1, {HK_CONTAINER_WRONG_COLLECTION, 0, 3, 1}},
        {{HK_MAP, HK_U32, HK_U32, HK_NARROW}, 16, 61, {HK_CONTAINER_WRONG_LENGTH, 0, 61, 60}},
        {{HK_MAP, HK_U32, HK_U32, HK_ANY_WIDTH}, 32 + 52, 2, {HK_INVALID_LENGTH, 0, 2, 2}},
    };
    uint8_t bytes[CONTAINER];
    hk_error error = {9, 9, 9, 9};
    for (size_t i = 0; i < COUNT(changes); i++) {
        container_of(bytes, false);
        bytes[changes[i].position] = changes[i].byte;
        returns("explain", hk_container_explain(bytes, CONTAINER, changes[i].types, &error), HK_OK);
        is_error("an error", error, changes[i].error);
    }
}

/* The checksum of a container is written anew, and no other byte. */
static void updates(void) {
    uint8_t bytes[CONTAINER], kept[CONTAINER];
    container_of(bytes, false);
    memcpy(kept, bytes, CONTAINER);
    returns("update", hk_container_update(bytes, CONTAINER), HK_OK);
    returns("update a part", hk_container_update(bytes, CONTAINER - 1), HK_CONTAINER_WRONG_LENGTH);
    returns("update a header", hk_container_update(bytes, 31), HK_CONTAINER_TOO_SHORT);
    returns("update nothing", hk_container_update(NULL, 0), HK_CONTAINER_TOO_SHORT);
    returns("update null", hk_container_update(NULL, 1), HK_NULL);
    returns("null, too long", hk_container_update(NULL, SIZE_MAX), HK_NULL);
    returns("update too long", hk_container_update(bytes, SIZE_MAX), HK_TOO_LONG);
    bytes[28] = kept[28] = 1;
    returns("update", hk_container_update(bytes, CONTAINER), HK_CONTAINER_NONZERO_RESERVED);
    same("kept", memcmp(bytes, kept, CONTAINER) == 0, 1);
}

/* The header of a container is written before or after its archive, and fails with a byte of it. */
static void overlapping_headers(void) {
    const hk_types types = one_to_two->types;
    uint8_t bytes[2 * CONTAINER] = {0}, kept[2 * CONTAINER], *archive = bytes + HK_CONTAINER_HEADER;
    const size_t length = one_to_two->length;
    container_of(bytes, true);
    memset(bytes, 0, HK_CONTAINER_HEADER);
    memcpy(kept, bytes, sizeof bytes);
    returns("the first byte", hk_container_header(archive, length, types, true, bytes + 1), HK_OVERLAP);
    returns("the archive", hk_container_header(archive, length, types, true, archive), HK_OVERLAP);
    returns("the last byte", hk_container_header(archive, length, types, true, archive + length - 1),
            HK_OVERLAP);
    returns("around", hk_container_header(archive, 1, types, true, archive - 1), HK_OVERLAP);
    same("unchanged", memcmp(bytes, kept, sizeof bytes) == 0, 1);
    returns("before", hk_container_header(archive, length, types, true, bytes), HK_OK);
    returns("after", hk_container_header(archive, length, types, true, archive + length), HK_OK);
    same("the same header", memcmp(bytes, archive + length, HK_CONTAINER_HEADER) == 0, 1);
    same("the archive", memcmp(archive, kept + HK_CONTAINER_HEADER, length) == 0, 1);
    returns("no bytes", hk_container_header(archive, 0, types, true, archive), HK_OK);
    returns("of nothing", hk_container_header(NULL, 0, types, true, bytes), HK_OK);
    same("the checksum of nothing", bytes[24], 1);
}

/* Wrong arguments of the calls that write containers, each alone and each with the next one. */
static void container_errors(void) {
    const hk_types types = one_to_two->types, no_width = {HK_MAP, HK_U32, HK_U32, HK_ANY_WIDTH};
    const hk_types no_kind = {0, HK_U32, HK_U32, 0};
    uint8_t archive[60] = {0}, bytes[CONTAINER] = {0};
    size_t size = 9;
    const struct row_of_errors {
        const void *archive;
        size_t length;
        hk_types types;
        void *to;
        hk_status status;
    } errors[] = {
        {archive, 60, no_kind, bytes, HK_UNKNOWN_KIND},   {archive, 60, no_width, bytes, HK_UNKNOWN_WIDTH},
        {NULL, 60, no_width, bytes, HK_UNKNOWN_WIDTH},    {NULL, 60, types, bytes, HK_NULL},
        {NULL, SIZE_MAX, types, bytes, HK_NULL},          {archive, SIZE_MAX, types, bytes, HK_TOO_LONG},
        {archive, SIZE_MAX, types, NULL, HK_TOO_LONG},    {archive, 60, types, NULL, HK_NULL},
    };
    for (size_t i = 0; i < COUNT(errors); i++) {
        const struct row_of_errors *of = &errors[i];
        returns("write", hk_container_write(of->archive, of->length, of->types, true, of->to, 0), of->status);
        returns("header", hk_container_header(of->archive, of->length, of->types, true, (uint8_t *)of->to),
                of->status);
    }
    returns("too long", hk_container_write(archive, PTRDIFF_MAX, types, true, bytes, 0), HK_TOO_LONG);
    for (size = 0; size < 2 * CONTAINER; size++) {
        if (size != CONTAINER) {
            returns("a size", hk_container_write(archive, 60, types, true, bytes, size), HK_WRONG_SIZE);
        }
    }
    for (size_t i = 0; i < CONTAINER; i++) {
        same("kept", bytes[i], 0);
    }
    size = 9;
    returns("size null", hk_container_size(60, NULL), HK_NULL);
    returns("null, too long", hk_container_size(SIZE_MAX, NULL), HK_NULL);
    returns("size", hk_container_size((size_t)PTRDIFF_MAX - 31, &size), HK_TOO_LONG);
    returns("size", hk_container_size(SIZE_MAX, &size), HK_TOO_LONG);
    same("kept", size, 9);
    returns("size", hk_container_size((size_t)PTRDIFF_MAX - 32, &size), HK_OK);
    same("the greatest", size, PTRDIFF_MAX);
}

/* A write fails with a key that has a byte of the archive, and changes no byte. */
static void overlapping_keys(uint8_t kind, uint8_t value, uint8_t width) {
    const hk_types types = hk_types_of(kind, HK_TEXT, value, width);
    const hk_pair pairs[] = {{hk_str("abcd"), hk_number(7)}, {hk_str(""), hk_number(8)}};
    uint8_t *bytes = NULL, kept[256];
    char key[4] = {0};
    size_t length = 0;
    hk_value found = NONE;
    hk_item item = HK_ITEM_START;
    hk_map map;
    current = types;
    returns("build", hk_build(pairs, 2, types, &bytes, &length), HK_OK);
    returns("open", hk_open_writable(bytes, length, types, &map), HK_OK);
    while (item.key.length == 0 && hk_next(&map, &item) == HK_OK) {
    }
    same("the key", item.key.length, 4);
    memcpy(kept, bytes, length);
    returns("a stored key", hk_set(&map, item.key, hk_number(3)), HK_OVERLAP);
    returns("a part of it", hk_set(&map, hk_text(hk_as_text(item.key) + 1, 1), hk_number(3)), HK_OVERLAP);
    returns("the first byte", hk_set(&map, hk_bytes(bytes, 1), hk_number(3)), HK_OVERLAP);
    returns("all bytes", hk_set(&map, hk_bytes(bytes, length), hk_number(3)), HK_OVERLAP);
    returns("the last byte", hk_set(&map, hk_bytes(bytes + length - 1, 1), hk_number(3)), HK_OVERLAP);
    same("unchanged", memcmp(bytes, kept, length) == 0, 1);
    memcpy(key, item.key.bytes, 4);
    returns("a copy", hk_set(&map, hk_text(key, 4), hk_number(3)), HK_OK);
    returns("get", hk_get(&map, item.key, &found), HK_OK);
    same("written", found.number, 3);
    returns("no bytes", hk_set(&map, hk_text(hk_as_text(item.key), 0), hk_number(4)), HK_OK);
    returns("get", hk_get(&map, hk_str(""), &found), HK_OK);
    same("written", found.number, 4);
    hk_bytes_free(bytes);
    same("blocks", blocks, 0);
}

/* The bytes before and after an archive may be a key: here the key is the byte before it, the byte
 * after it, and each of them with one byte of the archive. */
static void adjacent_keys(void) {
    uint8_t bytes[106], *archive = bytes_of(empty_to_seven);
    const size_t length = empty_to_seven->length;
    hk_map map;
    memcpy(bytes + 1, archive, length);
    free(archive);
    bytes[0] = 'a';
    bytes[1 + length] = 'b';
    returns("open", hk_open_writable(bytes + 1, length, empty_to_seven->types, &map), HK_OK);
    returns("before", hk_set(&map, hk_bytes(bytes, 1), hk_number(8)), HK_NOT_FOUND);
    returns("one more", hk_set(&map, hk_bytes(bytes, 2), hk_number(8)), HK_OVERLAP);
    returns("around", hk_set(&map, hk_bytes(bytes, length + 2), hk_number(8)), HK_OVERLAP);
    returns("after", hk_set(&map, hk_bytes(bytes + 1 + length, 1), hk_number(8)), HK_NOT_FOUND);
    returns("one less", hk_set(&map, hk_bytes(bytes + length, 2), hk_number(8)), HK_OVERLAP);
}

/* The bytes of an archive that the proved library has built. */
struct built {
    uint8_t *bytes;
    size_t length;
};

#ifdef __cplusplus
extern "C"
#endif
uint32_t hk_c_build(uint8_t kind, uint8_t key, uint8_t value, uint8_t width, const hk_pair *items,
                    size_t count, struct built *built);

/* The errors of the library's own tests of codes, keys and values. The bytes of the long text are
 * zeros that are only read, so they take no memory. */
static void invalid_items(void) {
    uint8_t none[1];
    struct built built = {none, 0};
    const size_t limit = (size_t)1 << 30;
    void *zeros = calloc(limit, 1);
    const hk_pair items[] = {
        {T("a"), N(2)}, {T("\xff"), N(2)}, {T("b"), N(1ull << 32)}, {{0, zeros, limit}, N(2)}};
    if (zeros == NULL) {
        fail("no memory for the long text");
    }
    same("no text", hk_c_build(1, 4, 0x18, 4, items, 2, &built), HK_NOT_TEXT);
    same("a large value", hk_c_build(1, 4, 0x14, 4, items + 2, 1, &built), HK_VALUE_TOO_LARGE);
    same("an unknown type", hk_c_build(1, 4, 0x32, 4, items, 1, &built), HK_UNKNOWN_KIND);
    same("a long text", hk_c_build(1, 4, 0x14, 4, items + 3, 1, &built), HK_TEXT_TOO_LONG);
    same("kept", built.bytes == none && built.length == 0, 1);
    same("blocks", blocks, 0);
    free(zeros);
}

/* A value and the status with which it is not archived as one of a type, by `hk_builder_put` and by
 * `hk_build`. It is a key if the type is one of keys, and a value if it is one of values. */
static void values_are_not_built(void) {
    static const struct wrong {
        uint8_t type;
        hk_value value;
        hk_status status;
    } wrong[] = {
        {HK_U8, N(1u << 8), HK_VALUE_TOO_LARGE},       {HK_U16, N(1u << 16), HK_VALUE_TOO_LARGE},
        {HK_U32, N(1ull << 32), HK_VALUE_TOO_LARGE},   {HK_I8, N(UINT64_MAX), HK_VALUE_TOO_LARGE},
        {HK_I16, N(1u << 16), HK_VALUE_TOO_LARGE},     {HK_I32, N(1ull << 63), HK_VALUE_TOO_LARGE},
        {HK_F32, N(1ull << 32), HK_VALUE_TOO_LARGE},   {HK_BOOL, N(2), HK_VALUE_TOO_LARGE},
        {HK_CHAR, N(0xd800), HK_VALUE_TOO_LARGE},      {HK_CHAR, N(0xdfff), HK_VALUE_TOO_LARGE},
        {HK_CHAR, N(0x110000), HK_VALUE_TOO_LARGE},    {HK_CHAR, N(1ull << 32), HK_VALUE_TOO_LARGE},
        {HK_TEXT, T("a\xff"), HK_NOT_TEXT},            {HK_TEXT, T("\xc3"), HK_NOT_TEXT},
        {HK_TEXT, {0, NULL, 1}, HK_NULL},              {HK_TEXT, {0, NULL, SIZE_MAX}, HK_NULL},
        {HK_TEXT, {0, "\xff", SIZE_MAX}, HK_TOO_LONG}, {HK_BYTES, {0, NULL, 1}, HK_NULL},
        {HK_BYTES, {0, "", SIZE_MAX}, HK_TOO_LONG},
    };
    for (size_t i = 0; i < 4 * COUNT(wrong); i++) {
        const struct wrong *of = &wrong[i / 4];
        const uint8_t kind = i % 2 == 0 ? HK_MAP : HK_INDEX_MAP;
        const bool as_key = i % 4 < 2;
        const hk_types types = as_key ? hk_types_of(kind, of->type, HK_U8, HK_NARROW)
                                      : hk_types_of(kind, HK_U64, of->type, HK_WIDE);
        hk_pair pairs[] = {{N(0), N(0)}, {of->value, N(1u << 8)}};
        uint8_t *bytes = NULL;
        size_t length = 9;
        hk_builder *builder = NULL;
        current = types;
        if (!as_key) {
            pairs[1].key = hk_number(1);
            pairs[1].value = of->value;
        } else if (!is_key(of->type)) {
            continue;
        }
        returns("new", hk_builder_new(types, &builder), HK_OK);
        requests = failing = 0;
        returns("put", hk_builder_put(builder, pairs[1].key, pairs[1].value), of->status);
        failing = SIZE_MAX;
        returns("build", hk_build(pairs, 2, types, &bytes, &length), of->status);
        same("kept", bytes == NULL && length == 9, 1);
        /* No item was appended. */
        returns("finish", hk_builder_finish(builder, &bytes, &length), HK_OK);
        same("empty", length, (is_index(types) ? 4 : 3) * (size_t)types.width);
        hk_bytes_free(bytes);
        hk_builder_free(builder);
        same("blocks", blocks, 0);
    }
}

/* Wrong arguments of the calls that build, each alone and each with the next one. */
static void building_errors(void) {
    const hk_types types = hk_types_of(HK_MAP, HK_TEXT, HK_U32, HK_NARROW);
    const hk_types no_kind = hk_types_of(9, HK_TEXT, HK_U32, 9), no_width = hk_types_of(1, 4, HK_U32, 0);
    const hk_types to_texts = hk_types_of(HK_MAP, HK_TEXT, HK_TEXT, HK_NARROW);
    const hk_pair wrong[] = {{T("\xff"), N(1ull << 32)}, {{0, NULL, 1}, N(2)}, {{0, "", SIZE_MAX}, N(2)}};
    const hk_pair late[] = {{T("a"), N(1ull << 32)}, {T("\xff"), N(2)}};
    const hk_pair both[] = {{{0, "", SIZE_MAX}, {0, NULL, 1}}, {{0, NULL, 1}, {0, "", SIZE_MAX}}};
    uint8_t *bytes = NULL;
    size_t length = 9;
    hk_builder *builder = NULL;
    current = types;

    returns("kind 9, width 9", hk_build(wrong, 3, no_kind, &bytes, &length), HK_UNKNOWN_KIND);
    returns("width 0, null", hk_build(NULL, 3, no_width, &bytes, &length), HK_UNKNOWN_WIDTH);
    returns("null, too many", hk_build(NULL, SIZE_MAX, types, &bytes, &length), HK_NULL);
    returns("null, too many", hk_build(wrong, SIZE_MAX, types, NULL, &length), HK_NULL);
    returns("null, too many", hk_build(wrong, SIZE_MAX, types, &bytes, NULL), HK_NULL);
    returns("too many, null", hk_build(wrong + 1, SIZE_MAX, types, &bytes, &length), HK_TOO_LONG);
    returns("no text, null", hk_build(wrong, 2, types, &bytes, &length), HK_NULL);
    returns("null, too long", hk_build(wrong, 3, types, &bytes, &length), HK_NULL);
    returns("too long, no text", hk_build(wrong + 2, 1, types, &bytes, &length), HK_TOO_LONG);
    returns("no text, too large", hk_build(wrong, 1, types, &bytes, &length), HK_NOT_TEXT);
    returns("too large, no text", hk_build(late, 2, types, &bytes, &length), HK_VALUE_TOO_LARGE);
    returns("too long, null", hk_build(both, 2, to_texts, &bytes, &length), HK_TOO_LONG);
    returns("null, too long", hk_build(both + 1, 1, to_texts, &bytes, &length), HK_NULL);
    requests = failing = 0;
    returns("null, no memory", hk_build(wrong, 2, types, &bytes, &length), HK_NULL);
    returns("no memory, no text", hk_build(wrong, 1, types, &bytes, &length), HK_NO_MEMORY);
    requests = 0;
    returns("no memory, too large", hk_build(late, 2, types, &bytes, &length), HK_NO_MEMORY);
    requests = 0;
    returns("no memory", hk_builder_new(types, &builder), HK_NO_MEMORY);
    failing = SIZE_MAX;

    returns("no builder", hk_builder_new(no_kind, NULL), HK_NULL);
    returns("kind 9, width 9", hk_builder_new(no_kind, &builder), HK_UNKNOWN_KIND);
    returns("width 0", hk_builder_new(no_width, &builder), HK_UNKNOWN_WIDTH);
    same("none", builder == NULL, 1);
    returns("put to null", hk_builder_put(NULL, hk_text(NULL, 1), hk_number(2)), HK_NULL);
    returns("finish null", hk_builder_finish(NULL, &bytes, &length), HK_NULL);
    returns("new", hk_builder_new(to_texts, &builder), HK_OK);
    returns("key, value", hk_builder_put(builder, both[0].key, both[0].value), HK_TOO_LONG);
    returns("key, value", hk_builder_put(builder, both[1].key, both[1].value), HK_NULL);
    returns("value", hk_builder_put(builder, hk_str(""), hk_str("\xff")), HK_NOT_TEXT);
    requests = failing = 0;
    returns("null, no memory", hk_builder_finish(builder, NULL, &length), HK_NULL);
    returns("null, no memory", hk_builder_finish(builder, &bytes, NULL), HK_NULL);
    failing = SIZE_MAX;
    hk_builder_free(builder);
    hk_builder_free(NULL);
    hk_bytes_free(NULL);
    same("kept", bytes == NULL && length == 9, 1);
    same("blocks", blocks, 0);
}

/* The calls that open a collection, with one type. */
typedef hk_status open_call(void *bytes, size_t length, hk_types types, hk_map *map);

static hk_status open_to_read(void *bytes, size_t length, hk_types types, hk_map *map) {
    return hk_open(bytes, length, types, map);
}

static hk_status open_container_to_read(void *bytes, size_t length, hk_types types, hk_map *map) {
    return hk_open_container(bytes, length, types, map);
}

/* The errors of the calls that open and explain, each alone and each with the next one. The bytes are
 * not valid. The handle was of an open collection, and is not of one after an error. */
static void opening_errors(open_call *open, bool container) {
    uint8_t bytes[120], *archive = bytes_of(one_to_two);
    const hk_types types = one_to_two->types, no_kind = {0, HK_U32, HK_U32, 16};
    const hk_types no_width = {HK_MAP, HK_U32, HK_U32, 16}, any_width = {HK_MAP, HK_U32, HK_U32, 0};
    const hk_types bool_keys = {HK_MAP, HK_BOOL, HK_U32, HK_WIDE};
    const hk_types set_to_u8 = {HK_SET, HK_U32, HK_U8, HK_WIDE};
    const struct row_of_errors {
        void *bytes;
        size_t length;
        hk_types types;
        hk_status status;
    } errors[] = {
        {bytes, 120, no_kind, HK_UNKNOWN_KIND},
        {bytes, 120, bool_keys, HK_UNKNOWN_KIND},
        {bytes, 120, set_to_u8, HK_UNKNOWN_KIND},
        {bytes, 120, no_width, HK_UNKNOWN_WIDTH},
        {NULL, 1, no_width, HK_UNKNOWN_WIDTH},
        {NULL, 1, types, HK_NULL},
        {NULL, SIZE_MAX, types, HK_NULL},
        {bytes, SIZE_MAX, types, HK_TOO_LONG},
        {NULL, 0, types, container ? HK_CONTAINER_TOO_SHORT : HK_OUT_OF_RANGE},
        {bytes, 120, any_width, container ? HK_CONTAINER_WRONG_MAGIC : HK_UNKNOWN_WIDTH},
    };
    memset(bytes, 0xff, sizeof bytes);
    returns("no map", open(bytes, sizeof bytes, types, NULL), HK_NULL);
    returns("no map, kind 0", open(bytes, sizeof bytes, no_kind, NULL), HK_NULL);
    for (size_t i = 0; i < COUNT(errors); i++) {
        const struct row_of_errors *of = &errors[i];
        hk_error error = {9, 9, 9, 9};
        hk_map map;
        size_t count = 9;
        returns("open", hk_open(archive, one_to_two->length, types, &map), HK_OK);
        returns("an error", open(of->bytes, of->length, of->types, &map), of->status);
        returns("closed", hk_count(&map, &count), HK_CLOSED);
        const hk_status status = container ? hk_container_explain(of->bytes, of->length, of->types, &error)
                                           : hk_explain(of->bytes, of->length, of->types, &error);
        /* The errors of arguments have the least numbers. */
        returns("explain", status, of->status <= HK_UNKNOWN_WIDTH ? of->status : HK_OK);
        same("its error", error.status, status == HK_OK ? (uint32_t)of->status : 9);
    }
    free(archive);
    returns("null, kind 0", hk_explain(bytes, sizeof bytes, no_kind, NULL), HK_NULL);
    returns("null, kind 0", hk_container_explain(bytes, sizeof bytes, no_kind, NULL), HK_NULL);
}

/* Each call fails with a handle that is null, and with one of no open collection, before its other
 * arguments are tested. */
static void handles(void) {
    hk_map closed = {NULL, NULL, 0, {0, 0, 0, 0}, {false, false, 0, 0, {0, 0, 0, 0, 0}}};
    for (int i = 0; i < 2; i++) {
        hk_map *map = i == 0 ? NULL : &closed;
        const hk_status wanted = i == 0 ? HK_NULL : HK_CLOSED;
        size_t count = 9;
        uint64_t misplaced = 9;
        hk_item item = {9, NONE, NONE};
        hk_looked_up result = {HK_END, {9, NONE}};
        returns("count", hk_count(map, &count), wanted);
        returns("count null", hk_count(map, NULL), wanted);
        returns("get", get(map, hk_text(NULL, 1)), wanted);
        returns("contains", contains(map, hk_text(NULL, 1)), wanted);
        returns("find", find(map, hk_text(NULL, 1)), wanted);
        returns("get many", hk_get_many(map, &item.key, 1, &result), wanted);
        returns("get many null", hk_get_many(map, NULL, SIZE_MAX, NULL), wanted);
        returns("set", hk_set(map, hk_text(NULL, 1), hk_number(1)), wanted);
        returns("next", hk_next(map, &item), wanted);
        returns("next null", hk_next(map, NULL), wanted);
        returns("items", hk_items(map, 0, &item, 1, &count), wanted);
        returns("items null", hk_items(map, 0, NULL, SIZE_MAX, NULL), wanted);
        returns("at", hk_at(map, 0, &item), wanted);
        returns("at null", hk_at(map, 0, NULL), wanted);
        returns("misplaced", hk_misplaced_up_to(map, 1, &misplaced), wanted);
        returns("misplaced null", hk_misplaced_up_to(map, 1, NULL), wanted);
        same("kept", count == 9 && item.next == 9 && misplaced == 9 && result.status == HK_END, 1);
    }
}

/* A call that writes, with two errors, returns the one that hodkhaki.h lists first. */
static void orders_of_writing(uint8_t kind) {
    const hk_types types = hk_types_of(kind, HK_TEXT, HK_U32, HK_NARROW);
    const hk_pair pair = {hk_str("abcd"), hk_number(7)};
    uint8_t *bytes = NULL;
    size_t length = 0;
    hk_map map, read_only;
    returns("build", hk_build(&pair, 1, types, &bytes, &length), HK_OK);
    const void *no_text = memchr(bytes, 0xff, length);
    returns("open", hk_open(bytes, length, types, &read_only), HK_OK);
    returns("open", hk_open_writable(bytes, length, types, &map), HK_OK);
    returns("too long, read only", hk_set(&read_only, hk_text("a", SIZE_MAX), hk_number(1)), HK_TOO_LONG);
    returns("read only, overlap", hk_set(&read_only, hk_bytes(no_text, 1), hk_number(1)), HK_READ_ONLY);
    returns("overlap, no text", hk_set(&map, hk_bytes(no_text, 1), hk_number(1)), HK_OVERLAP);
    returns("no text, too large", hk_set(&map, hk_str("\xff"), hk_number(1ull << 32)), HK_NOT_TEXT);
    returns("too large, not found", hk_set(&map, hk_str("a"), hk_number(1ull << 32)), HK_VALUE_TOO_LARGE);
    hk_bytes_free(bytes);
}

int main(void) {
    explanations();
    damaged_containers();
    types_of_containers();
    container_explanations();
    updates();
    overlapping_headers();
    container_errors();
    overlapping_keys(HK_MAP, HK_U32, HK_WIDE);
    overlapping_keys(HK_INDEX_MAP, HK_I64, HK_NARROW);
    adjacent_keys();
    invalid_items();
    values_are_not_built();
    building_errors();
    opening_errors(open_to_read, false);
    opening_errors(hk_open_writable, false);
    opening_errors(open_container_to_read, true);
    opening_errors(hk_open_container_writable, true);
    handles();
    orders_of_writing(HK_MAP);
    orders_of_writing(HK_INDEX_MAP);
    return finished();
}
