/* The calls of hodkhaki.h. Each tests its arguments and then calls the proved library. This file is
 * C99, and C++11 too: hence the casts. */
#include "hodkhaki.h"

#include "memory.h"

/* The library is compiled for types of these sizes. If one has another size, as by the option
 * -fshort-enums, this array has a negative size, which is an error. */
typedef char needs_a_64_bit_abi
    [sizeof(size_t) == 8 && sizeof(bool) == 1 && sizeof(hk_status) == 4 ? 1 : -1];

/* The bytes of an archive that the library has built. */
typedef struct built {
    uint8_t *bytes;
    size_t length;
} built;

/* The archive in a container that the library has opened. */
typedef struct opened {
    const uint8_t *bytes;
    size_t length;
} opened;

#ifdef __cplusplus
extern "C" {
#endif

/* The proved library. The kind, the types and the width are codes, as in `hk_types`. `hk_c_decode`
 * requires valid bytes: `hk_c_open` has returned 0 for them and these codes. It fills the handle that
 * the functions that count, look up, write values and iterate require. Writing a value leaves it valid.
 * The header of a container has 32 bytes. No pointer is null, not even that of no bytes in a `hk_value`,
 * and memory that a function writes overlaps no other argument. */
uint32_t hk_c_open(const uint8_t *archive, size_t length, uint8_t kind, uint8_t key, uint8_t value,
                   uint8_t width);
void hk_c_explain(const uint8_t *archive, size_t length, uint8_t kind, uint8_t key, uint8_t value,
                  uint8_t width, hk_error *error);
void hk_c_decode(const uint8_t *archive, size_t length, uint8_t kind, uint8_t key, uint8_t value,
                 uint8_t width, hk_decoded *handle);
void hk_c_get(const uint8_t *archive, size_t length, const hk_decoded *handle, hk_looked_up *lookups,
              size_t count);
uint32_t hk_c_set(uint8_t *archive, size_t length, const hk_decoded *handle, const hk_value *of,
                  uint64_t number);
size_t hk_c_next(const uint8_t *archive, size_t length, const hk_decoded *handle, uint64_t from,
                 hk_item *items, size_t room);
uint32_t hk_c_misplaced_up_to(const uint8_t *archive, size_t length, const hk_decoded *handle,
                              uint64_t limit, uint64_t *count);
uint32_t hk_c_build(uint8_t kind, uint8_t key, uint8_t value, uint8_t width, const hk_pair *items,
                    size_t count, built *built);
bool hk_c_is_text(const uint8_t *bytes, size_t length);
uint32_t hk_c_write_header(const uint8_t *archive, size_t length, uint8_t kind, uint8_t key,
                           uint8_t value, uint8_t width, bool checked, uint8_t *header,
                           size_t header_length);
uint32_t hk_c_container_width(const uint8_t *bytes, size_t length, bool *wide);
uint32_t hk_c_open_container(const uint8_t *bytes, size_t length, uint8_t kind, uint8_t key,
                             uint8_t value, uint8_t width, opened *opened);
void hk_c_explain_container(const uint8_t *bytes, size_t length, uint8_t kind, uint8_t key,
                            uint8_t value, uint8_t width, hk_error *error);
uint32_t hk_c_update_container(uint8_t *bytes, size_t length);

/* A function without effect, whose name has the number of the library's interface: these files do not
 * link with a library of another interface. */
void hk_c_interface_5(void);

#ifdef __cplusplus
}
#endif

/* The codes that a function of the library takes. */
#define CODES(types) (types).kind, (types).key, (types).value, (types).width

/* Replaces a null pointer of no bytes, since the library takes no null pointers. */
static const uint8_t nothing[1] = {0};

/* A value and others with it that the library overwrites. */
#define NO_VALUE {0, nothing, 0}
static const hk_value no_value = NO_VALUE;
static const hk_item no_item = {0, NO_VALUE, NO_VALUE};

/* The statuses of hodkhaki.h, with their names and messages. */
#define STATUS(status, message) {status, #status, message}
static const struct status {
    uint32_t status;
    const char *name;
    const char *message;
} statuses[] = {
    STATUS(HK_OK, "success"),
    STATUS(HK_NOT_FOUND, "the lookup does not find the key"),
    STATUS(HK_END, "no item remains, or none has the index"),
    STATUS(HK_VALUE_TOO_LARGE, "the number of the key or of the value is of no value of its type"),
    STATUS(HK_NOT_TEXT, "the key or a text that is to be archived is not UTF-8"),
    STATUS(HK_NULL, "a pointer is null"),
    STATUS(HK_TOO_LONG, "a length is greater than its limit"),
    STATUS(HK_UNKNOWN_KIND, "no collection has this kind, this type of keys and this type of values"),
    STATUS(HK_UNKNOWN_WIDTH, "the width is neither narrow nor wide"),
    STATUS(HK_WRONG_KIND, "the call is for another kind of collection or another type of values"),
    STATUS(HK_CLOSED, "the handle is not of an open collection"),
    STATUS(HK_READ_ONLY, "the collection was opened to read"),
    STATUS(HK_NO_MEMORY, "an allocation failed"),
    STATUS(HK_WRONG_SIZE, "the room for a container does not have the size of the container"),
    STATUS(HK_OVERLAP, "the memory that the call writes overlaps an input"),
    STATUS(HK_LIMIT_REACHED, "the lookups of all keys read more control bytes than the limit allows"),
    STATUS(HK_OUT_OF_RANGE, "the collection or a part of it is outside the bytes that it may use, "
                            "or the archive exceeds the limit of its width"),
    STATUS(HK_UNALIGNED, "the collection or a part of it is not at a multiple of its alignment"),
    STATUS(HK_INVALID_LENGTH, "the number of items is not less than the number of buckets"),
    STATUS(HK_WRONG_NUMBER_OF_ELEMENTS,
           "the number of full buckets differs from the number of items"),
    STATUS(HK_UNWRAPPED_CONTROL_BYTE, "a mirrored control byte differs from the one that it mirrors, "
                                      "or one after them is not empty"),
    STATUS(HK_PLACE_OUT_OF_RANGE, "an index in the table is not less than the number of items"),
    STATUS(HK_INVALID_VALUE, "a text, a bool or a character is not valid"),
    STATUS(HK_REFUSED, "the type has no valid values"),
    STATUS(HK_CAPACITY_TOO_LARGE, "the collection needs more buckets than the width can count"),
    STATUS(HK_POSITION_TOO_LARGE, "the archive would be longer than the width allows"),
    STATUS(HK_DISTANCE_TOO_LARGE, "a distance between two parts of the archive does not fit the width"),
    STATUS(HK_TEXT_TOO_LONG, "a text is too long for the width"),
    STATUS(HK_INVALID_LOAD_FACTOR, "the load factor is invalid"),
    STATUS(HK_ITERATOR_LENGTH_MISMATCH, "the number of items differs from the expected one"),
    STATUS(HK_CONTAINER_TOO_SHORT, "the container is shorter than its header of 32 bytes"),
    STATUS(HK_CONTAINER_WRONG_MAGIC, "the first eight bytes are not those of a container"),
    STATUS(HK_CONTAINER_UNSUPPORTED_VERSION, "the version of the container is not 1"),
    STATUS(HK_CONTAINER_UNKNOWN_COLLECTION, "the container has an unknown kind of collection"),
    STATUS(HK_CONTAINER_UNKNOWN_KEY_TYPE, "the container has an unknown type of keys"),
    STATUS(HK_CONTAINER_UNKNOWN_VALUE_TYPE, "the container has an unknown type of values"),
    STATUS(HK_CONTAINER_UNKNOWN_WIDTH, "the container has an unknown width"),
    STATUS(HK_CONTAINER_UNKNOWN_FLAGS, "the container has unknown flags"),
    STATUS(HK_CONTAINER_UNEXPECTED_CHECKSUM, "the container has a checksum, but no flag for one"),
    STATUS(HK_CONTAINER_NONZERO_RESERVED, "the reserved bytes of the container are not 0"),
    STATUS(HK_CONTAINER_WRONG_COLLECTION, "the container has another kind of collection"),
    STATUS(HK_CONTAINER_WRONG_KEY_TYPE, "the keys in the container are of another type"),
    STATUS(HK_CONTAINER_WRONG_VALUE_TYPE, "the values in the container are of another type"),
    STATUS(HK_CONTAINER_WRONG_WIDTH, "the archive in the container has another width"),
    STATUS(HK_CONTAINER_WRONG_LENGTH, "the length of the archive is not that in the header"),
    STATUS(HK_CONTAINER_WRONG_CHECKSUM, "the checksum of the archive is not that in the header"),
    STATUS(HK_IS_CONTAINER, "the bytes are a container, and not an archive without one"),
};

/* The row of a status, or null. */
static const struct status *row_of(uint32_t status) {
    for (size_t i = 0; i < sizeof statuses / sizeof *statuses; i++) {
        if (statuses[i].status == status) {
            return &statuses[i];
        }
    }
    return NULL;
}

const char *hk_status_name(uint32_t status) {
    const struct status *row = row_of(status);
    return row != NULL ? row->name : "unknown";
}

const char *hk_status_message(uint32_t status) {
    const struct status *row = row_of(status);
    return row != NULL ? row->message : "unknown status";
}

/* The first of two statuses that is an error, or HK_OK. */
static hk_status first(hk_status one, hk_status other) {
    return one != HK_OK ? one : other;
}

/* Whether there is such a type of integers. The last digit of its code is the number of bytes. */
static bool is_integer(uint8_t type) {
    const unsigned form = type >> 4, size = type & 15;
    return (form == 1 || form == 2) && (size == 1 || size == 2 || size == 4 || size == 8);
}

/* Whether there is such a type of integers or of floating-point numbers. */
static bool is_number(uint8_t type) {
    return is_integer(type) || type == HK_F32 || type == HK_F64;
}

static bool is_key(uint8_t type) {
    return is_integer(type) || type == HK_CHAR || type == HK_TEXT;
}

/* Whether a collection of the kind may have values of the type. */
static bool is_value(uint8_t kind, uint8_t type) {
    switch (kind) {
    case HK_MAP:
    case HK_INDEX_MAP:
        return is_number(type) || (HK_BOOL <= type && type <= HK_BYTES);
    case HK_SET:
    case HK_INDEX_SET:
        return type == HK_UNIT;
    default:
        return false;
    }
}

/* Whether a value of the type is bytes in place of a number. */
static bool has_bytes(uint8_t type) {
    return type == HK_TEXT || type == HK_BYTES;
}

/* Whether a value of the type has this number. */
static bool has_number(uint8_t type, uint64_t number) {
    switch (type) {
    case HK_UNIT: return true;
    case HK_BOOL: return number <= 1;
    case HK_CHAR: return number <= 0x10ffff && (number < 0xd800 || number > 0xdfff);
    default: return (type & 15) == 8 || number >> 8 * (type & 15) == 0;
    }
}

/* HK_OK if there is such a collection and such a width. */
static hk_status check_types(hk_types types) {
    if (!is_key(types.key) || !is_value(types.kind, types.value)) {
        return HK_UNKNOWN_KIND;
    }
    return types.width == HK_NARROW || types.width == HK_WIDE ? HK_OK : HK_UNKNOWN_WIDTH;
}

/* HK_OK if the address of an output is not null. */
static hk_status check_output(const void *output) {
    return output != NULL ? HK_OK : HK_NULL;
}

/* HK_OK if `length` bytes may be at the address. */
static hk_status check_bytes(const void *bytes, size_t length) {
    if (bytes == NULL && length != 0) {
        return HK_NULL;
    }
    return length <= PTRDIFF_MAX ? HK_OK : HK_TOO_LONG;
}

/* HK_OK if an array of `count` elements of this size may be at the address. */
static hk_status check_array(const void *array, size_t count, size_t size) {
    if (array == NULL && count != 0) {
        return HK_NULL;
    }
    return count <= PTRDIFF_MAX / size ? HK_OK : HK_TOO_LONG;
}

/* HK_OK if the bytes of a value of the type may be at their address. */
static hk_status check_value(uint8_t type, hk_value value) {
    return has_bytes(type) ? check_bytes(value.bytes, value.length) : HK_OK;
}

/* HK_OK if the handle is of an open collection. */
static hk_status check_open(const hk_map *map) {
    if (map == NULL) {
        return HK_NULL;
    }
    return map->types.kind != 0 ? HK_OK : HK_CLOSED;
}

/* HK_OK if the handle is of an open index map or index set. */
static hk_status check_index(const hk_map *map) {
    hk_status status = check_open(map);
    if (status == HK_OK && map->types.kind != HK_INDEX_MAP && map->types.kind != HK_INDEX_SET) {
        status = HK_WRONG_KIND;
    }
    return status;
}

/* HK_OK if no byte of an argument of `length` bytes is one of the `size` bytes that a call writes.
 * Differences of addresses are modulo 2^64. */
static hk_status check_outside(const void *argument, size_t length, const void *written,
                               size_t size) {
    const uintptr_t begin = (uintptr_t)argument, other = (uintptr_t)written;
    const bool overlaps = begin - other < size || other - begin < length;
    return length != 0 && overlaps ? HK_OVERLAP : HK_OK;
}

static const uint8_t *bytes_of(const void *bytes) {
    return bytes != NULL ? (const uint8_t *)bytes : nothing;
}

/* A value as the library takes it: the members of other types are 0 and no bytes, and none is null. */
static hk_value passed(uint8_t type, hk_value value) {
    const hk_value number = {value.number, nothing, 0};
    const hk_value bytes = {0, bytes_of(value.bytes), value.length};
    return has_bytes(type) ? bytes : number;
}

/* The position of the types in the header of a container, and that of the length of the archive. */
enum { TYPES_AT = 10, LENGTH_AT = 16 };

/* Whether bytes begin with the first eight of a container, and have its length. An archive may begin
 * with these eight bytes too: with those of a container that is a value in it. */
static bool is_container(const uint8_t *bytes, size_t length) {
    static const uint8_t magic[] = {0x89, 'R', 'K', 'Y', 'V', 0x0d, 0x0a, 0x1a};
    uint64_t archive = 0;
    if (length < HK_CONTAINER_HEADER || memcmp(bytes, magic, sizeof magic) != 0) {
        return false;
    }
    for (size_t i = 8; i > 0; i--) {
        archive = archive << 8 | bytes[LENGTH_AT + i - 1];
    }
    return archive == length - HK_CONTAINER_HEADER;
}

/* Opens the collection whose archive the bytes are. `writable` is their address, or null. */
static hk_status open_archive(const uint8_t *archive, void *writable, size_t length, hk_types types,
                              hk_map *map) {
    hk_map found = {archive, (uint8_t *)writable, length, types, {false, false, 0, 0, {0, 0, 0, 1, UINT64_MAX}}};
    hk_c_interface_5();
    const hk_status status = (hk_status)hk_c_open(archive, length, CODES(types));
    if (status == HK_OK) {
        hk_c_decode(archive, length, CODES(types), &found.decoded);
        *map = found;
    }
    return status;
}

/* Checks the arguments of a call that opens a collection, and closes the handle. */
static hk_status check_opening(const void *bytes, size_t length, hk_types types, hk_map *map) {
    const hk_map closed = {NULL, NULL, 0, {0, 0, 0, 0}, {false, false, 0, 0, {0, 0, 0, 0, 0}}};
    if (map == NULL) {
        return HK_NULL;
    }
    *map = closed;
    return first(check_types(types), check_bytes(bytes, length));
}

static hk_status open_bare(const void *bytes, void *writable, size_t length, hk_types types,
                           hk_map *map) {
    hk_status status = check_opening(bytes, length, types, map);
    if (status == HK_OK && is_container(bytes_of(bytes), length)) {
        status = HK_IS_CONTAINER;
    }
    return status == HK_OK ? open_archive(bytes_of(bytes), writable, length, types, map) : status;
}

/* The types with a width in the place of HK_ANY_WIDTH, for checks. */
static hk_types with_some_width(hk_types types) {
    types.width = types.width != HK_ANY_WIDTH ? types.width : (uint8_t)HK_NARROW;
    return types;
}

/* Replaces HK_ANY_WIDTH by the width of a container. After an error it is HK_NARROW. */
static hk_status find_width(const uint8_t *container, size_t length, hk_types *types) {
    bool wide = false;
    hk_status status = HK_OK;
    if (types->width == HK_ANY_WIDTH) {
        status = (hk_status)hk_c_container_width(container, length, &wide);
        types->width = wide ? HK_WIDE : HK_NARROW;
    }
    return status;
}

/* Opens the collection in a container. `writable` is the address of the container, or null. */
static hk_status open_container(const void *bytes, void *writable, size_t length, hk_types types,
                                hk_map *map) {
    opened archive = {nothing, 0};
    const uint8_t *container = bytes_of(bytes);
    hk_status status = check_opening(bytes, length, with_some_width(types), map);
    if (status == HK_OK) {
        status = find_width(container, length, &types);
    }
    if (status == HK_OK) {
        status = (hk_status)hk_c_open_container(container, length, CODES(types), &archive);
    }
    if (status == HK_OK) {
        uint8_t *written = writable != NULL ? (uint8_t *)writable + HK_CONTAINER_HEADER : NULL;
        status = open_archive(archive.bytes, written, archive.length, types, map);
    }
    return status;
}

hk_status hk_open(const void *bytes, size_t length, hk_types types, hk_map *map) {
    return open_bare(bytes, NULL, length, types, map);
}

hk_status hk_open_writable(void *bytes, size_t length, hk_types types, hk_map *map) {
    return open_bare(bytes, bytes, length, types, map);
}

hk_status hk_open_container(const void *bytes, size_t length, hk_types types, hk_map *map) {
    return open_container(bytes, NULL, length, types, map);
}

hk_status hk_open_container_writable(void *bytes, size_t length, hk_types types, hk_map *map) {
    return open_container(bytes, bytes, length, types, map);
}

/* Checks the arguments of a call that explains an error of opening. */
static hk_status check_explaining(const void *bytes, size_t length, hk_types types,
                                  const hk_error *error) {
    if (error == NULL) {
        return HK_NULL;
    }
    return first(check_types(types), check_bytes(bytes, length));
}

hk_status hk_explain(const void *bytes, size_t length, hk_types types, hk_error *error) {
    const hk_error of_container = {HK_IS_CONTAINER, 0, 0, 0};
    const hk_status status = check_explaining(bytes, length, types, error);
    if (status == HK_OK && is_container(bytes_of(bytes), length)) {
        *error = of_container;
    } else if (status == HK_OK) {
        hk_c_explain(bytes_of(bytes), length, CODES(types), error);
    }
    return status;
}

hk_status hk_container_explain(const void *bytes, size_t length, hk_types types, hk_error *error) {
    const uint8_t *container = bytes_of(bytes);
    const hk_status status = check_explaining(bytes, length, with_some_width(types), error);
    if (status != HK_OK) {
        return status;
    }
    /* If the header has an error, it is the same one for both widths. */
    find_width(container, length, &types);
    hk_c_explain_container(container, length, CODES(types), error);
    if (error->status == HK_OK) {
        hk_c_explain(container + HK_CONTAINER_HEADER, length - HK_CONTAINER_HEADER, CODES(types), error);
    }
    return HK_OK;
}

hk_status hk_container_types(const void *bytes, size_t length, hk_types *types) {
    bool wide = false;
    hk_types found = {0, 0, 0, 0};
    hk_status status = first(check_output(types), check_bytes(bytes, length));
    if (status == HK_OK) {
        status = (hk_status)hk_c_container_width(bytes_of(bytes), length, &wide);
    }
    if (status == HK_OK) {
        memcpy(&found, bytes_of(bytes) + TYPES_AT, sizeof found);
        status = check_types(found);
    }
    if (status == HK_OK) {
        *types = found;
    }
    return status;
}

hk_status hk_count(const hk_map *map, size_t *count) {
    const hk_status status = first(check_open(map), check_output(count));
    if (status == HK_OK) {
        *count = map->decoded.header.length;
    }
    return status;
}

/* Looks up a key of a collection, unless the status is an error. The result is in `looked`. */
static hk_status look_up(hk_status status, const hk_map *map, hk_value key, hk_looked_up *looked) {
    if (status == HK_OK) {
        status = check_value(map->types.key, key);
    }
    if (status == HK_OK) {
        looked->status = HK_OK;
        looked->found.index = 0;
        looked->found.value = passed(map->types.key, key);
        hk_c_get(map->bytes, map->length, &map->decoded, looked, 1);
        status = looked->status;
    }
    return status;
}

hk_status hk_get(const hk_map *map, hk_value key, hk_value *value) {
    hk_looked_up looked;
    const hk_status status = look_up(check_open(map), map, key, &looked);
    if (status == HK_OK && value != NULL) {
        *value = looked.found.value;
    }
    return status;
}

hk_status hk_find(const hk_map *map, hk_value key, hk_found *found) {
    hk_looked_up looked;
    const hk_status status = look_up(check_index(map), map, key, &looked);
    if (status == HK_OK && found != NULL) {
        *found = looked.found;
    }
    return status;
}

hk_status hk_get_many(const hk_map *map, const hk_value *keys, size_t count, hk_looked_up *results) {
    static const hk_value no_text = {0, "\xff", 1};
    hk_status status = first(check_open(map), check_array(keys, count, sizeof *keys));
    status = first(status, check_array(results, count, sizeof *results));
    if (status != HK_OK || count == 0) {
        return status;
    }
    const uint8_t type = map->types.key;
    /* The results are the keys first. A key that is not passed is no text. */
    for (size_t i = 0; i < count; i++) {
        const hk_value key = check_value(type, keys[i]) == HK_OK ? passed(type, keys[i]) : no_text;
        const hk_looked_up looked = {HK_OK, {0, key}};
        results[i] = looked;
    }
    hk_c_get(map->bytes, map->length, &map->decoded, results, count);
    for (size_t i = 0; i < count; i++) {
        results[i].status = first(check_value(type, keys[i]), results[i].status);
        if (results[i].status != HK_OK) {
            results[i].found.value = no_value;
        }
    }
    return HK_OK;
}

hk_status hk_contains(const hk_map *map, hk_value key) {
    return hk_get(map, key, NULL);
}

hk_status hk_set(hk_map *map, hk_value key, hk_value value) {
    hk_status status = check_open(map);
    if (status == HK_OK && !is_number(map->types.value)) {
        status = HK_WRONG_KIND;
    }
    if (status == HK_OK) {
        status = check_value(map->types.key, key);
    }
    if (status == HK_OK && map->writable == NULL) {
        status = HK_READ_ONLY;
    }
    if (status == HK_OK) {
        const hk_value of = passed(map->types.key, key);
        status = check_outside(of.bytes, of.length, map->writable, map->length);
        if (status == HK_OK) {
            status = (hk_status)hk_c_set(map->writable, map->length, &map->decoded, &of, value.number);
        }
    }
    return status;
}

/* Stores the items of a collection from a bucket or an index on, and returns their number. */
static size_t items_from(const hk_map *map, uint64_t from, hk_item *items, size_t room) {
    return hk_c_next(map->bytes, map->length, &map->decoded, from, items, room);
}

/* Stores the item at a bucket, or at the next one that is full, or at an index. */
static hk_status item_at(const hk_map *map, uint64_t from, hk_item *item) {
    hk_item found = no_item;
    if (items_from(map, from, &found, 1) == 0) {
        return HK_END;
    }
    *item = found;
    return HK_OK;
}

hk_status hk_next(const hk_map *map, hk_item *item) {
    const hk_status status = first(check_open(map), check_output(item));
    return status == HK_OK ? item_at(map, item->next, item) : status;
}

hk_status hk_at(const hk_map *map, size_t index, hk_item *item) {
    const hk_status status = first(check_index(map), check_output(item));
    return status == HK_OK ? item_at(map, index, item) : status;
}

hk_status hk_items(const hk_map *map, uint64_t from, hk_item *items, size_t room, size_t *count) {
    hk_item none = no_item;
    hk_status status = first(check_open(map), check_output(count));
    status = first(status, check_array(items, room, sizeof *items));
    if (status == HK_OK) {
        const size_t most = room < map->decoded.header.length ? room : map->decoded.header.length;
        for (size_t i = 0; i < most; i++) {
            items[i] = no_item;
        }
        *count = items_from(map, from, items != NULL ? items : &none, most);
    }
    return status;
}

hk_status hk_misplaced_up_to(const hk_map *map, uint64_t limit, uint64_t *count) {
    uint64_t misplaced = 0;
    hk_status status = first(check_open(map), check_output(count));
    if (status == HK_OK) {
        status = (hk_status)hk_c_misplaced_up_to(map->bytes, map->length, &map->decoded, limit,
                                                 &misplaced);
    }
    if (status == HK_OK) {
        *count = misplaced;
    }
    return status;
}

/* Ensures room for `more` elements after the `count` of an array, which has room for `*room` of
 * `size` bytes each. After an error the array is unchanged. */
static hk_status grow(void **array, size_t *room, size_t count, size_t more, size_t size) {
    const size_t most = PTRDIFF_MAX / size, align = size == 1 ? 1 : 8;
    if (more <= *room - count) {
        return HK_OK;
    }
    if (more > most - count) {
        return HK_NO_MEMORY;
    }
    size_t wanted = *room <= most / 2 ? 2 * *room : most;
    if (wanted < count + more) {
        wanted = count + more;
    }
    struct rattle_block grown = *array == NULL
        ? rattle_alloc(wanted * size, align)
        : rattle_realloc(*array, count * size, wanted * size, align);
    if (!grown.is_there) {
        return HK_NO_MEMORY;
    }
    *array = grown.block;
    *room = wanted;
    return HK_OK;
}

/* Builds the archive of items as the library takes them. `pairs` may be null if there are none. */
static hk_status build_archive(const hk_pair *pairs, size_t count, hk_types types, uint8_t **bytes,
                               size_t *length) {
    const hk_pair none = {NO_VALUE, NO_VALUE};
    uint8_t no_bytes[1];
    built made = {no_bytes, 0};
    const hk_status status =
        (hk_status)hk_c_build(CODES(types), pairs != NULL ? pairs : &none, count, &made);
    if (status == HK_OK) {
        *bytes = made.bytes;
        *length = made.length;
    }
    return status;
}

static hk_pair passed_pair(hk_types types, hk_value key, hk_value value) {
    const hk_pair pair = {passed(types.key, key), passed(types.value, value)};
    return pair;
}

hk_status hk_build(const hk_pair *pairs, size_t count, hk_types types, uint8_t **bytes,
                   size_t *length) {
    void *array = NULL;
    size_t room = 0;
    hk_status status = first(check_types(types), first(check_output(bytes), check_output(length)));
    status = first(status, check_array(pairs, count, sizeof *pairs));
    for (size_t i = 0; status == HK_OK && i < count; i++) {
        status = first(check_value(types.key, pairs[i].key), check_value(types.value, pairs[i].value));
    }
    if (status == HK_OK) {
        status = grow(&array, &room, 0, count, sizeof *pairs);
    }
    if (status == HK_OK) {
        hk_pair *copy = (hk_pair *)array;
        for (size_t i = 0; i < count; i++) {
            copy[i] = passed_pair(types, pairs[i].key, pairs[i].value);
        }
        status = build_archive(copy, count, types, bytes, length);
    }
    hk_bytes_free((uint8_t *)array);
    return status;
}

/* The items, an array of `hk_pair`, and the concatenated bytes of their keys and values. The arrays move
 * when they grow. So the items get the addresses of their bytes when an archive is built. */
struct hk_builder {
    hk_types types;
    void *pairs;
    size_t count;
    size_t room;
    void *bytes;
    size_t length;
    size_t bytes_room;
};

hk_status hk_builder_new(hk_types types, hk_builder **builder) {
    const hk_builder empty = {types, NULL, 0, 0, NULL, 0, 0};
    if (builder == NULL) {
        return HK_NULL;
    }
    *builder = NULL;
    const hk_status status = check_types(types);
    if (status != HK_OK) {
        return status;
    }
    struct rattle_block made = rattle_alloc(sizeof(hk_builder), 8);
    if (!made.is_there) {
        return HK_NO_MEMORY;
    }
    *builder = (hk_builder *)made.block;
    **builder = empty;
    return HK_OK;
}

/* HK_OK if a value of the type can be archived. */
static hk_status check_archived(uint8_t type, hk_value value) {
    const hk_status status = check_value(type, value);
    if (status == HK_OK && type == HK_TEXT && !hk_c_is_text(bytes_of(value.bytes), value.length)) {
        return HK_NOT_TEXT;
    }
    return status == HK_OK && !has_bytes(type) && !has_number(type, value.number) ? HK_VALUE_TOO_LARGE
                                                                                 : status;
}

/* Appends the bytes of a value. There is room for them. */
static void append(hk_builder *builder, hk_value value) {
    if (value.length != 0) {
        memcpy((uint8_t *)builder->bytes + builder->length, value.bytes, value.length);
        builder->length += value.length;
    }
}

hk_status hk_builder_put(hk_builder *builder, hk_value key, hk_value value) {
    if (builder == NULL) {
        return HK_NULL;
    }
    const hk_types types = builder->types;
    hk_status status = first(check_archived(types.key, key), check_archived(types.value, value));
    if (status != HK_OK) {
        return status;
    }
    const hk_pair pair = passed_pair(types, key, value);
    status = grow(&builder->bytes, &builder->bytes_room, builder->length,
                  pair.key.length + pair.value.length, 1);
    if (status == HK_OK) {
        status = grow(&builder->pairs, &builder->room, builder->count, 1, sizeof pair);
    }
    if (status == HK_OK) {
        append(builder, pair.key);
        append(builder, pair.value);
        ((hk_pair *)builder->pairs)[builder->count++] = pair;
    }
    return status;
}

hk_status hk_builder_finish(hk_builder *builder, uint8_t **bytes, size_t *length) {
    if (builder == NULL || bytes == NULL || length == NULL) {
        return HK_NULL;
    }
    hk_pair *pairs = (hk_pair *)builder->pairs;
    const uint8_t *at = bytes_of(builder->bytes);
    for (size_t i = 0; i < builder->count; i++) {
        pairs[i].key.bytes = at;
        at += pairs[i].key.length;
        pairs[i].value.bytes = at;
        at += pairs[i].value.length;
    }
    return build_archive(pairs, builder->count, builder->types, bytes, length);
}

void hk_builder_free(hk_builder *builder) {
    if (builder != NULL) {
        hk_bytes_free((uint8_t *)builder->pairs);
        hk_bytes_free((uint8_t *)builder->bytes);
        rattle_dealloc(builder);
    }
}

void hk_bytes_free(uint8_t *bytes) {
    if (bytes != NULL) {
        rattle_dealloc(bytes);
    }
}

hk_status hk_container_size(size_t length, size_t *size) {
    if (size == NULL) {
        return HK_NULL;
    }
    if (length > PTRDIFF_MAX - HK_CONTAINER_HEADER) {
        return HK_TOO_LONG;
    }
    *size = HK_CONTAINER_HEADER + length;
    return HK_OK;
}

static hk_status write_header(const uint8_t *archive, size_t length, hk_types types, bool checksum,
                              uint8_t *header) {
    return (hk_status)hk_c_write_header(archive, length, CODES(types), checksum, header,
                                        HK_CONTAINER_HEADER);
}

hk_status hk_container_header(const void *archive, size_t length, hk_types types, bool checksum,
                              uint8_t *header) {
    hk_status status = first(check_types(types), check_bytes(archive, length));
    status = first(status, check_output(header));
    if (status == HK_OK) {
        status = check_outside(archive, length, header, HK_CONTAINER_HEADER);
    }
    return status == HK_OK ? write_header(bytes_of(archive), length, types, checksum, header) : status;
}

hk_status hk_container_write(const void *archive, size_t length, hk_types types, bool checksum,
                             void *container, size_t size) {
    size_t wanted = 0;
    hk_status status = first(check_types(types), check_bytes(archive, length));
    status = first(first(status, hk_container_size(length, &wanted)), check_output(container));
    if (status == HK_OK && size != wanted) {
        status = HK_WRONG_SIZE;
    }
    if (status == HK_OK) {
        uint8_t *header = (uint8_t *)container, *copy = header + HK_CONTAINER_HEADER;
        memmove(copy, bytes_of(archive), length);
        status = write_header(copy, length, types, checksum, header);
    }
    return status;
}

hk_status hk_container_update(void *bytes, size_t length) {
    uint8_t none[1] = {0};
    const hk_status status = check_bytes(bytes, length);
    if (status != HK_OK) {
        return status;
    }
    return (hk_status)hk_c_update_container(bytes != NULL ? (uint8_t *)bytes : none, length);
}
