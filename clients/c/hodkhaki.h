/*
 * Hash maps, hash sets, index maps and index sets with the bytes of rkyv 0.8.18, tested on the
 * archives that README.md names. An index map and an index set keep their items in the order in which
 * they were added. They are looked up by key or by index.
 *
 * A collection has a kind, a type of keys, a type of values and a width: `hk_types`. An item of a set
 * is a key, and its value is the unit. The bytes of an archive record none of these: open an archive
 * with the types that it was built with. An archive of some types may be valid as one of others, and
 * then has meaningless items. A container records them: it is a header of 32 bytes, and the archive
 * after it. A container of some types is never opened as one of others.
 *
 * `hk_open` and `hk_open_container` validate untrusted bytes once and fill a handle. The other calls
 * of a collection take the handle. A builder collects items and builds their archive. `hk_build`
 * builds the archive of an array of items.
 *
 * A call returns HK_OK or the first of the errors listed at it. After an error its outputs are
 * unchanged, unless its comment says otherwise. The calls keep no state. At the same time, two
 * threads may use two builders or handles of two archives, or read one archive.
 *
 * The bytes of an archive may be at any address: its alignments are of positions. The hash has no
 * random seed. So building takes quadratic time if many keys were chosen to share a hash, and a
 * lookup in an archive of others may read all control bytes. It may also miss a key that iteration
 * shows: `hk_misplaced_up_to` counts these keys.
 *
 * Requirements that the calls cannot test:
 *
 *   - A pointer that is not null points to as many bytes or elements as the number beside it, or to
 *     one value of its type, during the call. `header` points to HK_CONTAINER_HEADER bytes.
 *   - The memory that a call writes overlaps none of its other arguments, unless its comment says
 *     otherwise. No other thread uses it. A call that writes a value may write the whole archive.
 *   - The bytes of a collection stay at their address while a handle of it is in use. Only `hk_set`
 *     changes them, by a handle of the same bytes and types. A private mapping of a file may change
 *     with the file.
 *   - A handle was filled by a call that opens a collection, or is all zeros.
 *   - A builder is one of `hk_builder_new` that is not freed, used by one thread at a time.
 *   - The argument of `hk_bytes_free` is null, or an archive that a call built and that is not freed.
 */
#ifndef HODKHAKI_H
#define HODKHAKI_H

#include <stdbool.h>
#include <stddef.h>
#include <stdint.h>
#include <string.h>

#ifdef __cplusplus
extern "C" {
#endif

/* The version of this header, of the Rust crate and of a release: as numbers, and as a string. */
#define HK_VERSION_MAJOR 0
#define HK_VERSION_MINOR 2
#define HK_VERSION_PATCH 0
#define HK_VERSION HK_VERSION_STRING_(HK_VERSION_MAJOR, HK_VERSION_MINOR, HK_VERSION_PATCH)
#define HK_VERSION_STRING_(major, minor, patch) HK_VERSION_QUOTED_(major, minor, patch)
#define HK_VERSION_QUOTED_(major, minor, patch) #major "." #minor "." #patch

/* The result of a call. */
typedef enum hk_status {
    /* Success. */
    HK_OK = 0,

    /* Results of lookups and iterations, wrong arguments, and allocation failures. */

    /* The lookup does not find the key. */
    HK_NOT_FOUND = 1,
    /* No item remains, or none has the index. */
    HK_END = 2,
    /* The number of the key or of the value is of no value of its type. */
    HK_VALUE_TOO_LARGE = 3,
    /* The bytes of the key, or of a text that is to be archived, are not UTF-8. */
    HK_NOT_TEXT = 4,
    /* A pointer is null. */
    HK_NULL = 5,
    /* A length is greater than PTRDIFF_MAX. */
    HK_TOO_LONG = 6,
    /* No collection here has this kind, this type of keys and this type of values. */
    HK_UNKNOWN_KIND = 7,
    /* The width is not one of `hk_width`, or it is HK_ANY_WIDTH where that has no meaning. */
    HK_UNKNOWN_WIDTH = 8,
    /* The call is for another kind of collection, or for values of another type. */
    HK_WRONG_KIND = 9,
    /* The handle is not of an open collection. */
    HK_CLOSED = 10,
    /* The collection was opened to read, which allows no writing. */
    HK_READ_ONLY = 11,
    /* An allocation failed. */
    HK_NO_MEMORY = 12,
    /* The room for a container does not have the size of the container. */
    HK_WRONG_SIZE = 13,
    /* The key of a write in place has a byte of the archive, which the call writes, or an archive has a
     * byte of the header that is written. */
    HK_OVERLAP = 14,
    /* The lookups of all keys read more control bytes than the limit allows. */
    HK_LIMIT_REACHED = 15,

    /* Errors of validation: the bytes are not an archive of such a collection. They are not checked in
     * the order of their numbers. */

    /* The collection or a part of it is outside the bytes that it may use, or the archive exceeds the
     * limit of its width. */
    HK_OUT_OF_RANGE = 16,
    /* The collection or a part of it is not at a multiple of its alignment. */
    HK_UNALIGNED = 17,
    /* The number of items is not less than the number of buckets, and they are not both 0. */
    HK_INVALID_LENGTH = 18,
    /* The number of full buckets differs from the number of items. */
    HK_WRONG_NUMBER_OF_ELEMENTS = 19,
    /* A mirrored control byte differs from the one that it mirrors, or one after them is not empty. */
    HK_UNWRAPPED_CONTROL_BYTE = 20,
    /* An index in the table of an index map or index set is not less than the number of items. */
    HK_PLACE_OUT_OF_RANGE = 21,
    /* A text is not UTF-8, or its length is malformed, or a `bool` or a character is not valid. */
    HK_INVALID_VALUE = 22,
    /* The type has no valid values. No call here returns it. */
    HK_REFUSED = 23,

    /* Errors of building: the items have no archive of the width. */

    /* The collection needs more buckets than the width can count. */
    HK_CAPACITY_TOO_LARGE = 24,
    /* The archive would exceed the width's limit: 4294967295 bytes, or PTRDIFF_MAX. */
    HK_POSITION_TOO_LARGE = 25,
    /* A distance between two parts of the archive does not fit the width. Distances are signed. */
    HK_DISTANCE_TOO_LARGE = 26,
    /* A text reaches the width's limit: 1073741824 bytes, or 4611686018427387904. */
    HK_TEXT_TOO_LONG = 27,
    /* The load factor is invalid. No call here returns it. */
    HK_INVALID_LOAD_FACTOR = 28,
    /* The number of items differs from the expected one. No call here returns it. */
    HK_ITERATOR_LENGTH_MISMATCH = 29,

    /* Errors of containers. Those up to HK_CONTAINER_NONZERO_RESERVED are of the header alone. */

    /* There are fewer than 32 bytes. */
    HK_CONTAINER_TOO_SHORT = 32,
    /* The first eight bytes are not those of a container. */
    HK_CONTAINER_WRONG_MAGIC = 33,
    /* The version of the container is not 1. */
    HK_CONTAINER_UNSUPPORTED_VERSION = 34,
    /* No kind of collection has the code in the header. */
    HK_CONTAINER_UNKNOWN_COLLECTION = 35,
    /* No type of keys has the code in the header. */
    HK_CONTAINER_UNKNOWN_KEY_TYPE = 36,
    /* No type of values has the code in the header. */
    HK_CONTAINER_UNKNOWN_VALUE_TYPE = 37,
    /* No width has the code in the header. */
    HK_CONTAINER_UNKNOWN_WIDTH = 38,
    /* A flag is set that has no meaning. */
    HK_CONTAINER_UNKNOWN_FLAGS = 39,
    /* There is a checksum, but no flag for one. */
    HK_CONTAINER_UNEXPECTED_CHECKSUM = 40,
    /* The last four bytes of the header are not 0. */
    HK_CONTAINER_NONZERO_RESERVED = 41,
    /* The container has another kind of collection. */
    HK_CONTAINER_WRONG_COLLECTION = 42,
    /* The keys in the container are of another type. */
    HK_CONTAINER_WRONG_KEY_TYPE = 43,
    /* The values in the container are of another type. */
    HK_CONTAINER_WRONG_VALUE_TYPE = 44,
    /* The archive in the container has another width. */
    HK_CONTAINER_WRONG_WIDTH = 45,
    /* The number of bytes after the header is not the length in the header. */
    HK_CONTAINER_WRONG_LENGTH = 46,
    /* The checksum in the header is not that of the archive. */
    HK_CONTAINER_WRONG_CHECKSUM = 47,
    /* The bytes are those of a container, but the call is for an archive without one. */
    HK_IS_CONTAINER = 48
} hk_status;

/* The kinds of collections, by their codes in the header of a container. */
typedef enum hk_kind {
    HK_MAP = 1,
    HK_SET = 2,
    HK_INDEX_MAP = 3,
    HK_INDEX_SET = 4
} hk_kind;

/* The types of keys and values, by their codes in the header of a container.
 *
 * Keys are texts, characters or integers. The values of a set are HK_UNIT, and those of a map are of
 * any other type. A text is UTF-8, a character is a Unicode scalar value, and HK_BYTES is a byte
 * string. */
typedef enum hk_type {
    HK_UNIT = 0x01,
    HK_BOOL = 0x02,
    HK_CHAR = 0x03,
    HK_TEXT = 0x04,
    HK_BYTES = 0x05,
    HK_U8 = 0x11,
    HK_U16 = 0x12,
    HK_U32 = 0x14,
    HK_U64 = 0x18,
    HK_I8 = 0x21,
    HK_I16 = 0x22,
    HK_I32 = 0x24,
    HK_I64 = 0x28,
    HK_F32 = 0x34,
    HK_F64 = 0x38
} hk_type;

/* The widths of archives: the number of bytes of a position. With HK_ANY_WIDTH a container of either
 * width is opened or explained. */
typedef enum hk_width {
    HK_ANY_WIDTH = 0,
    HK_NARROW = 4,
    HK_WIDE = 8
} hk_width;

/* The kind of a collection, a `hk_kind`, the types of its keys and of its values, each a `hk_type`, and
 * its width, a `hk_width`. */
typedef struct hk_types {
    uint8_t kind;
    uint8_t key;
    uint8_t value;
    uint8_t width;
} hk_types;

/* A key or a value of any type.
 *
 * `number` is an integer, with the bits of the unsigned integer of the same size if it is signed, a
 * `bool` as 0 or 1, the number of a character, or the bits of a floating-point number. `bytes` are the
 * `length` bytes of a text or of a byte string. A text has no zero byte at its end, and may contain
 * one.
 *
 * A call reads the members of the type only, and none of a unit. `bytes` may be null if `length` is 0.
 * In a value that a call stores, the members of another type are 0 and no bytes. Its bytes are those
 * of the archive, and not null. */
typedef struct hk_value {
    uint64_t number;
    const void *bytes;
    size_t length;
} hk_value;

/* A key and its value, which are to be archived. The value of an item of a set is not read. */
typedef struct hk_pair {
    hk_value key;
    hk_value value;
} hk_pair;

/* A key of an archive and its value. `next` is the bucket, or the index in an index map or an index
 * set, at which the iteration continues. */
typedef struct hk_item {
    uint64_t next;
    hk_value key;
    hk_value value;
} hk_item;

/* The initializer of an item, with which an iteration begins. */
#ifdef __cplusplus
#define HK_ITEM_START {}
#else
#define HK_ITEM_START {0, {0, NULL, 0}, {0, NULL, 0}}
#endif

/* The index of a key of an index map or an index set, and its value. */
typedef struct hk_found {
    size_t index;
    hk_value value;
} hk_found;

/* The result of one of several lookups: its status, and what it finds if that is HK_OK. */
typedef struct hk_looked_up {
    hk_status status;
    hk_found found;
} hk_looked_up;

/* The decoded header of a collection's table. Its members are private. */
typedef struct hk_table_header {
    size_t controls_position;
    size_t length;
    size_t capacity;
    uint64_t divisor;
    uint64_t inverse;
} hk_table_header;

/* What the library has decoded of a collection. Its members are private. */
typedef struct hk_decoded {
    bool indexed;
    bool wide;
    uint8_t key;
    uint8_t value;
    hk_table_header header;
} hk_decoded;

/* A handle of an open collection of any kind. It may be copied, and needs no closing. All zeros are a
 * handle of no open collection. A program may read `types`, and the other members are private. */
typedef struct hk_map {
    const uint8_t *bytes;
    uint8_t *writable;
    size_t length;
    hk_types types;
    hk_decoded decoded;
} hk_map;

/* An error of opening, with its numbers. A number that the error does not have is 0.
 *
 *   HK_OUT_OF_RANGE                position and size in bytes of a part of the collection
 *   HK_UNALIGNED                   position and alignment of a part of the collection
 *   HK_INVALID_LENGTH              number of items, number of buckets
 *   HK_WRONG_NUMBER_OF_ELEMENTS    number of items, number of full buckets
 *   HK_UNWRAPPED_CONTROL_BYTE      index of a control byte
 *   HK_PLACE_OUT_OF_RANGE          index in the table of an index map or index set, number of items
 *   HK_INVALID_VALUE               position of a text, a `bool` or a character
 *
 * HK_CONTAINER_TOO_SHORT has the number of bytes. HK_CONTAINER_WRONG_MAGIC and HK_IS_CONTAINER have no
 * number. From HK_CONTAINER_UNSUPPORTED_VERSION to HK_CONTAINER_NONZERO_RESERVED it is the number in
 * the header. From HK_CONTAINER_WRONG_COLLECTION to HK_CONTAINER_WRONG_WIDTH they are the code in the
 * call's types, and the code in the header. For HK_CONTAINER_WRONG_LENGTH and
 * HK_CONTAINER_WRONG_CHECKSUM they are the number in the header, and that of the archive. A number
 * that does not fit its member is replaced by the nearest one that does.
 *
 * `position` counts from the first byte of the archive, and is negative before it. The numbers
 * besides it are `first` and `second`, in this order. */
typedef struct hk_error {
    uint32_t status;
    int64_t position;
    uint64_t first;
    uint64_t second;
} hk_error;

/* The kind, the types and the width of a collection. */
static inline hk_types hk_types_of(uint8_t kind, uint8_t key, uint8_t value, uint8_t width) {
    const hk_types types = {kind, key, value, width};
    return types;
}

/* An unsigned integer of any size. */
static inline hk_value hk_number(uint64_t number) {
    const hk_value value = {number, "", 0};
    return value;
}

/* Signed integers. */
static inline hk_value hk_i8(int8_t number) { return hk_number((uint8_t)number); }
static inline hk_value hk_i16(int16_t number) { return hk_number((uint16_t)number); }
static inline hk_value hk_i32(int32_t number) { return hk_number((uint32_t)number); }
static inline hk_value hk_i64(int64_t number) { return hk_number((uint64_t)number); }

/* A `bool`. */
static inline hk_value hk_bool(bool flag) { return hk_number(flag ? 1 : 0); }

/* The character with this number. */
static inline hk_value hk_char(uint32_t character) { return hk_number(character); }

/* A floating-point number of 32 bits. */
static inline hk_value hk_f32(float number) {
    uint32_t bits;
    memcpy(&bits, &number, sizeof bits);
    return hk_number(bits);
}

/* A floating-point number of 64 bits. */
static inline hk_value hk_f64(double number) {
    uint64_t bits;
    memcpy(&bits, &number, sizeof bits);
    return hk_number(bits);
}

/* A byte string of `length` bytes. `bytes` may be null if `length` is 0. */
static inline hk_value hk_bytes(const void *bytes, size_t length) {
    const hk_value value = {0, bytes, length};
    return value;
}

/* A text of `length` bytes. `text` may be null if `length` is 0. */
static inline hk_value hk_text(const char *text, size_t length) { return hk_bytes(text, length); }

/* A text that a zero byte ends. It is not null. */
static inline hk_value hk_str(const char *text) { return hk_text(text, strlen(text)); }

/* The value of an item of a set. */
static inline hk_value hk_unit(void) { return hk_number(0); }

/* A value of the type in the name. An unsigned integer is its `number`. */
static inline int8_t hk_as_i8(hk_value value) { return (int8_t)value.number; }
static inline int16_t hk_as_i16(hk_value value) { return (int16_t)value.number; }
static inline int32_t hk_as_i32(hk_value value) { return (int32_t)value.number; }
static inline int64_t hk_as_i64(hk_value value) { return (int64_t)value.number; }
static inline bool hk_as_bool(hk_value value) { return value.number != 0; }
static inline uint32_t hk_as_char(hk_value value) { return (uint32_t)value.number; }

static inline float hk_as_f32(hk_value value) {
    const uint32_t bits = (uint32_t)value.number;
    float number;
    memcpy(&number, &bits, sizeof number);
    return number;
}

static inline double hk_as_f64(hk_value value) {
    double number;
    memcpy(&number, &value.number, sizeof number);
    return number;
}

/* The first of the `length` bytes of a text. No zero byte ends it. */
static inline const char *hk_as_text(hk_value value) { return (const char *)value.bytes; }

/* Returns the name of a status, such as "HK_OK", or "unknown". */
const char *hk_status_name(uint32_t status);

/* Returns a short sentence about a status, for messages to people, such as "the lookup does not find
 * the key", or "unknown status". It begins with a small letter and has no full stop. */
const char *hk_status_message(uint32_t status);

/* Validates the bytes and opens the collection whose archive they are, to read. `bytes` may be null if
 * `length` is 0.
 *
 * Errors, after which the handle is not of an open collection:
 *   - HK_NULL: `map` is null;
 *   - HK_UNKNOWN_KIND, HK_UNKNOWN_WIDTH;
 *   - HK_NULL: `bytes` is null;
 *   - HK_TOO_LONG;
 *   - HK_IS_CONTAINER: the bytes begin with the first eight of a container, and have its length;
 *   - the first error of validation: HK_OUT_OF_RANGE to HK_INVALID_VALUE. */
hk_status hk_open(const void *bytes, size_t length, hk_types types, hk_map *map);

/* Opens a collection as `hk_open` does, to read and to write values in place. */
hk_status hk_open_writable(void *bytes, size_t length, hk_types types, hk_map *map);

/* The number of bytes of a container's header, and the position of the archive in a container. */
#define HK_CONTAINER_HEADER 32

/* Opens the collection in a container, to read: checks that the container is one of these types, then
 * validates the archive. The width may be HK_ANY_WIDTH, and `map->types` has the width that was found.
 * `bytes` may be null if `length` is 0. The handle points into the container.
 *
 * A container detects a wrong type and an accident, not an attacker. So validation is as that of
 * `hk_open`.
 *
 * `hk_container_types` reads the types.
 *
 * Errors, after which the handle is not of an open collection:
 *   - HK_NULL: `map` is null;
 *   - HK_UNKNOWN_KIND, HK_UNKNOWN_WIDTH;
 *   - HK_NULL: `bytes` is null;
 *   - HK_TOO_LONG;
 *   - the first error of the container: HK_CONTAINER_TOO_SHORT to HK_CONTAINER_WRONG_CHECKSUM;
 *   - the first error of validation: HK_OUT_OF_RANGE to HK_INVALID_VALUE. */
hk_status hk_open_container(const void *bytes, size_t length, hk_types types, hk_map *map);

/* Opens the collection in a container as `hk_open_container` does, to read and to write values in
 * place. A write does not change the checksum in the header: see `hk_container_update`. */
hk_status hk_open_container_writable(void *bytes, size_t length, hk_types types, hk_map *map);

/* Stores the error with which `hk_open` fails on these bytes, and its numbers. Its status is HK_OK if
 * the call does not fail. `bytes` may be null if `length` is 0.
 *
 * Errors:
 *   - HK_NULL: `error` is null;
 *   - HK_UNKNOWN_KIND, HK_UNKNOWN_WIDTH;
 *   - HK_NULL: `bytes` is null;
 *   - HK_TOO_LONG. */
hk_status hk_explain(const void *bytes, size_t length, hk_types types, hk_error *error);

/* Stores the error of the container or of validation with which `hk_open_container` fails on these
 * bytes, as `hk_explain` does. The width may be HK_ANY_WIDTH. */
hk_status hk_container_explain(const void *bytes, size_t length, hk_types types, hk_error *error);

/* Stores the types of a container, as its header has them. Neither the length, the checksum nor the
 * archive is checked. `bytes` may be null if `length` is 0.
 *
 * Errors:
 *   - HK_NULL: `types` is null;
 *   - HK_NULL: `bytes` is null;
 *   - HK_TOO_LONG;
 *   - the first error of the header: HK_CONTAINER_TOO_SHORT to HK_CONTAINER_NONZERO_RESERVED;
 *   - HK_UNKNOWN_KIND: no collection here has the types in the header. */
hk_status hk_container_types(const void *bytes, size_t length, hk_types *types);

/* Stores the number of items. Items with equal keys count separately.
 *
 * Errors:
 *   - HK_NULL: `map` is null;
 *   - HK_CLOSED;
 *   - HK_NULL: `count` is null. */
hk_status hk_count(const hk_map *map, size_t *count);

/* Stores the value of a key. In a collection that a call of this header has built, this is the value
 * of the first item with the key. In a set it is the unit. `value` is not stored if it is null.
 *
 * Errors:
 *   - HK_NULL: `map` is null;
 *   - HK_CLOSED;
 *   - HK_NULL: the key is a text, and its bytes are null;
 *   - HK_TOO_LONG, HK_VALUE_TOO_LARGE or HK_NOT_TEXT: of the key;
 *   - HK_NOT_FOUND. */
hk_status hk_get(const hk_map *map, hk_value key, hk_value *value);

/* Stores the index of a key of an index map or an index set, and its value, as `hk_get` does. `found`
 * is not stored if it is null.
 *
 * Errors:
 *   - HK_NULL: `map` is null;
 *   - HK_CLOSED;
 *   - HK_WRONG_KIND: of a hash map or a hash set;
 *   - HK_NULL: the key is a text, and its bytes are null;
 *   - HK_TOO_LONG, HK_VALUE_TOO_LARGE or HK_NOT_TEXT: of the key;
 *   - HK_NOT_FOUND. */
hk_status hk_find(const hk_map *map, hk_value key, hk_found *found);

/* Looks up `count` keys, and stores their results, in order: one call in the place of many. The status
 * of a result is that of `hk_get` for the key. If it is HK_OK, `found` has the value, and the index in
 * an index map or an index set. Otherwise it is the index 0 and a unit. `keys` and `results` may be null
 * if `count` is 0.
 *
 * Errors, after which no result is stored:
 *   - HK_NULL: `map` is null;
 *   - HK_CLOSED;
 *   - HK_NULL: `keys` or `results` is null;
 *   - HK_TOO_LONG: the keys or the results have more than PTRDIFF_MAX bytes. */
hk_status hk_get_many(const hk_map *map, const hk_value *keys, size_t count, hk_looked_up *results);

/* Looks up a key, and returns HK_OK if it is found. The errors are those of `hk_get`. */
hk_status hk_contains(const hk_map *map, hk_value key);

/* Writes the value of a key in place: the value that `hk_get` finds. It is an integer or a
 * floating-point number. The key may not be a part of the archive: copy a key that another call has
 * stored.
 *
 * The call leaves the handle unchanged, and writes bytes of the archive. So no other thread may use
 * the archive meanwhile, by this handle or another.
 *
 * Errors, after which no byte is changed:
 *   - HK_NULL: `map` is null;
 *   - HK_CLOSED;
 *   - HK_WRONG_KIND: of a set, or the values are neither integers nor floating-point numbers;
 *   - HK_NULL: the key is a text, and its bytes are null;
 *   - HK_TOO_LONG: of the key;
 *   - HK_READ_ONLY;
 *   - HK_OVERLAP: a byte of the key is in the archive;
 *   - HK_VALUE_TOO_LARGE or HK_NOT_TEXT: of the key;
 *   - HK_VALUE_TOO_LARGE: of the value;
 *   - HK_NOT_FOUND. */
hk_status hk_set(hk_map *map, hk_value key, hk_value value);

/* Stores the next item, in the order of the archive, which is the order of adding in an index map and
 * an index set. After an item that HK_ITEM_START initializes, this is the first item. Each item is
 * stored once before HK_END.
 *
 * Errors:
 *   - HK_NULL: `map` is null;
 *   - HK_CLOSED;
 *   - HK_NULL: `item` is null;
 *   - HK_END. */
hk_status hk_next(const hk_map *map, hk_item *item);

/* Stores the next items, over the `room` items at `items`, and their number in `count`: one call in the
 * place of many. `from` is 0 at first, and then the `next` of the last item. In an index map and an
 * index set it may be any index. If fewer than `room` items are stored, none remains. The others of the
 * `room` items have no meaning then. `items` may be null if `room` is 0.
 *
 * Errors, after which no item is stored:
 *   - HK_NULL: `map` is null;
 *   - HK_CLOSED;
 *   - HK_NULL: `count` or `items` is null;
 *   - HK_TOO_LONG: the items have more than PTRDIFF_MAX bytes. */
hk_status hk_items(const hk_map *map, uint64_t from, hk_item *items, size_t room, size_t *count);

/* Stores the item at an index of an index map or an index set. Indices count from 0, in the order in
 * which the items were added.
 *
 * Errors:
 *   - HK_NULL: `map` is null;
 *   - HK_CLOSED;
 *   - HK_WRONG_KIND: of a hash map or a hash set;
 *   - HK_NULL: `item` is null;
 *   - HK_END: the index is not less than the number of items. */
hk_status hk_at(const hk_map *map, size_t index, hk_item *item);

/* Stores the number of misplaced keys: of those that a lookup of the key itself does not find. The
 * lookup finds an equal key, or none. If the number is 0, lookups are complete: each finds the one item
 * with the key, or no item has it. In a collection that a call of this header has built, the number is
 * that of the items whose key an earlier item has too.
 *
 * Opening a collection does not look up keys, so an archive of others may have misplaced keys. This
 * call looks each key up once. A lookup reads control bytes, sixteen at a time. In a built collection
 * it does so one to two times, if the hashes of the keys are spread evenly. So a limit of four times
 * the number of items has room for such a collection. In an archive of others a lookup may read all
 * control bytes. The call ends after the lookup that exceeds the limit.
 *
 * Errors:
 *   - HK_NULL: `map` is null;
 *   - HK_CLOSED;
 *   - HK_NULL: `count` is null;
 *   - HK_LIMIT_REACHED: the lookups of all keys read sixteen control bytes more often than `limit`
 *     times. */
hk_status hk_misplaced_up_to(const hk_map *map, uint64_t limit, uint64_t *count);

/* Allocates the archive of the `count` items at `pairs`, in their order. If two have the same key, both
 * are kept, and lookups find the first one. The caller frees the archive with `hk_bytes_free`. `pairs`
 * may be null if `count` is 0.
 *
 * Errors:
 *   - HK_UNKNOWN_KIND, HK_UNKNOWN_WIDTH;
 *   - HK_NULL: `bytes`, `length` or `pairs` is null;
 *   - HK_TOO_LONG: the pairs have more than PTRDIFF_MAX bytes;
 *   - the error of the first pair that has one, its key before its value: HK_NULL if its bytes are
 *     null, HK_TOO_LONG if it has more than PTRDIFF_MAX bytes;
 *   - HK_NO_MEMORY;
 *   - the error of the first pair that has one, its key before its value: HK_VALUE_TOO_LARGE,
 *     HK_NOT_TEXT;
 *   - the error of the write: HK_NO_MEMORY, or HK_CAPACITY_TOO_LARGE to HK_TEXT_TOO_LONG. */
hk_status hk_build(const hk_pair *pairs, size_t count, hk_types types, uint8_t **bytes,
                   size_t *length);

/* The items of a collection that is to be archived. */
typedef struct hk_builder hk_builder;

/* Allocates a builder without items. The caller frees it with `hk_builder_free`.
 *
 * Errors, after which `*builder` is null:
 *   - HK_NULL: `builder` is null;
 *   - HK_UNKNOWN_KIND, HK_UNKNOWN_WIDTH, HK_NO_MEMORY. */
hk_status hk_builder_new(hk_types types, hk_builder **builder);

/* Appends an item, and copies its bytes. The value of an item of a set is not read. If an earlier item
 * has the same key, both are kept, and lookups find the earlier one.
 *
 * Errors, after which no item is appended:
 *   - HK_NULL: `builder` is null;
 *   - the first error of the key, then the first one of the value: HK_NULL if its bytes are null,
 *     HK_TOO_LONG, HK_VALUE_TOO_LARGE, HK_NOT_TEXT;
 *   - HK_NO_MEMORY. */
hk_status hk_builder_put(hk_builder *builder, hk_value key, hk_value value);

/* Allocates the archive of the items, in the order in which they were added. The caller frees it with
 * `hk_bytes_free`. The builder keeps its items and takes further ones.
 *
 * Errors:
 *   - HK_NULL: a pointer is null;
 *   - the first error of building: HK_NO_MEMORY, or HK_CAPACITY_TOO_LARGE to HK_TEXT_TOO_LONG. */
hk_status hk_builder_finish(hk_builder *builder, uint8_t **bytes, size_t *length);

/* Frees a builder, which may be null. The archives that it built stay. */
void hk_builder_free(hk_builder *builder);

/* Frees an archive that a call built. It may be null. */
void hk_bytes_free(uint8_t *bytes);

/* Stores the number of bytes of the container of an archive of `length` bytes: 32 more.
 *
 * Errors:
 *   - HK_NULL: `size` is null;
 *   - HK_TOO_LONG: the size would be greater than PTRDIFF_MAX. */
hk_status hk_container_size(size_t length, size_t *size);

/* Writes the header of the container of an archive over the HK_CONTAINER_HEADER bytes at
 * `header`. A program writes them to a file, and the archive after them. The types are those that
 * the archive was built with. The header has a checksum if `checksum` is true. The archive is not
 * validated. `archive` may be null if `length` is 0.
 *
 * Errors, after which no byte is changed:
 *   - HK_UNKNOWN_KIND, HK_UNKNOWN_WIDTH;
 *   - HK_NULL: `archive` is null;
 *   - HK_TOO_LONG;
 *   - HK_NULL: `header` is null;
 *   - HK_OVERLAP: a byte of the archive is in the header. */
hk_status hk_container_header(const void *archive, size_t length, hk_types types, bool checksum,
                              uint8_t *header);

/* Writes the container of an archive over the `size` bytes at `container`: the header, as
 * `hk_container_header` does, and a copy of the archive. `size` is that of `hk_container_size`.
 * The archive may be a part of these bytes: if it follows room for the header, it stays there.
 *
 * Errors, after which no byte is changed:
 *   - HK_UNKNOWN_KIND, HK_UNKNOWN_WIDTH;
 *   - HK_NULL: `archive` is null;
 *   - HK_TOO_LONG: the length or the size of the container is greater than PTRDIFF_MAX;
 *   - HK_NULL: `container` is null;
 *   - HK_WRONG_SIZE. */
hk_status hk_container_write(const void *archive, size_t length, hk_types types, bool checksum,
                             void *container, size_t size);

/* Writes the checksum of a container anew, after values were written in place. If the header has no
 * checksum, no byte is changed. `bytes` may be null if `length` is 0.
 *
 * Errors, after which no byte is changed:
 *   - HK_NULL: `bytes` is null;
 *   - HK_TOO_LONG;
 *   - the first error of the header: HK_CONTAINER_TOO_SHORT to HK_CONTAINER_NONZERO_RESERVED;
 *   - HK_CONTAINER_WRONG_LENGTH. */
hk_status hk_container_update(void *bytes, size_t length);

#ifdef __cplusplus
}
#endif

#endif
