/* What test.c and test_errors.c share: checks, archives that are written out by hand, and the functions of
 * memory.h, which check their arguments, count the blocks, and let one request fail if a test asks for it.
 * This file is C99, and C++11 too. */
#ifndef HODKHAKI_TEST_H
#define HODKHAKI_TEST_H

#include "hodkhaki.h"

#include "memory.h"

#include <stdio.h>
#include <stdlib.h>
#include <string.h>

static unsigned long checks, faults;

/* The types of the collection that is tested, for messages. */
static hk_types current;

static inline void fault(const char *what) {
    faults++;
    printf("kind %u, key %#x, value %#x, width %u: %s: ", current.kind, current.key, current.value,
           current.width, what);
}

static inline void same(const char *what, uint64_t got, uint64_t wanted) {
    checks++;
    if (got != wanted) {
        fault(what);
        printf("%llu, not %llu\n", (unsigned long long)got, (unsigned long long)wanted);
    }
}

static inline void returns(const char *what, hk_status got, hk_status wanted) {
    checks++;
    if (got != wanted) {
        fault(what);
        printf("%s, not %s\n", hk_status_name(got), hk_status_name(wanted));
    }
}

/* A block that is not freed, with the size and the alignment that were asked for. */
struct request {
    void *block;
    size_t size;
    size_t align;
};

/* The blocks that are not freed, and their number. */
static struct request live[64];
static size_t blocks;

/* The number of requests, and the request that fails. */
static size_t requests, failing = SIZE_MAX;

/* Ends the program. */
static inline void fail(const char *what) {
    printf("%s\n", what);
    exit(1);
}

/* Tests that memory.h allows a request of this size and alignment. */
static inline void is_request(size_t size, size_t align) {
    same("an alignment", align == 1 || align == 2 || align == 4 || align == 8 || align == 16, 1);
    same("a multiple of the alignment", align != 0 && size % align == 0, 1);
}

/* The request of a block. */
static inline struct request *request_of(void *block) {
    size_t i = 0;
    while (i < blocks && live[i].block != block) {
        i++;
    }
    if (i == blocks) {
        fail("a block that is not allocated");
    }
    return &live[i];
}

struct rattle_block rattle_alloc(size_t size, size_t align) {
    is_request(size, align);
    if (blocks == sizeof live / sizeof *live) {
        fail("too many blocks for this test");
    }
    void *block = requests++ == failing ? NULL : malloc(size != 0 ? size : align);
    const struct rattle_block result = {block != NULL, block};
    const struct request request = {block, size, align};
    if (block != NULL) {
        live[blocks++] = request;
    }
    return result;
}

struct rattle_block rattle_realloc(void *block, size_t kept, size_t size, size_t align) {
    struct request *request = request_of(block);
    is_request(size, align);
    same("the same alignment", align, request->align);
    same("kept of the old block", kept <= request->size, 1);
    same("kept in the new block", kept <= size, 1);
    void *grown = requests++ == failing ? NULL : realloc(block, size != 0 ? size : align);
    const struct rattle_block result = {grown != NULL, grown};
    if (grown != NULL) {
        request->block = grown;
        request->size = size;
    }
    return result;
}

void rattle_dealloc(void *block) {
    struct request *request = request_of(block);
    *request = live[--blocks];
    free(block);
}

/* The number of elements of an array. */
#define COUNT(array) (sizeof(array) / sizeof *(array))

/* A number, a text and the unit, as parts of an initializer. */
#define N(number) {number, "", 0}
#define T(text) {0, text, sizeof(text) - 1}
#define NONE {0, "", 0}

/* An archive that is written out by hand, of items in the order of an iteration. In `digits`, which are
 * hexadecimal, a byte and `*27` are 27 of the byte. Two blanks are between parts, buckets, control bytes,
 * mirrored control bytes, padding, entries and the words of the header.
 *
 * The hash of 1 is 517cc1b727220a95: it is odd, so in a table of two buckets the item is in bucket 1,
 * which comes first in the bytes, with the tag 28. The tag of the empty text is 15, and that of
 * 4,294,967,297 is 3c. */
static const struct row {
    hk_types types;
    const char *digits;
    size_t length;
    size_t count;
    hk_pair pairs[3];
} rows[] = {
    {{HK_MAP, HK_U32, HK_U32, HK_NARROW},
     "0100000002000000  00*8  ff28  ff28ff*27  00  e0ffffff  01000000  02000000",
     60, 1, {{N(1), N(2)}}},
    {{HK_MAP, HK_TEXT, HK_U64, HK_WIDE},
     "ff*16 0700*7  00*24  ff15  ff15ff*27  00  e0ff*7  0100*7  0200*7",
     104, 1, {{T(""), N(7)}}},
    {{HK_MAP, HK_U32, HK_TEXT, HK_NARROW},
     "776f6e64657266756c000000  00*12  0100000078ff*7  0100000089000000d8ffffff  2828ff  "
     "2828ff*26  00  e0ffffff  02000000  03000000",
     92, 2, {{N(1), T("wonderful")}, {N(1), T("x")}}},
    {{HK_MAP, HK_TEXT, HK_TEXT, HK_WIDE},
     "ff*16 776f6e64657266756cff*7  00*32  ff15  ff15ff*27  00  e0ff*7  0100*7  0200*7",
     120, 1, {{T(""), T("wonderful")}}},
    {{HK_SET, HK_U32, HK_UNIT, HK_NARROW},
     "01000000  00000000  ff28  ff28ff*27  00  e0ffffff  01000000  02000000",
     52, 1, {{N(1), NONE}}},
    {{HK_SET, HK_TEXT, HK_UNIT, HK_WIDE},
     "ff*16  00*16  ff15  ff15ff*27  00  e0ff*7  0100*7  0200*7",
     88, 1, {{T(""), NONE}}},
    {{HK_SET, HK_U64, HK_UNIT, HK_NARROW},
     "0100000001000000  00*8  ff3c  ff3cff*27  00  e0ffffff  01000000  02000000",
     60, 1, {{N(0x100000001), NONE}}},
    {{HK_MAP, HK_U64, HK_U32, HK_NARROW},
     "01000000010000000200*7  00*16  ff3c  ff3cff*27  00  e0ffffff  01000000  02000000",
     76, 1, {{N(0x100000001), N(2)}}},
    {{HK_MAP, HK_U64, HK_TEXT, HK_NARROW},
     "776f6e64657266756c00*7  010000000100000089000000e8ffffff  00*16  ff3c  ff3cff*27  "
     "00  e0ffffff  01000000  02000000",
     92, 1, {{N(0x100000001), T("wonderful")}}},
    {{HK_INDEX_MAP, HK_U32, HK_U32, HK_NARROW},
     "02000000  01000000  00000000  00000000  ff284b28  ff284b28ff*23  00  "
     "0100000002000000  0500000006000000  0100000009000000  c8ffffff  03000000  04000000  "
     "dcffffff",
     88, 3, {{N(1), N(2)}, {N(5), N(6)}, {N(1), N(9)}}},
    {{HK_INDEX_MAP, HK_TEXT, HK_U64, HK_WIDE},
     "00*8  00*8  ff15  ff15ff*27  00  ff*16 0700*7  c8ff*7  0100*7  0200*7  d0ff*7",
     104, 1, {{T(""), N(7)}}},
    {{HK_INDEX_MAP, HK_U64, HK_U32, HK_NARROW},
     "00000000  00000000  ff3c  ff3cff*27  00  01000000010000000200*7  d0ffffff  "
     "01000000  02000000  e4ffffff",
     72, 1, {{N(0x100000001), N(2)}}},
    {{HK_INDEX_MAP, HK_U32, HK_TEXT, HK_NARROW},
     "00000000  00000000  ff28  ff28ff*27  776f6e64657266756c  0100000089000000f3ffffff  "
     "ccffffff  01000000  02000000  e8ffffff",
     76, 1, {{N(1), T("wonderful")}}},
    {{HK_INDEX_MAP, HK_U64, HK_TEXT, HK_NARROW},
     "00000000  00000000  ff3c  ff3cff*27  776f6e64657266756c  "
     "010000000100000089000000efffffff  c8ffffff  01000000  02000000  e4ffffff",
     80, 1, {{N(0x100000001), T("wonderful")}}},
    {{HK_INDEX_MAP, HK_TEXT, HK_TEXT, HK_WIDE},
     "00*8  00*8  ff15  ff15ff*27  00  ff*16 776f6e64657266756cff*7  c0ff*7  0100*7  "
     "0200*7  c8ff*7",
     112, 1, {{T(""), T("wonderful")}}},
    {{HK_MAP, HK_U8, HK_BOOL, HK_NARROW},
     "0101  0000  ff28  ff28ff*27  00  e0ffffff  01000000  02000000",
     48, 1, {{N(1), N(1)}}},
    {{HK_MAP, HK_I16, HK_I8, HK_WIDE},
     "00000000  fefffd00  0fff  0fff*28  00  e0ff*7  0100*7  0200*7",
     64, 1, {{N(0xfffe), N(253)}}},
    {{HK_MAP, HK_CHAR, HK_BYTES, HK_NARROW},
     "ff000000  00*12  ac200000ecffffff02000000  2cff  2cff*28  00  e0ffffff  01000000  "
     "02000000",
     72, 1, {{N(0x20ac), T("\xff\0")}}},
    {{HK_MAP, HK_I64, HK_F64, HK_NARROW},
     "ff*8 00*6 f83f  00*16  ff57  ff57ff*27  00  e0ffffff  01000000  02000000",
     76, 1, {{N(0xffffffffffffffff), N(0x3ff8000000000000)}}},
    {{HK_MAP, HK_TEXT, HK_BYTES, HK_WIDE},
     "776f6e64657266756cff*7 f0ff*7 00*8  00*32  ff65  ff65ff*27  00  e0ff*7  0100*7  "
     "0200*7",
     120, 1, {{T("wonderful"), T("")}}},
    {{HK_INDEX_MAP, HK_I32, HK_F32, HK_NARROW},
     "00000000  00000000  ff76  ff76ff*27  00  f9ffffff000000bf  d8ffffff  01000000  "
     "02000000  ecffffff",
     64, 1, {{N(0xfffffff9), N(0xbf000000)}}},
    {{HK_INDEX_MAP, HK_U16, HK_CHAR, HK_WIDE},
     "00*8  00*8  ff28  ff28ff*27  00  01000000ffff1000  d8ff*7  0100*7  0200*7  e0ff*7",
     88, 1, {{N(1), N(0x10ffff)}}},
    {{HK_INDEX_MAP, HK_I8, HK_I16, HK_NARROW},
     "00000000  00000000  ff15  ff15ff*27  00  ff00feff  dcffffff  01000000  02000000  "
     "f0ffffff",
     60, 1, {{N(255), N(0xfffe)}}},
    {{HK_INDEX_SET, HK_U32, HK_UNIT, HK_NARROW},
     "00000000  00000000  01000000  28ff4b  28ff4bff*25  00  05000000  01000000  "
     "d8ffffff  02000000  03000000  ecffffff",
     68, 2, {{N(5), NONE}, {N(1), NONE}}},
    {{HK_INDEX_SET, HK_TEXT, HK_UNIT, HK_WIDE},
     "0100*7  00*8  00*8  41ff44  41ff44ff*25  612074657874206f7574206f66206c696e6500*7  "
     "78ff*15  9200*7 d7ff*7  a8ff*7  0200*7  0300*7  c8ff*7",
     144, 2, {{T("x"), NONE}, {T("a text out of line"), NONE}}},
    {{HK_INDEX_SET, HK_CHAR, HK_UNIT, HK_NARROW},
     "00000000  00000000  ff70  ff70ff*27  00  61000000  dcffffff  01000000  02000000  "
     "f0ffffff",
     60, 1, {{N(97), NONE}}},
};

/* The rows that other tests change: the map of 1 to 2, that of the empty text to 7, and the index map of
 * 1 to 2, 5 to 6 and 1 to 9. */
static const struct row *const one_to_two = &rows[0], *const empty_to_seven = &rows[1];
static const struct row *const three_pairs = &rows[9];

static inline unsigned digit_of(char character) {
    return (unsigned)(strchr("0123456789abcdef", character) - "0123456789abcdef");
}

/* The bytes of a row, in a block of their length, which the caller frees. */
static inline uint8_t *bytes_of(const struct row *row) {
    uint8_t *bytes = (uint8_t *)malloc(row->length);
    size_t length = 0;
    if (bytes == NULL) {
        fail("no memory for a row");
    }
    for (const char *at = row->digits; *at != 0; at++) {
        unsigned long count = 1;
        uint8_t byte;
        if (*at == ' ') {
            continue;
        }
        if (*at == '*') {
            char *end;
            byte = bytes[length - 1];
            count = strtoul(at + 1, &end, 10) - 1;
            at = end - 1;
        } else {
            byte = (uint8_t)(digit_of(at[0]) << 4 | digit_of(at[1]));
            at++;
        }
        for (; count > 0 && length < row->length; count--) {
            bytes[length++] = byte;
        }
    }
    same("the digits of a row", length, row->length);
    return bytes;
}

/* The number of bytes of a type whose values are numbers. */
static inline unsigned size_of(uint8_t type) {
    return type == HK_CHAR ? 4 : type == HK_BOOL ? 1 : type & 15;
}

/* Whether values of the type can be written in place. */
static inline bool is_written(uint8_t type) {
    return type >= 0x10;
}

static inline bool is_index(hk_types types) {
    return types.kind == HK_INDEX_MAP || types.kind == HK_INDEX_SET;
}

/* The greatest number of an integer or a floating-point type. */
static inline hk_value greatest(uint8_t type) {
    return hk_number(UINT64_MAX >> (64 - 8 * size_of(type)));
}

/* Whether two values of a type are the same. Those of other types are 0 and no bytes. */
static inline bool equal(hk_value one, hk_value other) {
    return one.number == other.number && one.length == other.length
        && (one.length == 0 || memcmp(one.bytes, other.bytes, one.length) == 0);
}

static inline void same_value(const char *what, hk_value got, hk_value wanted) {
    same(what, equal(got, wanted) && got.bytes != NULL, 1);
}

/* A key that no collection here has. */
static inline hk_value absent(uint8_t type) {
    return type == HK_TEXT ? hk_str("absent") : hk_number(77);
}

/* The greatest number of items that a collection has here. */
enum { MOST = 40 };

/* A call with a key. */
typedef hk_status key_call(hk_map *map, hk_value key);

static inline hk_status get(hk_map *map, hk_value key) {
    hk_value value = {9, "kept", 4};
    const hk_status status = hk_get(map, key, &value);
    same("kept by get", value.number == 9 && value.length == 4, status != HK_OK);
    return status;
}

static inline hk_status contains(hk_map *map, hk_value key) {
    return hk_contains(map, key);
}

static inline hk_status find(hk_map *map, hk_value key) {
    hk_found found = {99, {9, "kept", 4}};
    const hk_status status = hk_find(map, key, &found);
    same("kept by find", found.index == 99 && found.value.length == 4, status != HK_OK);
    return status;
}

static inline bool is_key(uint8_t type) {
    return type == HK_CHAR || type == HK_TEXT || (type > 0x10 && type < 0x30);
}

static const uint8_t all_types[] = {HK_UNIT, HK_BOOL, HK_CHAR, HK_TEXT, HK_BYTES, HK_U8,  HK_U16, HK_U32,
                                    HK_U64,  HK_I8,   HK_I16,  HK_I32,  HK_I64,   HK_F32, HK_F64};

/* All kinds, widths, types of keys and types of values, also those of no collection. */
enum { TYPES = sizeof all_types, ALL = 4 * 2 * TYPES * TYPES };

static inline hk_types types_at(size_t index) {
    const size_t pair = index / 8;
    return hk_types_of((uint8_t)(HK_MAP + index % 4), all_types[pair % TYPES], all_types[pair / TYPES],
                       (index & 4) != 0 ? HK_WIDE : HK_NARROW);
}

/* Whether there is such a collection. */
static inline bool is_there(hk_types types) {
    const bool of_set = types.kind == HK_SET || types.kind == HK_INDEX_SET;
    return is_key(types.key) && of_set == (types.value == HK_UNIT);
}

/* The bytes of a row with one byte changed, which the caller frees. */
static inline uint8_t *changed_row(const struct row *row, size_t position, uint8_t byte) {
    uint8_t *bytes = bytes_of(row);
    bytes[position] = byte;
    return bytes;
}

/* Prints whether there are differences, and returns the exit status. */
static inline int finished(void) {
    if (faults == 0) {
        printf("all %lu checks as expected\n", checks);
    }
    return faults == 0 ? 0 : 1;
}

#endif
