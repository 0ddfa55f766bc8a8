/* The words of the example programs and of against_rkyv.c: the names of types, and values.
 *
 * A collection is four words: its kind, `map`, `set`, `index-map` or `index-set`; the type of its keys,
 * as `u32` or `text`; the type of its values, `-` in a set; and its width, `narrow`, `wide` or `any`.
 *
 * A text is its bytes, and a byte string has two hexadecimal digits for each byte. A `bool` is 0 or 1,
 * and a character is its number in decimal. The value of an item of a set is an empty word. */
#ifndef HODKHAKI_WORDS_H
#define HODKHAKI_WORDS_H

#include "hodkhaki.h"

#include <errno.h>
#include <stdio.h>
#include <stdlib.h>

/* A code of `hk_types` and its name. */
struct word {
    const char *name;
    uint8_t code;
};

static const struct word kind_words[] = {
    {"map", HK_MAP}, {"set", HK_SET}, {"index-map", HK_INDEX_MAP}, {"index-set", HK_INDEX_SET}};
static const struct word type_words[] = {
    {"-", HK_UNIT}, {"bool", HK_BOOL}, {"char", HK_CHAR}, {"text", HK_TEXT}, {"bytes", HK_BYTES},
    {"u8", HK_U8},  {"u16", HK_U16},   {"u32", HK_U32},   {"u64", HK_U64},   {"i8", HK_I8},
    {"i16", HK_I16}, {"i32", HK_I32},  {"i64", HK_I64},   {"f32", HK_F32},   {"f64", HK_F64}};
static const struct word width_words[] = {{"narrow", HK_NARROW}, {"wide", HK_WIDE}, {"any", HK_ANY_WIDTH}};

/* Stores the code of a name, if the list has it. */
static inline bool read_code(const struct word *words, size_t count, const char *name, uint8_t *code) {
    for (size_t i = 0; i < count; i++) {
        if (strcmp(words[i].name, name) == 0) {
            *code = words[i].code;
            return true;
        }
    }
    return false;
}

#define READ_CODE(words, name, code) read_code(words, sizeof words / sizeof *words, name, code)

/* Stores the types of a collection, which are four words. */
static inline bool read_types(const char *const *words, hk_types *types) {
    return READ_CODE(kind_words, words[0], &types->kind) && READ_CODE(type_words, words[1], &types->key)
        && READ_CODE(type_words, words[2], &types->value) && READ_CODE(width_words, words[3], &types->width);
}

/* Stores an integer of a type in decimal. One that the type does not have is stored as a number that the
 * calls of hodkhaki.h reject. */
static inline bool read_integer(uint8_t type, const char *word, uint64_t *number) {
    const bool is_signed = type >> 4 == 2, is_negative = is_signed && *word == '-';
    const char *digits = word + is_negative;
    char *end;
    errno = 0;
    const uint64_t size = strtoull(digits, &end, 10);
    if (*digits < '0' || *digits > '9' || *end != 0 || errno != 0) {
        return false;
    }
    const unsigned bits = is_signed ? 8 * (type & 15) : 64;
    const uint64_t limit = (uint64_t)1 << (bits - 1), mask = UINT64_MAX >> (64 - bits);
    if (is_signed && size >= limit + is_negative) {
        *number = UINT64_MAX;
        return bits < 64;
    }
    *number = is_negative ? (0 - size) & mask : size;
    return true;
}

/* The value of a hexadecimal digit, or 16 for another character. */
static inline unsigned digit_of(char character) {
    const char *digits = "0123456789abcdef";
    const char *at = character != 0 ? strchr(digits, character) : NULL;
    return at != NULL ? (unsigned)(at - digits) : 16;
}

/* Replaces hexadecimal digits by the bytes that they are, and stores their number. */
static inline bool read_bytes(char *word, size_t *length) {
    size_t i = 0;
    for (; word[2 * i] != 0; i++) {
        const unsigned high = digit_of(word[2 * i]), low = digit_of(word[2 * i + 1]);
        if (high == 16 || low == 16) {
            return false;
        }
        word[i] = (char)(unsigned char)(high << 4 | low);
    }
    *length = i;
    return true;
}

/* Stores the value of a type that a word is. The bytes of a text and of a byte string are in the word,
 * which is changed. */
static inline bool read_value(uint8_t type, char *word, hk_value *value) {
    char *end = word;
    *value = hk_unit();
    switch (type) {
    case HK_UNIT: return *word == 0;
    case HK_TEXT: *value = hk_str(word); return true;
    case HK_BYTES: value->bytes = word; return read_bytes(word, &value->length);
    case HK_F32: *value = hk_f32(strtof(word, &end)); break;
    case HK_F64: *value = hk_f64(strtod(word, &end)); break;
    default: return read_integer(type, word, &value->number);
    }
    return end != word && *end == 0;
}

/* Prints a value as `read_value` reads it. */
static inline void print_value(uint8_t type, hk_value value) {
    switch (type) {
    case HK_UNIT: break;
    case HK_TEXT: fwrite(value.bytes, 1, value.length, stdout); break;
    case HK_BYTES:
        for (size_t i = 0; i < value.length; i++) {
            printf("%02x", ((const uint8_t *)value.bytes)[i]);
        }
        break;
    case HK_I8: printf("%d", hk_as_i8(value)); break;
    case HK_I16: printf("%d", hk_as_i16(value)); break;
    case HK_I32: printf("%ld", (long)hk_as_i32(value)); break;
    case HK_I64: printf("%lld", (long long)hk_as_i64(value)); break;
    case HK_F32: printf("%.9g", (double)hk_as_f32(value)); break;
    case HK_F64: printf("%.17g", hk_as_f64(value)); break;
    default: printf("%llu", (unsigned long long)value.number); break;
    }
}

/* Reads the next line of standard input without its end, as a text in `line`. Returns HK_END if none
 * remains or it cannot be read, and HK_TOO_LONG if there is no room for it. */
static inline hk_status next_line(char *line, size_t room) {
    size_t length = 0;
    int byte = getc(stdin);
    if (byte == EOF) {
        return HK_END;
    }
    while (byte != EOF && byte != '\n') {
        if (length + 1 == room) {
            return HK_TOO_LONG;
        }
        line[length++] = (char)byte;
        byte = getc(stdin);
    }
    line[length] = 0;
    return ferror(stdin) ? HK_END : HK_OK;
}

/* Prints a status, and its message to standard error if it is an error of a file. */
static inline void print_status(const char *path, hk_status status) {
    printf("%s\n", hk_status_name(status));
    if (status != HK_OK) {
        fprintf(stderr, "%s: %s\n", path, hk_status_message(status));
    }
}

/* Whether standard input was read and standard output is written. If not, prints the error. */
static inline bool streams_are_good(void) {
    if (ferror(stdin)) {
        perror("standard input");
        return false;
    }
    if (fflush(stdout) != 0 || ferror(stdout)) {
        perror("standard output");
        return false;
    }
    return true;
}

#endif
