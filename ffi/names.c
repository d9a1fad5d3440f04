/* The names of bogzhami.h, which are not proved: ffi/build compiles them into both libraries. */
#include "bogzhami.h"

static const char *const tokens[] = {"NO-TOKEN", "STREAM-START", "STREAM-END", "VERSION-DIRECTIVE", "TAG-DIRECTIVE",
                                     "DOCUMENT-START", "DOCUMENT-END", "BLOCK-SEQUENCE-START", "BLOCK-MAPPING-START",
                                     "BLOCK-END", "FLOW-SEQUENCE-START", "FLOW-SEQUENCE-END", "FLOW-MAPPING-START",
                                     "FLOW-MAPPING-END", "BLOCK-ENTRY", "FLOW-ENTRY", "KEY", "VALUE", "ALIAS", "ANCHOR",
                                     "TAG", "SCALAR"};
static const char *const styles[] = {"any", "plain", "single", "double", "literal", "folded"};
static const char *const encodings[] = {"ANY", "UTF8", "UTF16LE", "UTF16BE"};
static const char *const errors[] = {"none", "memory", "reader", "scanner", "parser", "composer", "writer", "emitter"};
static const char *const statuses[] = {"done", "the input has a fault", "no such encoding, key limit or window",
                                       "out of memory", "all tokens were given",
                                       "a text is longer than the room for texts", "the handle holds no scanner",
                                       "more of the input has to come", "all of an input in UTF-16 has to come"};

/* The text of a number in a table, or "unknown" if the table ends before. */
static const char *text_of(const char *const *table, size_t count, uint32_t number) {
    return number < count ? table[number] : "unknown";
}

#define TEXT_OF(table, number) text_of(table, sizeof(table) / sizeof(table)[0], number)

const char *bogzhami_token_name(uint32_t token_type) {
    return TEXT_OF(tokens, token_type);
}

const char *bogzhami_style_name(uint32_t style) {
    return TEXT_OF(styles, style);
}

const char *bogzhami_encoding_name(uint32_t encoding) {
    return TEXT_OF(encodings, encoding);
}

const char *bogzhami_error_name(uint32_t error) {
    return TEXT_OF(errors, error);
}

const char *bogzhami_status_text(uint32_t status) {
    return TEXT_OF(statuses, status);
}
