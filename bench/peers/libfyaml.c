/* libfyaml: fy_scan, fy_parser_parse and fy_document_build_from_string. */
#define _POSIX_C_SOURCE 200809L
#include "turns.h"

#include <libfyaml.h>

static const struct fy_parse_cfg setting = {.flags = FYPCF_QUIET};

static struct fy_parser *open_parser(void) {
    struct fy_parser *parser = fy_parser_create(&setting);
    if (parser && fy_parser_set_string(parser, (const char *)bytes, size) == 0)
        return parser;
    if (parser)
        fy_parser_destroy(parser);
    return NULL;
}

static long take_tokens(void) {
    struct fy_parser *parser = open_parser();
    struct fy_token *token;
    long count = 0;
    enum fy_token_type type = FYTT_NONE;
    while (parser && (token = fy_scan(parser))) {
        type = fy_token_get_type(token);
        fy_scan_token_free(parser, token);
        count++;
    }
    if (parser)
        fy_parser_destroy(parser);
    return type == FYTT_STREAM_END ? count : 0;
}

static long take_events(void) {
    struct fy_parser *parser = open_parser();
    struct fy_event *event;
    long count = 0;
    enum fy_event_type type = FYET_NONE;
    while (parser && (event = fy_parser_parse(parser))) {
        type = event->type;
        fy_parser_event_free(parser, event);
        count++;
    }
    if (parser)
        fy_parser_destroy(parser);
    return type == FYET_STREAM_END ? count : 0;
}

static long load(void) {
    struct fy_document *document = fy_document_build_from_string(&setting, (const char *)bytes, size);
    long count = document ? fy_node_mapping_item_count(fy_document_root(document)) : 0;
    fy_document_destroy(document);
    return count;
}

int main(int argc, char **argv) {
    const struct way ways[] = {{"tokens", take_tokens}, {"events", take_events}, {"loading", load}, {NULL, NULL}};
    return take_turns(argc, argv, ways);
}
