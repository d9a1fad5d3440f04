/* libyaml: yaml_parser_scan, yaml_parser_parse and yaml_parser_load. */
#define _POSIX_C_SOURCE 200809L
#include "turns.h"

#include <yaml.h>

static long take_tokens(void) {
    yaml_parser_t parser;
    yaml_token_t token;
    long count = 0;
    int type = YAML_NO_TOKEN;
    if (!yaml_parser_initialize(&parser))
        return 0;
    yaml_parser_set_input_string(&parser, bytes, size);
    while (type != YAML_STREAM_END_TOKEN && yaml_parser_scan(&parser, &token)) {
        type = token.type;
        yaml_token_delete(&token);
        count++;
    }
    yaml_parser_delete(&parser);
    return type == YAML_STREAM_END_TOKEN ? count : 0;
}

static long take_events(void) {
    yaml_parser_t parser;
    yaml_event_t event;
    long count = 0;
    int type = YAML_NO_EVENT;
    if (!yaml_parser_initialize(&parser))
        return 0;
    yaml_parser_set_input_string(&parser, bytes, size);
    while (type != YAML_STREAM_END_EVENT && yaml_parser_parse(&parser, &event)) {
        type = event.type;
        yaml_event_delete(&event);
        count++;
    }
    yaml_parser_delete(&parser);
    return type == YAML_STREAM_END_EVENT ? count : 0;
}

static long load(void) {
    yaml_parser_t parser;
    yaml_document_t document;
    long count = 0;
    if (!yaml_parser_initialize(&parser))
        return 0;
    yaml_parser_set_input_string(&parser, bytes, size);
    if (yaml_parser_load(&parser, &document)) {
        yaml_node_t *root = yaml_document_get_root_node(&document);
        count = root && root->type == YAML_MAPPING_NODE ? root->data.mapping.pairs.top - root->data.mapping.pairs.start : 0;
        yaml_document_delete(&document);
    }
    yaml_parser_delete(&parser);
    return count;
}

int main(int argc, char **argv) {
    const struct way ways[] = {{"tokens", take_tokens}, {"events", take_events}, {"loading", load}, {NULL, NULL}};
    return take_turns(argc, argv, ways);
}
