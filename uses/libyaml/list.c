/* list: lists what libyaml makes of inputs, for tests/libyaml.py, which runs it with libyaml's own library and with the
 * one here.
 *
 * Standard input holds questions. Each is a line `KIND ENCODING CHUNK FAIL MOST LEN` and LEN bytes of YAML. KIND is
 * tokens, events or nodes; ENCODING a number of yaml_encoding_t; CHUNK how many bytes the read handler gives at most in
 * a call, or 0 if the bytes are given by yaml_parser_set_input_string, or -1 if they are by yaml_parser_set_input_file;
 * FAIL the number of the call of the read handler that fails, or 0; MOST how many tokens, events or documents are taken
 * at most, after which the parser is given up. What is listed for a question ends with a line that is empty. The exit
 * status is 2 for a wrong question. */
#include <stdio.h>
#include <stdlib.h>
#include <string.h>
#include <yaml.h>

struct source {
    const unsigned char *bytes;
    size_t len, calls, fail;
    long chunk;
    FILE *file;
};

static int read_source(void *data, unsigned char *buffer, size_t size, size_t *count) {
    struct source *source = data;
    if (++source->calls == source->fail)
        return 0;
    *count = size < (size_t)source->chunk ? size : (size_t)source->chunk;
    if (*count > source->len)
        *count = source->len;
    memcpy(buffer, source->bytes, *count);
    source->bytes += *count;
    source->len -= *count;
    return 1;
}

static void list_mark(yaml_mark_t mark) { printf(" %zu:%zu:%zu", mark.index, mark.line, mark.column); }

static void list_bytes(const yaml_char_t *text, size_t len) {
    printf(text ? " =" : " -");
    for (size_t i = 0; i < len; i++)
        printf("%02x", text[i]);
}

static void list_text(const yaml_char_t *text) { list_bytes(text, text ? strlen((const char *)text) : 0); }

static void list_error(const yaml_parser_t *parser) {
    printf("ERROR %d", parser->error);
    list_mark(parser->context_mark);
    list_mark(parser->problem_mark);
    printf(" %zu %d %s; %s\n", parser->problem_offset, parser->problem_value, parser->context ? parser->context : "-",
           parser->problem ? parser->problem : "-");
}

static void list_token(const yaml_token_t *token) {
    printf("%d", token->type);
    list_mark(token->start_mark);
    list_mark(token->end_mark);
    switch (token->type) {
    case YAML_STREAM_START_TOKEN:
        printf(" %d", token->data.stream_start.encoding);
        break;
    case YAML_VERSION_DIRECTIVE_TOKEN:
        printf(" %d %d", token->data.version_directive.major, token->data.version_directive.minor);
        break;
    case YAML_TAG_DIRECTIVE_TOKEN:
        list_text(token->data.tag_directive.handle);
        list_text(token->data.tag_directive.prefix);
        break;
    case YAML_ALIAS_TOKEN:
        list_text(token->data.alias.value);
        break;
    case YAML_ANCHOR_TOKEN:
        list_text(token->data.anchor.value);
        break;
    case YAML_TAG_TOKEN:
        list_text(token->data.tag.handle);
        list_text(token->data.tag.suffix);
        break;
    case YAML_SCALAR_TOKEN:
        printf(" %d", token->data.scalar.style);
        list_bytes(token->data.scalar.value, token->data.scalar.length);
        break;
    default:
        break;
    }
    printf("\n");
}

enum end { FAILED, ENDED, GIVEN_UP };

static enum end list_tokens(yaml_parser_t *parser, size_t most) {
    yaml_token_t token;
    int type;
    do {
        if (most-- == 0)
            return GIVEN_UP;
        if (!yaml_parser_scan(parser, &token))
            return FAILED;
        type = token.type;
        list_token(&token);
        yaml_token_delete(&token);
    } while (type != YAML_STREAM_END_TOKEN);
    return ENDED;
}

static void list_document_start(const yaml_event_t *event) {
    const yaml_version_directive_t *version = event->data.document_start.version_directive;
    printf(" %d", event->data.document_start.implicit);
    if (version)
        printf(" %d.%d", version->major, version->minor);
    const yaml_tag_directive_t *tag = event->data.document_start.tag_directives.start;
    for (; tag != event->data.document_start.tag_directives.end; tag++) {
        list_text(tag->handle);
        list_text(tag->prefix);
    }
}

static void list_data(const yaml_event_t *event) {
    switch (event->type) {
    case YAML_STREAM_START_EVENT:
        printf(" %d", event->data.stream_start.encoding);
        break;
    case YAML_DOCUMENT_START_EVENT:
        list_document_start(event);
        break;
    case YAML_DOCUMENT_END_EVENT:
        printf(" %d", event->data.document_end.implicit);
        break;
    case YAML_ALIAS_EVENT:
        list_text(event->data.alias.anchor);
        break;
    case YAML_SCALAR_EVENT:
        list_text(event->data.scalar.anchor);
        list_text(event->data.scalar.tag);
        list_bytes(event->data.scalar.value, event->data.scalar.length);
        printf(" %d %d", event->data.scalar.plain_implicit, event->data.scalar.quoted_implicit);
        printf(" %d", event->data.scalar.style);
        break;
    case YAML_SEQUENCE_START_EVENT:
        list_text(event->data.sequence_start.anchor);
        list_text(event->data.sequence_start.tag);
        printf(" %d %d", event->data.sequence_start.implicit, event->data.sequence_start.style);
        break;
    case YAML_MAPPING_START_EVENT:
        list_text(event->data.mapping_start.anchor);
        list_text(event->data.mapping_start.tag);
        printf(" %d %d", event->data.mapping_start.implicit, event->data.mapping_start.style);
        break;
    default:
        break;
    }
}

static enum end list_events(yaml_parser_t *parser, size_t most) {
    yaml_event_t event;
    int type;
    do {
        if (most-- == 0)
            return GIVEN_UP;
        if (!yaml_parser_parse(parser, &event))
            return FAILED;
        type = event.type;
        printf("%d", type);
        list_mark(event.start_mark);
        list_mark(event.end_mark);
        list_data(&event);
        printf("\n");
        yaml_event_delete(&event);
    } while (type != YAML_STREAM_END_EVENT);
    return ENDED;
}

static void list_pairs(const yaml_node_t *node) {
    for (yaml_node_pair_t *pair = node->data.mapping.pairs.start; pair < node->data.mapping.pairs.top; pair++)
        printf(" %d %d", pair->key, pair->value);
}

static void list_items(const yaml_node_t *node) {
    for (yaml_node_item_t *item = node->data.sequence.items.start; item < node->data.sequence.items.top; item++)
        printf(" %d", *item);
}

static void list_node(const yaml_node_t *node) {
    printf("%d", node->type);
    list_mark(node->start_mark);
    list_mark(node->end_mark);
    list_text(node->tag);
    if (node->type == YAML_SCALAR_NODE)
        list_bytes(node->data.scalar.value, node->data.scalar.length);
    if (node->type == YAML_SEQUENCE_NODE)
        list_items(node);
    if (node->type == YAML_MAPPING_NODE)
        list_pairs(node);
    printf("\n");
}

static void list_document(yaml_document_t *document) {
    for (int number = 1; yaml_document_get_node(document, number); number++)
        list_node(yaml_document_get_node(document, number));
    printf("DOCUMENT");
    list_mark(document->start_mark);
    list_mark(document->end_mark);
    printf("\n");
}

static enum end list_nodes(yaml_parser_t *parser, size_t most) {
    yaml_document_t document;
    int is_last;
    do {
        if (most-- == 0)
            return GIVEN_UP;
        if (!yaml_parser_load(parser, &document))
            return FAILED;
        is_last = yaml_document_get_root_node(&document) == NULL;
        list_document(&document);
        yaml_document_delete(&document);
    } while (!is_last);
    return ENDED;
}

static enum end list_kind(const char *kind, yaml_parser_t *parser, size_t most) {
    if (!strcmp(kind, "tokens"))
        return list_tokens(parser, most);
    return strcmp(kind, "events") ? list_nodes(parser, most) : list_events(parser, most);
}

/* Makes a temporary file that holds the bytes. */
static int make_file(struct source *source) {
    source->file = tmpfile();
    if (!source->file || fwrite(source->bytes, 1, source->len, source->file) != source->len)
        return 0;
    rewind(source->file);
    return 1;
}

static int set_input(yaml_parser_t *parser, struct source *source) {
    if (source->chunk > 0)
        yaml_parser_set_input(parser, read_source, source);
    else if (source->chunk == 0)
        yaml_parser_set_input_string(parser, source->bytes, source->len);
    else if (make_file(source))
        yaml_parser_set_input_file(parser, source->file);
    else
        return 0;
    return 1;
}

static int list(const char *kind, int encoding, struct source source, size_t most) {
    yaml_parser_t parser;
    source.file = NULL;
    if (!yaml_parser_initialize(&parser) || !set_input(&parser, &source))
        return 0;
    if (encoding)
        yaml_parser_set_encoding(&parser, (yaml_encoding_t)encoding);
    enum end end = list_kind(kind, &parser, most);
    if (end == FAILED)
        list_error(&parser);
    printf(end == GIVEN_UP ? "GIVEN UP\n\n" : "\n");
    yaml_parser_delete(&parser);
    if (source.file)
        fclose(source.file);
    return 1;
}

/* Reads the first line of a question. */
static int read_words(char *kind, int *encoding, struct source *source, size_t *most) {
    size_t *fail = &source->fail, *len = &source->len;
    int count = scanf("%7s %d %ld %zu %zu %zu", kind, encoding, &source->chunk, fail, most, len);
    return count == 6 && getchar() == '\n';
}

int main(void) {
    char kind[8];
    int encoding;
    size_t most;
    struct source source;
    while (read_words(kind, &encoding, &source, &most)) {
        unsigned char *bytes = malloc(source.len + 1);
        source.bytes = bytes;
        source.calls = 0;
        int is_listed = bytes && fread(bytes, 1, source.len, stdin) == source.len && list(kind, encoding, source, most);
        free(bytes);
        if (!is_listed)
            return 2;
    }
    return feof(stdin) ? 0 : 2;
}
