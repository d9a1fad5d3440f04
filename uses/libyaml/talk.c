/* talk: lists the events of a pipe, each as soon as libyaml gives it, for tests/libyaml.py, which runs it with libyaml's
 * own library and with the one here.
 *
 * The read handler gives what one read of standard input gives, so it waits only if nothing has come. The line of an
 * event is the number of its type, and for a scalar a space and its value. The line of an error is `ERROR` and its
 * words. The exit status is 0; 1 after an error; 2 if there is no memory. */
#include <stdio.h>
#include <unistd.h>
#include <yaml.h>

static int read_pipe(void *data, unsigned char *buffer, size_t size, size_t *count) {
    (void)data;
    ssize_t found = read(STDIN_FILENO, buffer, size);
    *count = found > 0 ? (size_t)found : 0;
    return found >= 0;
}

/* Lists an event, and returns its type. */
static int list_event(yaml_event_t *event) {
    int type = event->type;
    printf("%d", type);
    if (type == YAML_SCALAR_EVENT)
        printf(" %s", (const char *)event->data.scalar.value);
    printf("\n");
    fflush(stdout);
    yaml_event_delete(event);
    return type;
}

int main(void) {
    yaml_parser_t parser;
    yaml_event_t event;
    int type = YAML_NO_EVENT;
    if (!yaml_parser_initialize(&parser))
        return 2;
    yaml_parser_set_input(&parser, read_pipe, NULL);
    while (type != YAML_STREAM_END_EVENT && yaml_parser_parse(&parser, &event))
        type = list_event(&event);
    if (parser.error)
        printf("ERROR %s\n", parser.problem);
    int status = parser.error ? 1 : 0;
    yaml_parser_delete(&parser);
    return status;
}
