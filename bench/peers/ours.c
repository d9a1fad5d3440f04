/* This repository's scanner, by bogzhami_next with 256 tokens a call. */
#define _POSIX_C_SOURCE 200809L
#include "bogzhami.h"
#include "turns.h"

#define BATCH 256
#define TEXT_ROOM 65536

static struct bogzhami_token tokens[BATCH];
static uint8_t texts[TEXT_ROOM];

static long take_tokens(void) {
    struct bogzhami_handle handle = BOGZHAMI_CLOSED;
    struct bogzhami_answer answer = {0};
    long count = 0;
    uint32_t status = bogzhami_open(&handle, bytes, size, BOGZHAMI_ANY_ENCODING, 1024);
    while (status == BOGZHAMI_DONE) {
        status = bogzhami_next(&handle, bytes, size, tokens, BATCH, texts, TEXT_ROOM, &answer);
        count += (long)answer.token_count;
    }
    bogzhami_close(&handle);
    return status == BOGZHAMI_OVER ? count : 0;
}

int main(int argc, char **argv) {
    const struct way ways[] = {{"tokens", take_tokens}, {NULL, NULL}};
    return take_turns(argc, argv, ways);
}
