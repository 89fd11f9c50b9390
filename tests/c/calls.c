/* Makes one call of libpops on standard input in four threads at the same time, checks that all four
 * give the same, writes the text, and ends with the call's status; 99 if anything is wrong here.
 *
 *   calls report|check|no-board
 *   calls tries REFUTATIONS
 *   calls list DEPTH
 *   calls faults
 *   calls part|set-part DEPTH NUMBER
 *   calls too-small
 */
#include <pops.h>
#include <pthread.h>
#include <stdio.h>
#include <stdlib.h>
#include <string.h>

#define THREADS 4
#define WRONG 99
#define MOST_INPUT ((size_t)1 << 25)

static char **words;
static uint8_t input[MOST_INPUT];
static size_t input_length;

typedef struct {
    uint8_t *output;
    size_t written;
    uint32_t status;
} Call;

static size_t number(int at) { return strtoull(words[at], NULL, 10); }

static void *make_call(void *given) {
    Call *call = (Call *)given;
    const char *name = words[1];
    uint8_t *out = call->output;
    size_t *written = &call->written;
    if (strcmp(name, "tries") == 0)
        call->status = pops_tries(false, (uint32_t)number(2), input, input_length, out, POPS_ROOM, written);
    else if (strcmp(name, "list") == 0)
        call->status = pops_list(number(2), input, input_length, out, POPS_ROOM, written);
    else if (strcmp(name, "faults") == 0)
        call->status = pops_faults(input, input_length, out, POPS_ROOM, written);
    else if (strstr(name, "part") != NULL)
        call->status = pops_part(name[0] == 's', number(2), number(3), input, input_length, out, POPS_ROOM, written);
    else {
        size_t room = strcmp(name, "too-small") == 0 ? POPS_ROOM - 1 : POPS_ROOM;
        bool check = strcmp(name, "check") == 0, no_board = strcmp(name, "no-board") == 0;
        call->status = pops_report(check, no_board, input, input_length, out, room, written);
    }
    return NULL;
}

int main(int count, char **given) {
    pthread_t threads[THREADS];
    pthread_attr_t attributes;
    Call calls[THREADS];
    int at;
    if (count < 2) return WRONG;
    words = given;
    input_length = fread(input, 1, MOST_INPUT, stdin);
    if (pthread_attr_init(&attributes) != 0 || pthread_attr_setstacksize(&attributes, POPS_STACK) != 0) return WRONG;
    for (at = 0; at < THREADS; at++) {
        calls[at].output = (uint8_t *)malloc(POPS_ROOM);
        calls[at].written = 1;
        if (calls[at].output == NULL) return WRONG;
        if (pthread_create(&threads[at], &attributes, make_call, &calls[at]) != 0) return WRONG;
    }
    for (at = 0; at < THREADS; at++) {
        if (pthread_join(threads[at], NULL) != 0) return WRONG;
        if (calls[at].status != calls[0].status || calls[at].written != calls[0].written) return WRONG;
        if (memcmp(calls[at].output, calls[0].output, calls[0].written) != 0) return WRONG;
    }
    if (fwrite(calls[0].output, 1, calls[0].written, stdout) != calls[0].written) return WRONG;
    return (int)calls[0].status;
}
