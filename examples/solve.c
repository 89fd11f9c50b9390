/* Solves FILE, of at most 1 MiB, by libpops.a: cc solve.c -lpops -pthread */
#include <pops.h>
#include <pthread.h>
#include <stdio.h>

static uint8_t input[1 << 20], output[POPS_ROOM];
static size_t length, written;
static uint32_t status;

static void *solve(void *unused) {
    status = pops_report(false, false, input, length, output, sizeof output, &written);
    return unused;
}

int main(int count, char **words) {
    FILE *file = count == 2 ? fopen(words[1], "rb") : NULL;
    pthread_attr_t large;
    pthread_t thread;
    if (file == NULL) return 3;
    length = fread(input, 1, sizeof input, file);
    pthread_attr_init(&large);
    pthread_attr_setstacksize(&large, POPS_STACK);
    if (pthread_create(&thread, &large, solve, NULL) != 0) return 3;
    pthread_join(thread, NULL);
    fwrite(output, 1, written, stdout);
    return (int)status;
}
