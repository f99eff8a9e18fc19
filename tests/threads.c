/* Calls each function of the library in several threads at once, on inputs that they share, and compares each answer
 * with the one of a single thread. tests/test_library.py builds it with -fsanitize=thread.   threads FILE.. */
#include "balisecheck.h"

#include <pthread.h>
#include <stdio.h>
#include <stdlib.h>
#include <string.h>

enum { THREADS = 8, TIMES = 20, COMMANDS = 6, CALLS = 8, INPUTS = 64, CAPACITY = 1 << 20 };

struct input {
    uint8_t *bytes;
    size_t size;
};
struct answer {
    uint32_t status;
    size_t length;
    uint8_t *text;
    struct balisecheck_fault fault;
};
static uint32_t (*const commands[COMMANDS])(const uint8_t *, size_t, uint8_t *, size_t, size_t *) = {
    balisecheck_check, balisecheck_decode, balisecheck_decode_radio, balisecheck_encode, balisecheck_encode_radio,
    balisecheck_findings};
static uint32_t (*const lengths[CALLS])(const uint8_t *, size_t, size_t *) = {
    balisecheck_check_length,        balisecheck_decode_length,   balisecheck_decode_radio_length, balisecheck_encode_length,
    balisecheck_encode_radio_length, balisecheck_findings_length, balisecheck_telegram_length,
    balisecheck_message_length};
static struct input inputs[INPUTS];
static int count;
static struct answer expected[INPUTS][CALLS];

static struct answer call(const struct input *input, int number, uint8_t *buffer, size_t capacity) {
    struct answer answer = {0, 0, buffer, {0, 0, 0}};
    if (number < COMMANDS)
        answer.status = commands[number](input->bytes, input->size, buffer, capacity, &answer.length);
    else
        answer.status = (number == COMMANDS ? balisecheck_telegram : balisecheck_message)(
            input->bytes, input->size, buffer, capacity, &answer.length, &answer.fault);
    return answer;
}

static void *work(void *first) {
    uint8_t *buffer = malloc(CAPACITY);
    size_t wrong = 0;
    for (int time = 0; time < TIMES; time++)
        for (int place = 0; place < count * CALLS; place++) {
            int turn = (place + (int)(size_t)first * 3) % (count * CALLS), number = turn % CALLS;
            const struct answer *wanted = &expected[turn / CALLS][number];
            struct answer got = call(&inputs[turn / CALLS], number, buffer, CAPACITY);
            size_t length;
            uint32_t status = lengths[number](inputs[turn / CALLS].bytes, inputs[turn / CALLS].size, &length);
            struct answer small = call(&inputs[turn / CALLS], number, buffer, wanted->length ? wanted->length - 1 : 0);
            wrong += got.status != wanted->status || got.length != wanted->length ||
                     memcmp(buffer, wanted->text, got.length) || got.fault.reason != wanted->fault.reason ||
                     got.fault.at != wanted->fault.at || got.fault.end != wanted->fault.end;
            wrong += status != wanted->status || length != wanted->length;
            wrong += small.status != (wanted->length ? BALISECHECK_CAPACITY : wanted->status);
        }
    free(buffer);
    return (void *)wrong;
}

int main(int argc, char **argv) {
    pthread_t threads[THREADS];
    size_t wrong = 0;
    for (count = 0; count < argc - 1 && count < INPUTS; count++) {
        FILE *file = fopen(argv[count + 1], "rb");
        if (!file) return 3;
        inputs[count].bytes = malloc(CAPACITY);
        inputs[count].size = fread(inputs[count].bytes, 1, CAPACITY, file);
        fclose(file);
        for (int number = 0; number < CALLS; number++)
            expected[count][number] = call(&inputs[count], number, malloc(CAPACITY), CAPACITY);
    }
    for (size_t each = 0; each < THREADS; each++)
        if (pthread_create(&threads[each], NULL, work, (void *)each)) return 3;
    for (int each = 0; each < THREADS; each++) {
        void *found;
        pthread_join(threads[each], &found);
        wrong += (size_t)found;
    }
    printf("%d inputs, %d calls in %d threads: %zu wrong\n", count, 3 * THREADS * TIMES * count * CALLS, THREADS, wrong);
    return wrong != 0;
}
