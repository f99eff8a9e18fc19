/* Decodes telegrams, one per line of standard input, and reads on after a refused one, which `balisecheck decode` does not.
 *
 *     cc -o telegrams telegrams.c $(pkg-config --cflags --libs balisecheck)
 */
#include "balisecheck.h"

#include <stdio.h>
#include <string.h>

int main(void) {
    static char line[1024];
    static uint8_t text[64 * 1024];
    int status = 0;
    for (unsigned number = 1; fgets(line, sizeof line, stdin); number++) {
        size_t count = strcspn(line, "\r\n"), length;
        struct balisecheck_fault fault;
        uint32_t answer;
        if (count == 0) continue;
        answer = balisecheck_telegram((const uint8_t *)line, count, text, sizeof text, &length, &fault);
        if (answer == BALISECHECK_DONE) {
            fwrite(text, 1, length, stdout);
        } else if (answer == BALISECHECK_REFUSED) {
            printf("line %u: reason %u at %zu end %zu\n", number, (unsigned)fault.reason, fault.at, fault.end);
            status = 2;
        } else {
            fprintf(stderr, "line %u: no answer, status %u\n", number, (unsigned)answer);
            return 3;
        }
    }
    return status;
}
