/* What compiled programs rely on: the calls with their types, the numbers, and the layout of struct balisecheck_fault.
 * docs/formats.md promises that it stays as long as the library is libbalisecheck.so.0, so lines are only added here.
 * tests/test_library.py compiles this file, and compares its names with the header and with what the library exports. */
#include "balisecheck.h"

typedef const char *version(void);
typedef uint32_t command(const uint8_t *input, size_t input_length, uint8_t *buffer, size_t capacity, size_t *length);
typedef uint32_t record(const uint8_t *input, size_t input_length, uint8_t *buffer, size_t capacity, size_t *length,
                        struct balisecheck_fault *fault);
typedef uint32_t length(const uint8_t *input, size_t input_length, size_t *length);

version *const versions[] = {balisecheck_version};
command *const commands[] = {
    balisecheck_check,  balisecheck_decode,       balisecheck_decode_radio,
    balisecheck_encode, balisecheck_encode_radio, balisecheck_findings,
    balisecheck_check_table,
};
record *const records[] = {balisecheck_telegram, balisecheck_message};
length *const lengths[] = {
    balisecheck_check_length,  balisecheck_decode_length,       balisecheck_decode_radio_length,
    balisecheck_encode_length, balisecheck_encode_radio_length, balisecheck_telegram_length,
    balisecheck_message_length, balisecheck_findings_length,    balisecheck_check_table_length,
};

#define IS(constant, number) _Static_assert((constant) == (number), #constant)
IS(BALISECHECK_DONE, 0);
IS(BALISECHECK_FINDINGS, 1);
IS(BALISECHECK_REFUSED, 2);
IS(BALISECHECK_MEMORY, 3);
IS(BALISECHECK_CAPACITY, 4);

IS(BALISECHECK_NO_FAULT, 0);
IS(BALISECHECK_NOT_HEXADECIMAL, 1);
IS(BALISECHECK_WRONG_SIZE, 2);
IS(BALISECHECK_PAD_BITS, 3);
IS(BALISECHECK_SHORT, 10);
IS(BALISECHECK_SPARE, 11);
IS(BALISECHECK_LENGTH, 12);
IS(BALISECHECK_NO_END, 13);
IS(BALISECHECK_VERSION, 14);
IS(BALISECHECK_LOOP, 15);
IS(BALISECHECK_DOWNLINK, 16);
IS(BALISECHECK_MESSAGE_KIND, 17);
IS(BALISECHECK_NO_AUTHORITY, 18);
IS(BALISECHECK_NO_REPORT, 19);

IS(offsetof(struct balisecheck_fault, reason), 0);
IS(offsetof(struct balisecheck_fault, at), 8);
IS(offsetof(struct balisecheck_fault, end), 16);
IS(sizeof(struct balisecheck_fault), 24);
IS(_Alignof(struct balisecheck_fault), 8);
IS(sizeof(((struct balisecheck_fault *)0)->reason), 4);
IS(sizeof(((struct balisecheck_fault *)0)->at), 8);
IS(sizeof(((struct balisecheck_fault *)0)->end), 8);
