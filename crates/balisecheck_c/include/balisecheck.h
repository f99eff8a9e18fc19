/* balisecheck.h: the commands of `balisecheck`, and the reading of single records, for C and C++.
 *
 * Each function reads the bytes at `input` and puts a text into `buffer`, without a NUL. `*length` is the length of
 * the text. The status that is returned is the one of the program, and 4 if the buffer is too small:
 *
 *   BALISECHECK_DONE      everything was done; for `check` and `findings`, the answer is yes
 *   BALISECHECK_FINDINGS  `check` or `findings` has findings
 *   BALISECHECK_REFUSED   the input was refused
 *   BALISECHECK_MEMORY    memory ran out: *length is 0
 *   BALISECHECK_CAPACITY  the text has more than `capacity` bytes: *length is how many it has
 *
 * After a status of 3 or 4 the buffer is unchanged. Otherwise only the bytes of the text were written.
 *
 * Each function has another one whose name ends in `_length`. It has no buffer, and returns the status and the length
 * that its function returns with a buffer that is large enough. It returns 3 only if memory ran out, and never 4.
 *
 * What the caller must ensure, because nothing checks it:
 *   - No pointer is null, even if a length is 0. `input` points to `input_length` bytes, `buffer` to `capacity` bytes.
 *   - What the pointers point to does not overlap. During a call no other thread writes the input, and none reads or
 *     writes the buffer, the length or the fault.
 *   - malloc, realloc and free are of one allocator, which aligns as C requires.
 *   - The thread has 512 kB of stack left. `check` used 384 kB at most, `findings` does the same work, and the other functions
 *     used 96 kB.
 *   - No call is made in a signal handler, or in the forked child of a process with threads.
 *
 * Calls keep nothing, so threads may call at the same time with buffers of their own. A call starts no thread, opens
 * no file, and frees all memory that it allocated. */
#ifndef BALISECHECK_H
#define BALISECHECK_H

#include <stddef.h>
#include <stdint.h>

#ifdef __cplusplus
extern "C" {
#endif

enum balisecheck_status {
    BALISECHECK_DONE = 0,
    BALISECHECK_FINDINGS = 1,
    BALISECHECK_REFUSED = 2,
    BALISECHECK_MEMORY = 3,
    BALISECHECK_CAPACITY = 4
};

/* The version of the library, such as "0.6.0", as a string that stays in place. Whoever finds the library by itself can
 * compare it with the version of the program. */
const char *balisecheck_version(void);

/* The commands. Text and status are those of the program for the same input. If it is refused, the last line of the
 * text begins with "refused:". */
uint32_t balisecheck_check(const uint8_t *input, size_t input_length, uint8_t *buffer, size_t capacity,
                           size_t *length);
uint32_t balisecheck_decode(const uint8_t *input, size_t input_length, uint8_t *buffer, size_t capacity,
                            size_t *length);
uint32_t balisecheck_decode_radio(const uint8_t *input, size_t input_length, uint8_t *buffer, size_t capacity,
                                  size_t *length);
uint32_t balisecheck_encode(const uint8_t *input, size_t input_length, uint8_t *buffer, size_t capacity,
                            size_t *length);
uint32_t balisecheck_encode_radio(const uint8_t *input, size_t input_length, uint8_t *buffer, size_t capacity,
                                  size_t *length);

/* The answer of `check` to the document of a railway line, as one JSON object with its \n: the verdict with the counts and
 * the findings of the report in its order, or the reason and the place of the refusal. The status is that of `check`. */
uint32_t balisecheck_findings(const uint8_t *input, size_t input_length, uint8_t *buffer, size_t capacity,
                              size_t *length);

/* The answer of `balisecheck_table` to the bytes of a CSV table, with its text and its status: the findings about the line of
 * the table, with their rows, or why the table is refused. */
uint32_t balisecheck_check_table(const uint8_t *input, size_t input_length, uint8_t *buffer, size_t capacity,
                                 size_t *length);

/* The lengths of their texts. */
uint32_t balisecheck_check_length(const uint8_t *input, size_t input_length, size_t *length);
uint32_t balisecheck_decode_length(const uint8_t *input, size_t input_length, size_t *length);
uint32_t balisecheck_decode_radio_length(const uint8_t *input, size_t input_length, size_t *length);
uint32_t balisecheck_encode_length(const uint8_t *input, size_t input_length, size_t *length);
uint32_t balisecheck_encode_radio_length(const uint8_t *input, size_t input_length, size_t *length);
uint32_t balisecheck_findings_length(const uint8_t *input, size_t input_length, size_t *length);
uint32_t balisecheck_check_table_length(const uint8_t *input, size_t input_length, size_t *length);

/* Why a record was refused. The program prints the words in the comments. */
enum balisecheck_reason {
    BALISECHECK_NO_FAULT = 0,
    BALISECHECK_NOT_HEXADECIMAL = 1, /* not hexadecimal */
    BALISECHECK_WRONG_SIZE = 2,      /* wrong size */
    BALISECHECK_PAD_BITS = 3,        /* pad bits set */
    BALISECHECK_SHORT = 10,          /* short */
    BALISECHECK_SPARE = 11,          /* spare */
    BALISECHECK_LENGTH = 12,         /* length */
    BALISECHECK_NO_END = 13,         /* no end */
    BALISECHECK_VERSION = 14,        /* version */
    BALISECHECK_LOOP = 15,           /* loop */
    BALISECHECK_DOWNLINK = 16,       /* down-link */
    BALISECHECK_MESSAGE_KIND = 17,   /* message kind */
    BALISECHECK_NO_AUTHORITY = 18,   /* no authority */
    BALISECHECK_NO_REPORT = 19       /* no report */
};

/* The first fault of a record. From BALISECHECK_SHORT on, `at` is the first bit of the field with the fault, and
 * `end` is how many bits, from the first bit of the record, decide it. Otherwise both are 0. */
struct balisecheck_fault {
    uint32_t reason;
    size_t at;
    size_t end;
};

/* One record: the hexadecimal digits of a telegram, or of a radio message, without the end of a line. The text is its
 * JSON line, with its \n. If the record is refused, the text is empty, and *fault is the first fault; the reason is
 * BALISECHECK_NO_FAULT after any other status. Only reading packets and writing the text allocate, so a fault before
 * the first packet is reported even if memory runs out. */
uint32_t balisecheck_telegram(const uint8_t *input, size_t input_length, uint8_t *buffer, size_t capacity,
                              size_t *length, struct balisecheck_fault *fault);
uint32_t balisecheck_message(const uint8_t *input, size_t input_length, uint8_t *buffer, size_t capacity,
                             size_t *length, struct balisecheck_fault *fault);

/* The lengths of their lines: 0 for a record that is refused. */
uint32_t balisecheck_telegram_length(const uint8_t *input, size_t input_length, size_t *length);
uint32_t balisecheck_message_length(const uint8_t *input, size_t input_length, size_t *length);

#ifdef __cplusplus
}

#include <string>

/* The same calls in C++11. A null pointer with length 0 is an empty input. Nothing else is checked. The buffer grows
 * as the text requires, and a call throws only what std::string throws. */
namespace balisecheck {

struct answer {
    uint32_t status;
    std::string text;
    balisecheck_fault fault; /* of telegram and message */
};

namespace detail {

template <typename Call>
answer call(Call function, const void *input, size_t input_length) {
    answer a = {BALISECHECK_CAPACITY, std::string(4 * input_length + 1024, '\0'), {0, 0, 0}};
    const void *data = input_length == 0 && input == nullptr ? "" : input;
    for (;;) {
        size_t length = 0;
        a.status = function(static_cast<const uint8_t *>(data), input_length, reinterpret_cast<uint8_t *>(&a.text[0]),
                            a.text.size(), &length, &a.fault);
        a.text.resize(length);
        if (a.status != BALISECHECK_CAPACITY) return a;
    }
}

template <uint32_t (*Command)(const uint8_t *, size_t, uint8_t *, size_t, size_t *)>
uint32_t command(const uint8_t *input, size_t input_length, uint8_t *buffer, size_t capacity, size_t *length,
                 balisecheck_fault *) {
    return Command(input, input_length, buffer, capacity, length);
}

} // namespace detail

inline answer check(const void *input, size_t input_length) {
    return detail::call(detail::command<balisecheck_check>, input, input_length);
}
inline answer decode(const void *input, size_t input_length) {
    return detail::call(detail::command<balisecheck_decode>, input, input_length);
}
inline answer decode_radio(const void *input, size_t input_length) {
    return detail::call(detail::command<balisecheck_decode_radio>, input, input_length);
}
inline answer encode(const void *input, size_t input_length) {
    return detail::call(detail::command<balisecheck_encode>, input, input_length);
}
inline answer encode_radio(const void *input, size_t input_length) {
    return detail::call(detail::command<balisecheck_encode_radio>, input, input_length);
}
inline answer findings(const void *input, size_t input_length) {
    return detail::call(detail::command<balisecheck_findings>, input, input_length);
}
inline answer check_table(const void *input, size_t input_length) {
    return detail::call(detail::command<balisecheck_check_table>, input, input_length);
}
inline answer telegram(const void *input, size_t input_length) {
    return detail::call(balisecheck_telegram, input, input_length);
}
inline answer message(const void *input, size_t input_length) {
    return detail::call(balisecheck_message, input, input_length);
}

} // namespace balisecheck
#endif

#endif
