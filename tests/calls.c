/* Answers calls of the library for C, on Linux or Windows, as tests/targets.py asks for them. Standard input has for each
 * call a line with its name, how many bytes of input follow, and which request for memory is refused with all later ones,
 * if any (1 is the first). Standard output gets a line for each: the status, the length of the text that follows, the three
 * numbers of the fault, and how many requests there were. */
#include <balisecheck.h>

#include <inttypes.h>
#include <stdio.h>
#include <stdlib.h>
#include <string.h>

static uint64_t requests, first_refused;
static int runs;

static int is_refused(void) { return runs && ++requests >= first_refused && first_refused; }

#ifdef _WIN32
#include <fcntl.h>
#include <io.h>
#include <windows.h>

static void *tried_malloc(size_t size) { return is_refused() ? NULL : malloc(size); }
static void *tried_realloc(void *old, size_t size) { return is_refused() ? NULL : realloc(old, size); }

/* In what the DLL imports its memory is replaced by the one above. */
static void take_memory(void) {
    char *base = (char *)GetModuleHandleA("balisecheck.dll");
    IMAGE_NT_HEADERS *head = (IMAGE_NT_HEADERS *)(base + ((IMAGE_DOS_HEADER *)base)->e_lfanew);
    IMAGE_DATA_DIRECTORY imports = head->OptionalHeader.DataDirectory[IMAGE_DIRECTORY_ENTRY_IMPORT];
    IMAGE_IMPORT_DESCRIPTOR *dll = (IMAGE_IMPORT_DESCRIPTOR *)(base + imports.VirtualAddress);
    for (; dll->Name; dll++) {
        IMAGE_THUNK_DATA *name = (IMAGE_THUNK_DATA *)(base + dll->OriginalFirstThunk);
        void **call = (void **)(base + dll->FirstThunk);
        for (; name->u1.AddressOfData; name++, call++) {
            const char *text = (const char *)((IMAGE_IMPORT_BY_NAME *)(base + name->u1.AddressOfData))->Name;
            void *other = !strcmp(text, "malloc") ? (void *)tried_malloc : !strcmp(text, "realloc") ? (void *)tried_realloc : NULL;
            DWORD before;
            if (!other || !VirtualProtect(call, sizeof *call, PAGE_READWRITE, &before)) continue;
            *call = other;
        }
    }
}

static void prepare(void) {
    _setmode(0, _O_BINARY);
    _setmode(1, _O_BINARY);
    take_memory();
}
#else
/* Linked with --wrap, these are the memory of the archive. */
void *__real_malloc(size_t), *__real_realloc(void *, size_t), *__wrap_malloc(size_t), *__wrap_realloc(void *, size_t);
void *__wrap_malloc(size_t size) { return is_refused() ? NULL : __real_malloc(size); }
void *__wrap_realloc(void *old, size_t size) { return is_refused() ? NULL : __real_realloc(old, size); }

static void prepare(void) {}
#endif

typedef uint32_t command(const uint8_t *, size_t, uint8_t *, size_t, size_t *);
typedef uint32_t record(const uint8_t *, size_t, uint8_t *, size_t, size_t *, struct balisecheck_fault *);

static const struct { const char *name; command *command; record *record; } calls[] = {
    {"check", balisecheck_check, NULL}, {"findings", balisecheck_findings, NULL},
    {"check_table", balisecheck_check_table, NULL},
    {"decode", balisecheck_decode, NULL}, {"decode_radio", balisecheck_decode_radio, NULL},
    {"encode", balisecheck_encode, NULL}, {"encode_radio", balisecheck_encode_radio, NULL},
    {"telegram", NULL, balisecheck_telegram}, {"message", NULL, balisecheck_message}};

static void *taken(size_t size) {
    void *block = malloc(size);
    if (!block) exit(98);
    return block;
}

/* Answers a call, and again with a larger buffer if its text needs one. */
static void answer(const char *name, const uint8_t *input, size_t length) {
    size_t call = 0, capacity = 2 * length + 4096, written = 0;
    uint32_t status = BALISECHECK_CAPACITY;
    uint8_t *buffer = NULL;
    struct balisecheck_fault fault = {0, 0, 0};
    while (strcmp(calls[call].name, name)) if (++call == sizeof calls / sizeof *calls) exit(97);
    while (status == BALISECHECK_CAPACITY) {
        free(buffer);
        buffer = taken(capacity);
        requests = 0;
        runs = 1;
        status = calls[call].command ? calls[call].command(input, length, buffer, capacity, &written)
                                     : calls[call].record(input, length, buffer, capacity, &written, &fault);
        runs = 0;
        capacity = written;
    }
    printf("%" PRIu32 " %zu %" PRIu32 " %zu %zu %" PRIu64 "\n", status, written, fault.reason, fault.at, fault.end, requests);
    fwrite(buffer, 1, written, stdout);
    free(buffer);
}

int main(void) {
    char name[32];
    size_t length;
    prepare();
    while (scanf("%31s %zu %" SCNu64, name, &length, &first_refused) == 3) {
        uint8_t *input = taken(length + 1);
        if (getchar() != '\n' || fread(input, 1, length, stdin) != length) return 96;
        answer(name, input, length);
        free(input);
    }
    return 0;
}
