/* What the program calls of the C library and of the kit's C, on Windows: standard input and output as bytes, the words of
 * the command line in UTF-8, the last error, and the features of the processor. `start` is where the program begins. */
typedef __SIZE_TYPE__ size;
typedef __PTRDIFF_TYPE__ length;
typedef __INT64_TYPE__ offset;
typedef __WCHAR_TYPE__ wide;
#define SYSTEM __declspec(dllimport)

SYSTEM void ExitProcess(unsigned);
SYSTEM int GetConsoleMode(void *, unsigned *);
SYSTEM unsigned GetFileType(void *);
SYSTEM unsigned GetLastError(void);
SYSTEM void *GetStdHandle(unsigned);
SYSTEM int ReadFile(void *, void *, unsigned, unsigned *, void *);
SYSTEM int SetFilePointerEx(void *, offset, offset *, unsigned);
SYSTEM int WideCharToMultiByte(unsigned, unsigned, const wide *, int, char *, int, const char *, int *);
SYSTEM int WriteFile(void *, const void *, unsigned, unsigned *, void *);
SYSTEM int __wgetmainargs(int *, wide ***, wide ***, int, int *);
SYSTEM void *malloc(size);

enum { IS_DISK = 1, END_OF_FILE = 38, BROKEN_PIPE = 109, EIO = 5, CTRL_Z = 26, UTF8 = 65001 };
static const size MOST = 1 << 30; /* bytes that a call moves */
static const unsigned OUT_OF_MEMORY = 3;

extern int run_program(int, char **);
int rattle_errno(void);
void rattle_set_errno(int);
length read(int, void *, size), write(int, const void *, size), __write(int, const void *, size);
offset lseek(int, offset, int), __sysv_signal(int, offset);
void start(void), __main(void);

/* Standard input is 0, standard output 1, standard error 2. */
static void *handle_of(int file) { return GetStdHandle(-10U - (unsigned)file); }

static int last_error; /* (the program has one thread) */
int rattle_errno(void) { return last_error; }
void rattle_set_errno(int error) { last_error = error; }

static length failed(void) {
    last_error = EIO;
    return -1;
}

/* LLVM calls it at the beginning of `main`, for constructors of C++. */
void __main(void) {}

/* There is no signal for a pipe that nobody reads. */
offset __sysv_signal(int signal, offset action) {
    (void)signal;
    (void)action;
    return 0;
}

/* 0 at the end: of a file, if nobody writes to a pipe, or if a person begins a line of a console with Ctrl-Z. */
length read(int file, void *buffer, size capacity) {
    unsigned got = 0, mode;
    void *handle = handle_of(file);
    if (!ReadFile(handle, buffer, (unsigned)(capacity < MOST ? capacity : MOST), &got, 0)) {
        unsigned error = GetLastError();
        return error == END_OF_FILE || error == BROKEN_PIPE ? 0 : failed();
    }
    return got && *(char *)buffer == CTRL_Z && GetConsoleMode(handle, &mode) ? 0 : (length)got;
}

length write(int file, const void *buffer, size count) {
    unsigned put = 0;
    return WriteFile(handle_of(file), buffer, (unsigned)(count < MOST ? count : MOST), &put, 0) ? (length)put : failed();
}

length __write(int file, const void *buffer, size count) { return write(file, buffer, count); }

/* A pipe and a console have no position. */
offset lseek(int file, offset by, int from) {
    offset position;
    void *handle = handle_of(file);
    if (GetFileType(handle) != IS_DISK || !SetFilePointerEx(handle, by, &position, (unsigned)from)) return failed();
    return position;
}

/* The two leaves of CPUID that show x86-64-v2, as the C library of Linux gives them: what there is, and what is in use. */
struct leaf { unsigned known[4], active[4]; };
const struct leaf *__x86_get_cpuid_feature_leaf(unsigned);

const struct leaf *__x86_get_cpuid_feature_leaf(unsigned index) {
    static struct leaf leaves[2];
    struct leaf *leaf = &leaves[index != 0];
    unsigned *it = leaf->active;
    __asm__("cpuid" : "=a"(it[0]), "=b"(it[1]), "=c"(it[2]), "=d"(it[3]) : "a"(index ? 0x80000001 : 1), "c"(0));
    __builtin_memcpy(leaf->known, leaf->active, sizeof leaf->known);
    return leaf;
}

/* The word in UTF-8, or null if memory ran out. */
static char *word_of(const wide *word) {
    int room = WideCharToMultiByte(UTF8, 0, word, -1, 0, 0, 0, 0);
    char *text = malloc((size)room);
    if (text) WideCharToMultiByte(UTF8, 0, word, -1, text, room, 0, 0);
    return text;
}

void start(void) {
    static const char refusal[] = "balisecheck: memory\n";
    int count, startup = 0;
    wide **given, **environment;
    char **words = 0;
    /* 0: * and ? stay as they are. */
    if (__wgetmainargs(&count, &given, &environment, 0, &startup) == 0) words = malloc(((size)count + 1) * sizeof *words);
    for (int at = 0; words && at < count; at++)
        if (!(words[at] = word_of(given[at]))) words = 0;
    if (!words) write(2, refusal, sizeof refusal - 1);
    ExitProcess(words ? (unsigned)run_program(count, words) : OUT_OF_MEMORY);
}
