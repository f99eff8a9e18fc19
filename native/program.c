/* The functions of the kit's C that the program calls, for systems for which the kit has none: the words of the command
 * line as text. The start-up code of the system calls `run_program`. */
typedef __SIZE_TYPE__ size;
typedef __PTRDIFF_TYPE__ length;

enum { IS_MISSING = -1, IS_LONGER = -2 };

extern int main(void);
int run_program(int, char **);
size rattle_arg_count(void);
length rattle_arg(size, char *, size);

static char **words;
static size count;

int run_program(int given_count, char **given) {
    words = given;
    count = (size)given_count;
    return main();
}

size rattle_arg_count(void) { return count; }

/* Copies a word without its NUL, and returns its length. */
length rattle_arg(size index, char *buffer, size capacity) {
    size at = 0;
    if (index >= count) return IS_MISSING;
    for (const char *word = words[index]; word[at]; at++) {
        if (at == capacity) return IS_LONGER;
        buffer[at] = word[at];
    }
    return (length)at;
}
