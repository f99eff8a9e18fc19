/* Memory and devices that fail as told, for tests/hostile.py. It is loaded before a program (LD_PRELOAD) and starts ahead
 * of `main`. Standard input has jobs, each with the bytes that the program reads after it. Each job goes on to `main` in
 * a process of its own, and a `struct answer` goes to the open file whose number is HOSTILE_ANSWERS. Linked with the
 * library for C, it is the memory of the library, and hostile.py sets `runs` and `job`. */
#define _GNU_SOURCE
#include <errno.h>
#include <stdint.h>
#include <stdlib.h>
#include <string.h>
#include <sys/mman.h>
#include <sys/syscall.h>
#include <sys/wait.h>
#include <unistd.h>

enum what { MEMORY, READER, WRITER, ALL };

/* From call `first` on, counted from 1, `count` calls fail. They give this error, or move no byte if it is 0. Any other
 * call of a device moves at most `piece` bytes, if that is not 0. */
struct job {
    uint64_t length, seconds;
    struct { uint64_t first, count, error, piece; } plans[ALL];
};

struct answer {
    uint64_t status, stdout_end, stderr_end;
    struct count { uint64_t calls, failed; } counts[ALL];
};

extern void *__libc_malloc(size_t), *__libc_realloc(void *, size_t), __libc_free(void *);

int runs; /* whether this process runs a job */
struct job job; /* its length is what was not yet read */
struct count of_library[ALL], *counts = of_library;
int64_t blocks; /* of memory that are in use */

static int fails(enum what what) {
    uint64_t call = ++counts[what].calls, first = job.plans[what].first;
    if (call < first || call - first >= job.plans[what].count) return 0;
    counts[what].failed++;
    errno = job.plans[what].error;
    return 1;
}

void *malloc(size_t size) {
    void *block = runs && fails(MEMORY) ? NULL : __libc_malloc(size);
    blocks += block != NULL;
    return block;
}

void free(void *block) {
    blocks -= block != NULL;
    __libc_free(block);
}

void *realloc(void *old, size_t size) { return runs && fails(MEMORY) ? NULL : __libc_realloc(old, size); }

/* A call of a device by a job, or one that is none of its business. */
static ssize_t moved(enum what what, int file, const void *buffer, size_t size) {
    size_t piece = job.plans[what].piece;
    int is_device = runs && size > 0 && file == (what == READER ? 0 : 1);
    if (is_device && fails(what)) return job.plans[what].error ? -1 : 0;
    if (is_device && piece && size > piece) size = piece;
    if (is_device && what == READER) {
        if (size > job.length) size = job.length;
        job.length -= size;
    }
    return syscall(what == READER ? SYS_read : SYS_write, file, buffer, size);
}

ssize_t read(int file, void *buffer, size_t size) { return moved(READER, file, buffer, size); }
ssize_t write(int file, const void *buffer, size_t size) { return moved(WRITER, file, buffer, size); }
ssize_t __write(int file, const void *buffer, size_t size) { return moved(WRITER, file, buffer, size); }

/* This process ends with status 99 if it cannot run the jobs. */
__attribute__((constructor)) static void run_jobs(void) {
    const char *answers = getenv("HOSTILE_ANSWERS");
    if (!answers) return;
    counts = mmap(NULL, sizeof *counts * ALL, PROT_READ | PROT_WRITE, MAP_SHARED | MAP_ANONYMOUS, -1, 0);
    if (counts == MAP_FAILED) _exit(99);
    while (read(0, &job, sizeof job) == sizeof job) {
        struct answer answer = {0};
        off_t next = lseek(0, 0, SEEK_CUR) + job.length;
        memset(counts, 0, sizeof *counts * ALL);
        pid_t child = fork();
        if (child == 0) {
            alarm(job.seconds);
            runs = 1;
            return;
        }
        if (child < 0 || waitpid(child, (int *)&answer.status, 0) != child) _exit(99);
        answer.stdout_end = lseek(1, 0, SEEK_END);
        answer.stderr_end = lseek(2, 0, SEEK_END);
        memcpy(answer.counts, counts, sizeof answer.counts);
        if (write(atoi(answers), &answer, sizeof answer) != sizeof answer) _exit(99);
        lseek(0, next, SEEK_SET);
    }
    _exit(0);
}
