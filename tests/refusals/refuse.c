/* Stands before the system's library in a run of a program: built as a shared object and named by LD_PRELOAD. Refuses one growth of its
   storage, and gives and takes its bytes in pieces, until it gives or takes no more. All is asked by the environment:
   REFUSED=N    the call number N that asks for storage, counted from 1, is refused; with no such number none is
   COUNTED=FILE takes how many there were
   READS=N      a read gives 1 to N bytes, as SEED draws them; where N is 1 each read gives one byte
   GIVEN=N      after so many bytes of standard input a read fails
   WRITES=N     a write takes 1 to N bytes
   TAKEN=N      after so many bytes of standard output a write fails */
#define _GNU_SOURCE
#include <errno.h>
#include <fcntl.h>
#include <stdio.h>
#include <stdlib.h>
#include <sys/syscall.h>
#include <unistd.h>

extern void *__libc_malloc(size_t);
extern void *__libc_calloc(size_t, size_t);
extern void *__libc_realloc(void *, size_t);
extern void *__libc_memalign(size_t, size_t);

static long calls;
static unsigned long drawn;

static long number(const char *name, long otherwise) {
    const char *text = getenv(name);
    return text ? atol(text) : otherwise;
}

static int is_refused(void) {
    calls++;
    return calls == number("REFUSED", 0);
}

void *malloc(size_t size) { return is_refused() ? NULL : __libc_malloc(size); }
void *calloc(size_t many, size_t size) { return is_refused() ? NULL : __libc_calloc(many, size); }
void *realloc(void *old, size_t size) { return is_refused() ? NULL : __libc_realloc(old, size); }
void *aligned_alloc(size_t align, size_t size) { return is_refused() ? NULL : __libc_memalign(align, size); }

/* How many of so many bytes a call moves, where `most` are asked of it and so many are left, or -1 where it fails. */
static long piece(size_t size, long most, long left) {
    if (size == 0) return 0;
    if (left == 0) return -1;
    if (!drawn) drawn = 2 * (unsigned long)number("SEED", 1) + 1;
    drawn = drawn * 6364136223846793005UL + 1442695040888963407UL;
    long count = most > 0 ? 1 + (long)((drawn >> 33) % (unsigned long)most) : (long)size;
    if (count > (long)size) count = (long)size;
    return left > 0 && count > left ? left : count;
}

/* A stream that is given or taken in pieces: its file, the system's call, and the variables that tell how much there is and the most of a piece. */
struct stream {
    int file;
    long call;
    const char *whole, *most;
    long moved;
};

static struct stream input = {0, SYS_read, "GIVEN", "READS", 0}, output = {1, SYS_write, "TAKEN", "WRITES", 0};

static ssize_t move(struct stream *it, int file, void *at, size_t size) {
    if (file != it->file) return syscall(it->call, file, at, size);
    long whole = number(it->whole, -1);
    long count = piece(size, number(it->most, 0), whole < 0 ? -1 : whole - it->moved);
    if (count < 0) return errno = EIO, -1;
    ssize_t moved = syscall(it->call, file, at, (size_t)count);
    if (moved > 0) it->moved += moved;
    return moved;
}

ssize_t read(int from, void *to, size_t size) { return move(&input, from, to, size); }
ssize_t write(int to, const void *from, size_t size) { return move(&output, to, (void *)from, size); }

__attribute__((destructor)) static void tell(void) {
    const char *file = getenv("COUNTED");
    if (!file) return;
    int to = open(file, O_WRONLY | O_CREAT | O_TRUNC, 0644);
    dprintf(to, "%ld\n", calls);
    close(to);
}
