/* What a program has of the machine: its calls, a heap, and the three streams of picolibc where that is installed.

   Standard output is written at the end of a line. What was printed stays in `output` until that is full, so the image of a state
   has the last of it. */
#pragma GCC diagnostic ignored "-Wunused-parameter"
#include <stddef.h>

#ifndef HEAP_BYTES
#define HEAP_BYTES 0x40000
#endif
#ifndef OUTPUT_BYTES
#define OUTPUT_BYTES 0x1000
#endif

#if __has_include(<stdio.h>)
#include <errno.h>
#include <stdio.h>
#include <stdlib.h>
#include <sys/time.h>
#include <sys/times.h>
#include <sys/types.h>
#include <unistd.h>
#define LIBRARY
#else
typedef long ssize_t;
static int errno;
void _exit(int status) __attribute__((noreturn));
void exit(int status) __attribute__((noreturn));
#endif

#ifndef WORDS
#define WORDS "program"
#endif

/* What main gets. */
char *main_words[] = {WORDS, NULL};
const int main_word_count = sizeof main_words / sizeof *main_words - 1;

enum { READ = 63, WRITE = 64, EXIT = 93 };

static long call(long number, long a0, long a1, long a2) {
    register long n asm("a7") = number, x asm("a0") = a0, y asm("a1") = a1, z asm("a2") = a2;
    asm volatile("ecall" : "+r"(x) : "r"(n), "r"(y), "r"(z) : "memory");
    return x;
}

static long answer(long told) {
    if (told >= 0)
        return told;
    errno = -told;
    return -1;
}

ssize_t read(int descriptor, void *bytes, size_t most) {
    return answer(call(READ, descriptor, (long)bytes, (long)most));
}

ssize_t write(int descriptor, const void *bytes, size_t count) {
    return answer(call(WRITE, descriptor, (long)bytes, (long)count));
}

static char heap[HEAP_BYTES] __attribute__((aligned(16), section(".bss..heap")));
static size_t heap_taken;

void *sbrk(ptrdiff_t more) {
    if (more > (ptrdiff_t)(sizeof heap - heap_taken) || more < -(ptrdiff_t)heap_taken) {
        errno = 12; /* ENOMEM */
        return (void *)-1;
    }
    heap_taken += more;
    return heap + heap_taken - more;
}

#ifdef LIBRARY
static struct {
    char bytes[OUTPUT_BYTES];
    size_t filled, sent;
} output;

static struct {
    unsigned char bytes[512];
    ssize_t filled, taken;
} input;

static int send(FILE *stream) {
    size_t from = output.sent;
    output.sent = output.filled;
    return from == output.filled || write(1, output.bytes + from, output.filled - from) > 0 ? 0 : EOF;
}

static int put(char byte, FILE *stream) {
    if (output.filled == sizeof output.bytes)
        output.filled = output.sent = 0;
    output.bytes[output.filled++] = byte;
    return byte == '\n' || output.filled == sizeof output.bytes ? send(stream) : 0;
}

static int put_error(char byte, FILE *stream) {
    send(stdout);
    return write(2, &byte, 1) == 1 ? 0 : EOF;
}

static int get(FILE *stream) {
    if (input.taken == input.filled) {
        send(stdout);
        input.filled = read(0, input.bytes, sizeof input.bytes);
        input.taken = 0;
        if (input.filled <= 0) {
            int end = input.filled == 0 ? _FDEV_EOF : _FDEV_ERR;
            input.filled = 0;
            return end;
        }
    }
    return input.bytes[input.taken++];
}

static FILE standard_input = FDEV_SETUP_STREAM(NULL, get, NULL, _FDEV_SETUP_READ);
static FILE standard_output = FDEV_SETUP_STREAM(put, NULL, send, _FDEV_SETUP_WRITE);
static FILE standard_error = FDEV_SETUP_STREAM(put_error, NULL, NULL, _FDEV_SETUP_WRITE);
FILE *const stdin = &standard_input, *const stdout = &standard_output, *const stderr = &standard_error;

/* abort raises a signal. */
pid_t getpid(void) {
    return 1;
}

int kill(pid_t process, int signal) {
    _exit(128 + signal);
}

/* There are no files, and no clock. */
int open(const char *name, int flags, ...) {
    return answer(-ENOSYS);
}

int close(int descriptor) {
    return answer(-ENOSYS);
}

off_t lseek(int descriptor, off_t offset, int from) {
    return answer(-ENOSYS);
}

int unlink(const char *name) {
    return answer(-ENOSYS);
}

int rename(const char *from, const char *to) {
    return answer(-ENOSYS);
}

int gettimeofday(struct timeval *restrict time, void *restrict zone) {
    return answer(-ENOSYS);
}

clock_t times(struct tms *used) {
    return answer(-ENOSYS);
}
#else
void exit(int status) {
    _exit(status);
}
#endif

void _exit(int status) {
#ifdef LIBRARY
    send(stdout);
#endif
    for (;;)
        call(EXIT, status, 0, 0);
}
