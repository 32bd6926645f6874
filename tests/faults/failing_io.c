/*
 * read and write of the C library, changed for standard input and standard output as the environment asks. It is
 * preloaded (LD_PRELOAD).
 *
 *   READ_AT_ONCE, WRITE_AT_ONCE   a call moves at most this many bytes
 *   SHORT_READ, SHORT_WRITE       the call of that number, counted from 1, moves one byte
 *   FAILING_READ, FAILING_WRITE   the call of that number moves nothing and fails
 *   FAILING_TIMES                 and so do the calls after it, this many in all; 1 by default
 *   FAILING_ERROR                 with this error number; by default it returns that it moved nothing
 *
 * The first call that fails prints a line on standard error, with the number of bytes that were moved before it. The
 * calls after the last are as the others.
 */
#define _GNU_SOURCE
#include <errno.h>
#include <stdio.h>
#include <stdlib.h>
#include <sys/syscall.h>
#include <unistd.h>

struct stream {
    const char *name;
    long call;
    unsigned long at_once, short_call, failing_call;
    unsigned long calls, bytes;
};

static struct stream input = {.name = "read", .call = SYS_read};
static struct stream output = {.name = "write", .call = SYS_write};
static unsigned long failing_times;
static int error_number;

static unsigned long number_of(const char *name)
{
    const char *number = getenv(name);
    return number ? strtoul(number, NULL, 10) : 0;
}

__attribute__((constructor)) static void begin(void)
{
    input.at_once = number_of("READ_AT_ONCE");
    input.short_call = number_of("SHORT_READ");
    input.failing_call = number_of("FAILING_READ");
    output.at_once = number_of("WRITE_AT_ONCE");
    output.short_call = number_of("SHORT_WRITE");
    output.failing_call = number_of("FAILING_WRITE");
    failing_times = number_of("FAILING_TIMES");
    if (failing_times == 0)
        failing_times = 1;
    error_number = (int)number_of("FAILING_ERROR");
}

static void tell(const struct stream *stream)
{
    char told[80];
    int length = snprintf(told, sizeof told, "a %s fails after %lu bytes\n", stream->name, stream->bytes);
    (void)!syscall(SYS_write, STDERR_FILENO, told, (size_t)length);
}

static int fails(const struct stream *stream)
{
    return stream->failing_call > 0 && stream->calls >= stream->failing_call
        && stream->calls - stream->failing_call < failing_times;
}

static ssize_t fail(const struct stream *stream)
{
    if (stream->calls == stream->failing_call)
        tell(stream);
    errno = error_number;
    return error_number ? -1 : 0;
}

static ssize_t move_bytes(struct stream *stream, int file, long bytes, size_t count)
{
    stream->calls++;
    if (fails(stream))
        return fail(stream);
    if (stream->calls == stream->short_call && count > 1)
        count = 1;
    if (stream->at_once > 0 && count > stream->at_once)
        count = stream->at_once;
    ssize_t moved = syscall(stream->call, file, bytes, count);
    if (moved > 0)
        stream->bytes += (unsigned long)moved;
    return moved;
}

ssize_t read(int file, void *bytes, size_t count)
{
    if (file == STDIN_FILENO)
        return move_bytes(&input, file, (long)bytes, count);
    return syscall(SYS_read, file, bytes, count);
}

ssize_t write(int file, const void *bytes, size_t count)
{
    if (file == STDOUT_FILENO)
        return move_bytes(&output, file, (long)bytes, count);
    return syscall(SYS_write, file, bytes, count);
}
