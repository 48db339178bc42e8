// Reports what a program writes, for a test, and can stop a disk. For each successful call, in order, a line `KIND OFFSET LENGTH
// NAME` and then the bytes of the call go to the file descriptor named by CALLS_TOLD_TO. KIND is `write`, `cut` (the file now has
// OFFSET bytes), `sync`, or `send` for bytes that have no offset; NAME is what the descriptor refers to. The disk of the file with
// the path CALLS_STOPPED, if that is set, takes CALLS_SPARED reads, writes, syncs and changes of length; it refuses all further
// ones, and the first of these is told as `stop`. It is loaded before the C library (LD_PRELOAD), into the proved program as it
// was built (ci/stopping.py). The toolchain has no headers of the C library, so the functions used are declared here.
typedef unsigned long size_t;
extern char *getenv(const char *);
extern long strtol(const char *, char **, int);
extern int strcmp(const char *, const char *);
extern long syscall(long, ...);
extern int dprintf(int, const char *, ...);
extern int snprintf(char *, size_t, const char *, ...);
extern int *__errno_location(void);
extern void abort(void);

// System call numbers, on x86-64.
enum { WRITE = 1, PREAD = 17, PWRITE = 18, SENDTO = 44, FSYNC = 74, FDATASYNC = 75, FTRUNCATE = 77, READLINK = 89 };

enum { LONGEST_NAME = 4096, IO_ERROR = 5 };

static long number_in(const char *name)
{
    const char *text = getenv(name);
    return text ? strtol(text, 0, 10) : 0;
}

static void find_name(int file, char *name)
{
    char link[64];
    snprintf(link, sizeof(link), "/proc/self/fd/%d", file);
    long found = syscall(READLINK, link, name, LONGEST_NAME - 1);
    if (found < 0)
        abort();
    name[found] = 0;
}

static void tell(const char *kind, int file, long at, const char *bytes, long length)
{
    char name[LONGEST_NAME];
    int to = (int)number_in("CALLS_TOLD_TO");
    find_name(file, name);
    dprintf(to, "%s %ld %ld %s\n", kind, at, length, name);
    while (length > 0) {
        long put = syscall(WRITE, to, bytes, length);
        if (put <= 0)
            abort();
        bytes += put;
        length -= put;
    }
}

// Counts a call on the file of the disk that stops. Whether it has stopped.
static int has_stopped(int file)
{
    static long calls = 0;
    char name[LONGEST_NAME];
    const char *stopped = getenv("CALLS_STOPPED");
    if (!stopped)
        return 0;
    find_name(file, name);
    if (strcmp(name, stopped) != 0)
        return 0;
    calls += 1;
    long refused = calls - number_in("CALLS_SPARED");
    if (refused == 1)
        tell("stop", file, 0, 0, 0);
    if (refused > 0)
        *__errno_location() = IO_ERROR;
    return refused > 0;
}

long pread(int file, void *bytes, size_t length, long at)
{
    return has_stopped(file) ? -1 : syscall(PREAD, file, bytes, length, at);
}

long pwrite(int file, const void *bytes, size_t length, long at)
{
    if (has_stopped(file))
        return -1;
    long put = syscall(PWRITE, file, bytes, length, at);
    if (put >= 0)
        tell("write", file, at, bytes, put);
    return put;
}

int ftruncate(int file, long length)
{
    if (has_stopped(file))
        return -1;
    int result = (int)syscall(FTRUNCATE, file, length);
    if (result == 0)
        tell("cut", file, length, 0, 0);
    return result;
}

static int sync_by(long number, int file)
{
    if (has_stopped(file))
        return -1;
    int result = (int)syscall(number, file);
    if (result == 0)
        tell("sync", file, 0, 0, 0);
    return result;
}

int fsync(int file)
{
    return sync_by(FSYNC, file);
}

int fdatasync(int file)
{
    return sync_by(FDATASYNC, file);
}

long write(int file, const void *bytes, size_t length)
{
    long put = syscall(WRITE, file, bytes, length);
    if (put >= 0)
        tell("send", file, 0, bytes, put);
    return put;
}

long send(int socket, const void *bytes, size_t length, int flags)
{
    long put = syscall(SENDTO, socket, bytes, length, flags, 0, 0);
    if (put >= 0)
        tell("send", socket, 0, bytes, put);
    return put;
}
