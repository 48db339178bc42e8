// Streams in pieces, for tests: bounds or refuses reads of a program's input, and writes to its standard output. It is loaded
// before the C library (LD_PRELOAD), into the proved program as it was built (ci/pieces.py). The input is the file named by
// PIECES_INPUT, or standard input. All other reads and writes pass. These bound the calls, if they are set:
//
// PIECES_READ         the most bytes per read
// PIECES_CUT          no read goes past this place; one byte further each time that the input is read anew from its first byte
// PIECES_READ_FAILS   the read with this number, counted from 1, fails as if the peer had reset the connection
// PIECES_WRITE        the most bytes per write; with 0 no write takes a byte
// PIECES_ROOM         the most bytes of all writes; then each fails as if the peer were gone
// PIECES_WRITE_FAILS  the write with this number fails so
// PIECES_WRITE_STOPS  the write with this number takes no byte
//
// After each call, `struct told` is put to the front of the file descriptor named by PIECES_TOLD_TO.
// The toolchain has no headers of the C library, so the functions used are declared here.
typedef unsigned long size_t;
extern char *getenv(const char *);
extern long strtol(const char *, char **, int);
extern long syscall(long, ...);
extern int snprintf(char *, size_t, const char *, ...);
extern int strcmp(const char *, const char *);
extern int *__errno_location(void);
extern void abort(void);

// System call numbers and errors, on x86-64.
enum { READ = 0, WRITE = 1, LSEEK = 8, PWRITE = 18, READLINK = 89 };
enum { FROM_HERE = 1, BROKEN_PIPE = 32, CONNECTION_RESET = 104 };

enum { LONGEST_NAME = 4096, OUTPUT = 1 };

// How many reads and writes were made, how many bytes were given and taken, and how many the first and the last write took.
static struct told {
    long reads, given, writes, taken, first, last;
} told;

static long number_in(const char *name, long otherwise)
{
    const char *text = getenv(name);
    return text ? strtol(text, 0, 10) : otherwise;
}

static long least(long one, long other)
{
    return one < other ? one : other;
}

// Tells the counts, and returns the result of the call.
static long tell(long result)
{
    long to = number_in("PIECES_TOLD_TO", -1);
    if (to >= 0 && syscall(PWRITE, to, &told, sizeof(told), 0L) != (long)sizeof(told))
        abort();
    return result;
}

static long fail(int error)
{
    tell(-1);
    *__errno_location() = error;
    return -1;
}

static int is_input(int file)
{
    const char *input = getenv("PIECES_INPUT");
    char link[64], name[LONGEST_NAME];
    if (!input)
        return file == 0;
    snprintf(link, sizeof(link), "/proc/self/fd/%d", file);
    long found = syscall(READLINK, link, name, sizeof(name) - 1);
    if (found < 0)
        return 0;
    name[found] = 0;
    return strcmp(name, input) == 0;
}

long read(int file, void *bytes, size_t length)
{
    static long place = 0, times = 0;
    if (!is_input(file))
        return syscall(READ, file, bytes, length);
    if (place > 0 && syscall(LSEEK, file, 0L, FROM_HERE) == 0) {
        place = 0;
        times += 1;
    }
    told.reads += 1;
    if (told.reads == number_in("PIECES_READ_FAILS", 0))
        return fail(CONNECTION_RESET);
    long most = least((long)length, number_in("PIECES_READ", (long)length));
    long cut = number_in("PIECES_CUT", -1);
    if (cut >= 0 && place < cut + times)
        most = least(most, cut + times - place);
    long given = syscall(READ, file, bytes, most);
    if (given > 0) {
        place += given;
        told.given += given;
    }
    return tell(given);
}

long write(int file, const void *bytes, size_t length)
{
    if (file != OUTPUT)
        return syscall(WRITE, file, bytes, length);
    told.writes += 1;
    long room = number_in("PIECES_ROOM", -1);
    if (told.writes == number_in("PIECES_WRITE_FAILS", 0) || room == told.taken)
        return fail(BROKEN_PIPE);
    long most = least((long)length, number_in("PIECES_WRITE", (long)length));
    if (room >= 0)
        most = least(most, room - told.taken);
    if (told.writes == number_in("PIECES_WRITE_STOPS", 0) || most == 0)
        return tell(0);
    told.last = syscall(WRITE, file, bytes, most);
    if (told.writes == 1)
        told.first = told.last;
    if (told.last > 0)
        told.taken += told.last;
    return tell(told.last);
}
