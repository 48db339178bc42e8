// Replaces files of the system, for a test: opening a file below /proc or /sys opens the one below the folder named by SYSTEM_AT.
// It is loaded before the C library (LD_PRELOAD), into the proved program as it was built (ci/test_serve.py). The toolchain has
// no headers of the C library, so the functions used are declared here.
typedef unsigned long size_t;
extern char *getenv(const char *);
extern int strncmp(const char *, const char *, size_t);
extern int snprintf(char *, size_t, const char *, ...);
extern long syscall(long, ...);

// A system call number, on x86-64.
enum { OPEN = 2 };

enum { LONGEST_NAME = 4096 };

int open(const char *name, int flags, int mode)
{
    char within[LONGEST_NAME];
    if (strncmp(name, "/proc/", 6) == 0 || strncmp(name, "/sys/", 5) == 0) {
        snprintf(within, sizeof(within), "%s%s", getenv("SYSTEM_AT"), name);
        name = within;
    }
    return (int)syscall(OPEN, name, flags, mode);
}
