// Reports how sockets send, for a test: for each send on a socket, a line goes to the file descriptor named by SENDS_TOLD_TO.
// It is 1 if the socket sends at once (TCP_NODELAY) according to the system, else 0. It is loaded before the C library
// (LD_PRELOAD), into the proved program as it was built (ci/test_serve.py). The toolchain has no headers of the C library, so the
// functions used are declared here.
extern char *getenv(const char *);
extern long strtol(const char *, char **, int);
extern int getsockopt(int, int, int, void *, unsigned int *);
extern long sendto(int, const void *, unsigned long, int, const void *, unsigned int);
extern int dprintf(int, const char *, ...);

// The system's numbers for TCP's options, and for this option.
enum { IPPROTO_TCP = 6, TCP_NODELAY = 1 };

long send(int socket, const void *bytes, unsigned long size, int flags)
{
    int is_set = 0;
    unsigned int length = sizeof(is_set);
    getsockopt(socket, IPPROTO_TCP, TCP_NODELAY, &is_set, &length);
    dprintf((int)strtol(getenv("SENDS_TOLD_TO"), 0, 10), "%d\n", is_set != 0);
    return sendto(socket, bytes, size, flags, 0, 0);
}
