/* The system's read and write, for a program that is to be tried: each write to standard output, and each read of a file, is
   interrupted first, as by a signal, as often as INTERRUPTED_WRITES and INTERRUPTED_READS say. */
extern char *getenv(const char *name);
extern long strtol(const char *text, char **end, int base);
extern long syscall(long number, ...);
extern int *__errno_location(void);

enum { READ = 0, WRITE = 1, INTERRUPTED = 4 };

/* How many interruptions are left of a call, none before it begins. */
static long left_of[2] = {-1, -1};

static long tried(int call, const char *most, int file, const void *bytes, unsigned long count) {
    if (left_of[call] < 0) {
        const char *text = getenv(most);
        left_of[call] = text ? strtol(text, 0, 10) : 0;
    }
    if (left_of[call]-- > 0) {
        *__errno_location() = INTERRUPTED;
        return -1;
    }
    return syscall(call, file, bytes, count);
}

long write(int file, const void *bytes, unsigned long count) {
    return file == 1 ? tried(WRITE, "INTERRUPTED_WRITES", file, bytes, count) : syscall(WRITE, file, bytes, count);
}

long read(int file, void *bytes, unsigned long count) {
    return file > 2 ? tried(READ, "INTERRUPTED_READS", file, bytes, count) : syscall(READ, file, bytes, count);
}
