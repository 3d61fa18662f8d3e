/* Makes each read of the standard input and each write to the standard output transfer one byte, in the program that it is
 * preloaded into, and makes one of them fail.
 *
 * FAIL_READ=N makes the N-th read fail, FAIL_WRITE=N the N-th write, with EIO. EMPTY_WRITE=N makes the N-th write accept no bytes.
 */
typedef __SIZE_TYPE__ size_t;
#define NULL ((void *)0)

enum { READ = 0, WRITE = 1, INPUT = 0, OUTPUT = 1, ERROR = 5 /* EIO */ };

extern long syscall(long, ...);
extern char *getenv(const char *);
extern int *__errno_location(void);

static unsigned long reads, writes;

/* Returns whether an environment variable has this number. */
static int is_number(const char *name, unsigned long wanted)
{
    unsigned long made = 0;
    const char *text = getenv(name);
    while (text && *text >= '0' && *text <= '9')
        made = 10 * made + (unsigned long)(*text++ - '0');
    return made == wanted;
}

static long fails(void)
{
    *__errno_location() = ERROR;
    return -1;
}

long read(int file, void *to, size_t bytes)
{
    if (file != INPUT || !bytes)
        return syscall(READ, file, to, bytes);
    return is_number("FAIL_READ", ++reads) ? fails() : syscall(READ, file, to, (size_t)1);
}

long write(int file, const void *from, size_t bytes)
{
    if (file != OUTPUT || !bytes)
        return syscall(WRITE, file, from, bytes);
    if (is_number("FAIL_WRITE", ++writes))
        return fails();
    return is_number("EMPTY_WRITE", writes) ? 0 : syscall(WRITE, file, from, (size_t)1);
}

/* The toolchain's programs call this one. */
long __write(int file, const void *from, size_t bytes)
{
    return write(file, from, bytes);
}
