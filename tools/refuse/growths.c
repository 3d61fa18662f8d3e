/* Makes allocations fail in the program that it is preloaded into, and reports how each call ended.
 *
 * An allocation is a call of malloc, calloc, realloc or aligned_alloc. REFUSE_AT=N makes the N-th counted allocation fail, or none
 * if N is 0; with REFUSE_ON=1 all later ones fail too. The reports are appended to the file REFUSE_REPORT.
 *
 * In a program (REFUSE_ALL=1) each allocation is counted, and one line is written at the exit. A test marks where a call begins and
 * ends, by allocations of sizes that occur nowhere else, and one line is written for each call. Only allocations between the two
 * marks are counted, so that the setup and the comparisons of a test do not fail. A call that must not allocate has a begin mark of
 * its own: every allocation in it fails.
 */
typedef __SIZE_TYPE__ size_t;
#define NULL ((void *)0)

enum {
    BEGINS = 1000003,       /* a call begins */
    BEGINS_FREE = 1000033,  /* a call begins that must not allocate */
    ENDS = 1000037,         /* the call ended and returned a result */
    ENDS_REFUSED = 1000039  /* the call ended and returned out of memory */
};

extern void *__libc_malloc(size_t);
extern void *__libc_calloc(size_t, size_t);
extern void *__libc_realloc(void *, size_t);
extern void *__libc_memalign(size_t, size_t);
extern char *getenv(const char *);
extern int open(const char *, int, ...);
extern long write(int, const void *, size_t);
extern int *__errno_location(void);

static unsigned long at, counted, met, refused;
static int file = -1, goes_on, is_program, is_in, is_free;

/* Returns the number in an environment variable, or 0 if it is not set. */
static unsigned long number(const char *name)
{
    unsigned long made = 0;
    const char *text = getenv(name);
    while (text && *text >= '0' && *text <= '9')
        made = 10 * made + (unsigned long)(*text++ - '0');
    return made;
}

/* Appends a number to a line of length `end`. Returns the new length. */
static size_t put(char *line, size_t end, unsigned long value)
{
    char digits[24];
    int count = 0;
    do
        digits[count++] = (char)('0' + value % 10);
    while (value /= 10);
    line[end++] = ' ';
    while (count)
        line[end++] = digits[--count];
    return end;
}

/* Writes a line: a word, the number of allocations of the call, and how many of them failed. */
static void report(const char *word)
{
    char line[96];
    size_t end = 0;
    while (*word)
        line[end++] = *word++;
    end = put(line, end, met);
    end = put(line, end, refused);
    line[end++] = '\n';
    if (file >= 0 && write(file, line, end) != (long)end)
        file = -1;
}

__attribute__((constructor)) static void begin(void)
{
    const char *name = getenv("REFUSE_REPORT");
    at = number("REFUSE_AT");
    goes_on = number("REFUSE_ON") != 0;
    is_program = number("REFUSE_ALL") != 0;
    if (name)
        file = open(name, 02001); /* O_WRONLY | O_APPEND */
}

__attribute__((destructor)) static void end(void)
{
    if (is_program)
        report("ended");
    else if (is_in)
        report("unended");
}

static void begin_call(int must_not_allocate)
{
    if (is_in)
        report("unended");
    is_in = 1;
    is_free = must_not_allocate;
    met = refused = 0;
}

static void end_call(const char *word)
{
    report(is_in ? word : "unbegun");
    is_in = 0;
}

/* Returns whether an allocation of this size is a mark, and begins or ends the call if it is. */
static int is_mark(size_t bytes)
{
    switch (is_program ? 0 : bytes) {
    case BEGINS:
    case BEGINS_FREE:
        begin_call(bytes == BEGINS_FREE);
        return 1;
    case ENDS:
        end_call(is_free ? "free" : "returned");
        return 1;
    case ENDS_REFUSED:
        end_call("refused");
        return 1;
    default:
        return 0;
    }
}

/* Returns whether this allocation must fail. */
static int is_refused(size_t bytes)
{
    int is;
    if (is_mark(bytes) || !(is_in || is_program))
        return 0;
    met++;
    counted++;
    is = is_free || (at && (counted == at || (goes_on && counted > at)));
    if (is) {
        refused++;
        *__errno_location() = 12; /* ENOMEM */
    }
    return is;
}

void *malloc(size_t bytes)
{
    return is_refused(bytes) ? NULL : __libc_malloc(bytes);
}

void *calloc(size_t count, size_t bytes)
{
    return is_refused(count * bytes) ? NULL : __libc_calloc(count, bytes);
}

void *realloc(void *old, size_t bytes)
{
    return is_refused(bytes) ? NULL : __libc_realloc(old, bytes);
}

void *aligned_alloc(size_t align, size_t bytes)
{
    return is_refused(bytes) ? NULL : __libc_memalign(align, bytes);
}
