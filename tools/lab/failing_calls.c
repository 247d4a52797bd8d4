/* Loaded before the C library: counts the calls that a program makes of it, and makes some of them fail.
 *
 * FAILING_CALLS in the environment has three numbers: the most bytes that a read or a write may take (0: any number), the descriptor of a file
 * that says which calls have to fail, and that of one for what is found; -1 where there is none.
 *
 * At each call that has to fail the program divides: in a child of it the call fails, and the child goes on to its end, while the program waits,
 * and then goes on as if there had been no child. So a call late in the program costs no new start and no way there. The program's streams are
 * files, from which what a child wrote is taken away, and its own files have their places again.
 *
 * What is found is, for each child, which failure it had, the number of the call, its status, how long its texts are, and these; and last, with
 * -1 for the failure, how many calls of each kind were made, and how many requests for memory came before each of the first calls of `open`.
 */
typedef unsigned long size;
typedef long ssize;

extern void *dlsym(void *, const char *);
extern char *getenv(const char *);
extern long strtol(const char *, char **, int);
extern int *__errno_location(void);
extern int fork(void);
extern int waitpid(int, int *, int);
extern unsigned alarm(unsigned);
extern int ftruncate(int, long);
extern ssize pread(int, void *, size, long);

enum kind { MEMORY, OPEN, SEEK, READ, OUT, ERR, KINDS };
enum { OPENS = 8, FAILURES = 64, FILES = 16, PIECE = 4096 };

/* Which calls have to fail: the first `most` of each kind, and then one of every `step`, in each of these ways; and the seconds of a child. */
struct failure { long kind, times, error; };
static struct { long most, step, seconds, count; struct failure failures[FAILURES]; } asked;

/* The failure of this process, and the first and the last call of its kind that fails. */
static struct failure own = {-1, 0, 0};
static long first, last;

static long piece, report = -1;
static struct { long counts[KINDS], requests[OPENS]; } made;
static int is_at_work;

/* The C library's own function of this name. */
static void *next(const char *name) { return dlsym((void *)-1L, name); }

static ssize real_write(int file, const void *bytes, size count) {
    static ssize (*real)(int, const void *, size);
    if (!real)
        real = (ssize(*)(int, const void *, size))next("write");
    return real(file, bytes, count);
}

static long real_seek(int file, long place, int whence) {
    static long (*real)(int, long, int);
    if (!real)
        real = (long (*)(int, long, int))next("lseek");
    return real(file, place, whence);
}

__attribute__((constructor)) static void begin(void) {
    char *text = getenv("FAILING_CALLS");
    long order = -1, *numbers[] = {&piece, &order, &report};
    for (int i = 0; text && i < 3; i++)
        *numbers[i] = strtol(text, &text, 10);
    if (order >= 0)
        pread((int)order, &asked, sizeof asked, 0);
    is_at_work = 1;
}

/* The last thing that is done: other code at the end of the program calls nothing of this. */
__attribute__((destructor)) static void end(void) {
    long none = -1;
    if (report >= 0 && own.kind < 0) {
        real_write((int)report, &none, sizeof none);
        real_write((int)report, &made, sizeof made);
    }
}

/* Copies what stands in a stream behind this place to the report. */
static void copy(int stream, long place, long end) {
    char bytes[PIECE];
    while (place < end) {
        ssize count = pread(stream, bytes, PIECE, place);
        if (count <= 0)
            return;
        real_write((int)report, bytes, (size)count);
        place += count;
    }
}

/* Waits for the child, reports what it left in the streams, and takes it away. */
static void report_child(int child, long failure, long number, const long *places) {
    int status = 0;
    waitpid(child, &status, 0);
    long ends[] = {real_seek(1, 0, 2), real_seek(2, 0, 2)};
    long numbers[] = {failure, number, status & 127 ? -(status & 127) : status >> 8 & 255, ends[0], ends[1]};
    real_write((int)report, numbers, sizeof numbers);
    for (int stream = 1; stream <= 2; stream++) {
        copy(stream, 0, ends[stream - 1]);
        ftruncate(stream, places[stream]);
    }
    for (int file = 0; file < FILES; file++)
        if (places[file] >= 0)
            real_seek(file, places[file], 0);
}

/* A child in which this call fails; true in the child. */
static int divides(long failure, long number) {
    long places[FILES];
    for (int file = 0; file < FILES; file++)
        places[file] = file == report ? -1 : real_seek(file, 0, 1);
    is_at_work = 0;
    int child = fork();
    is_at_work = 1;
    if (child) {
        report_child(child, failure, number, places);
        return 0;
    }
    alarm((unsigned)asked.seconds);
    own = asked.failures[failure];
    first = number;
    last = number + own.times - 1;
    return 1;
}

static int is_asked(long number) { return number <= asked.most || (asked.step && (number - asked.most) % asked.step == 0); }

static int fails(enum kind kind) {
    if (!is_at_work)
        return 0;
    long number = ++made.counts[kind];
    for (long i = 0; own.kind < 0 && i < asked.count && is_asked(number); i++)
        if (asked.failures[i].kind == kind && divides(i, number))
            break;
    if (kind != own.kind || number < first || number > last)
        return 0;
    *__errno_location() = (int)own.error;
    return 1;
}

static size cut(size bytes) { return piece && bytes > (size)piece ? (size)piece : bytes; }

void *malloc(size bytes) {
    static void *(*real)(size);
    if (!real)
        real = (void *(*)(size))next("malloc");
    return fails(MEMORY) ? 0 : real(bytes);
}

void *realloc(void *old, size bytes) {
    static void *(*real)(void *, size);
    if (!real)
        real = (void *(*)(void *, size))next("realloc");
    return fails(MEMORY) ? 0 : real(old, bytes);
}

int open(const char *name, int flags, int mode) {
    static int (*real)(const char *, int, ...);
    if (!real)
        real = (int (*)(const char *, int, ...))next("open");
    if (is_at_work && made.counts[OPEN] < OPENS)
        made.requests[made.counts[OPEN]] = made.counts[MEMORY];
    return fails(OPEN) ? -1 : real(name, flags, mode);
}

long lseek(int file, long place, int whence) { return fails(SEEK) ? -1 : real_seek(file, place, whence); }

ssize read(int file, void *bytes, size count) {
    static ssize (*real)(int, void *, size);
    if (!real)
        real = (ssize(*)(int, void *, size))next("read");
    return fails(READ) ? -1 : real(file, bytes, cut(count));
}

ssize write(int file, const void *bytes, size count) {
    if (fails(file == 2 ? ERR : OUT))
        return own.error ? -1 : 0;
    return real_write(file, bytes, cut(count));
}

ssize __write(int file, const void *bytes, size count) { return write(file, bytes, count); }
