/* Loaded before the C library: the program stops before anything of it runs, and divides for each call that is asked for.
 *
 * FORK_SERVER in the environment has three numbers: the descriptor of a pipe with the calls, that of a pipe for their answers, and the seconds of a
 * call. A call is how many bytes follow, and these: the folder and the words, each with a byte of 0 behind it. A child begins the program on these
 * words. What is answered is its status, its processor time in microseconds, and how many bytes it wrote to each of the two streams, which
 * are files and are empty at each call's begin.
 */
typedef unsigned long size;
typedef long ssize;
typedef int entry(int, char **, char **);
typedef void hook(void);
typedef int start(entry *, int, char **, hook *, hook *, hook *, void *);

struct time { long seconds, microseconds; };
struct usage { struct time user, system; long others[14]; };

extern void *dlsym(void *, const char *);
extern char *getenv(const char *);
extern long strtol(const char *, char **, int);
extern ssize read(int, void *, size);
extern ssize write(int, const void *, size);
extern long lseek(int, long, int);
extern int ftruncate(int, long);
extern int chdir(const char *);
extern int close(int);
extern int fork(void);
extern int wait4(int, int *, int, struct usage *);
extern unsigned alarm(unsigned);
extern void _exit(int);

enum { WORDS = 510, BYTES = 1 << 16, UNSERVED = 99 };

static long calls = -1, answers = -1, seconds;
static char call[BYTES];
static char *words[WORDS + 2];

/* Reads so many bytes; false where there are no more. */
static int is_read(void *bytes, size count) {
    for (size got = 0; got < count;) {
        ssize more = read((int)calls, (char *)bytes + got, count - got);
        if (more <= 0)
            return 0;
        got += (size)more;
    }
    return 1;
}

/* How many words the call has, with the name of the program and without the folder; -1 where it has too many. */
static int words_of(char *name, long bytes) {
    int count = 0;
    words[count++] = name;
    for (long place = 0, first = 0; place < bytes; place++) {
        if (call[place])
            continue;
        if (first && count > WORDS)
            return -1;
        if (first)
            words[count++] = call + first;
        first = place + 1;
    }
    words[count] = 0;
    return count;
}

/* Prepares the child for a call of so many words. */
static void begin(int count) {
    close((int)calls);
    close((int)answers);
    alarm((unsigned)seconds);
    if (count < 0 || chdir(call))
        _exit(UNSERVED);
}

static void answer(int child) {
    int status = 0;
    struct usage used;
    wait4(child, &status, 0, &used);
    long time = 1000000 * (used.user.seconds + used.system.seconds) + used.user.microseconds + used.system.microseconds;
    long numbers[] = {status & 127 ? -(status & 127) : status >> 8 & 255, time, lseek(1, 0, 2), lseek(2, 0, 2)};
    write((int)answers, numbers, sizeof numbers);
}

/* Divides for each call until there are no more. Returns in each child alone, with the count of its words. */
static int serve(char *name) {
    long bytes;
    while (is_read(&bytes, sizeof bytes) && bytes <= BYTES && is_read(call, (size)bytes)) {
        for (int stream = 1; stream <= 2; stream++) {
            ftruncate(stream, 0);
            lseek(stream, 0, 0);
        }
        int child = fork();
        if (child) {
            answer(child);
            continue;
        }
        int count = words_of(name, bytes);
        begin(count);
        return count;
    }
    _exit(0);
    return 0;
}

/* What the program calls first: it runs what has to run before `main`, which keeps the words, and `main`. */
int __libc_start_main(entry *main, int count, char **names, hook *init, hook *fini, hook *last, void *stack) {
    char *text = getenv("FORK_SERVER");
    long *numbers[] = {&calls, &answers, &seconds};
    for (int i = 0; text && i < 3; i++)
        *numbers[i] = strtol(text, &text, 10);
    start *real = (start *)dlsym((void *)-1L, "__libc_start_main");
    return calls < 0 ? real(main, count, names, init, fini, last, stack) : real(main, serve(names[0]), words, init, fini, last, stack);
}
