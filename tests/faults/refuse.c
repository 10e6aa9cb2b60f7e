/* Refuses one of the calls that a program makes of the C library. tests/faults/run loads it before that library (LD_PRELOAD).

   REFUSE has the sort of the calls, and which of them is refused, counted from 1, as 'memory 7':

       memory        malloc, calloc and realloc answer that they are out of memory
       thread        pthread_create answers EAGAIN
       open          open and openat answer EMFILE
       read          read answers EIO
       interrupt     read answers EINTR
       short-read    read asks for one byte
       short-reads   each read asks for one byte; it is told if there are so many
       write         write answers EIO
       short-write   write takes one byte
       keep          fsync and rename answer EIO
       signal        open, openat, read, write, fsync and rename are made once the program was sent a signal,
                     whose number stands last, as in 'signal 7 15'
       at-once       nothing is refused; it is told if so many threads have been started and not joined at a time

   If a call is refused, a '!' goes to the descriptor REFUSE_TELL. In each run a 'T' goes there if the program writes to standard output or
   standard error while a thread that it has started is not joined. Needs no header. */

#define RTLD_NEXT ((void *)-1L)
enum { EINTR = 4, EIO = 5, EAGAIN = 11, ENOMEM = 12, EMFILE = 24, READ = 0, WRITE = 1, GETPID = 39, KILL = 62, FSYNC = 74, RENAME = 82, OPENAT = 257, HERE = -100 };

typedef unsigned long size_t;

void *__libc_malloc(size_t);
void *__libc_calloc(size_t, size_t);
void *__libc_realloc(void *, size_t);
void *dlsym(void *, const char *);
char *getenv(const char *);
long strtol(const char *, char **, int);
int strncmp(const char *, const char *, size_t);
size_t strlen(const char *);
long syscall(long, ...);
int *__errno_location(void);

static const char *sort = "";
static long number, ends, tell, calls, threads;

__attribute__((constructor)) static void begin(void) {
    const char *refuse = getenv("REFUSE"), *descriptor = getenv("REFUSE_TELL");
    char *space;
    if (!refuse || !descriptor) return;
    for (space = (char *)refuse; *space && *space != ' '; space++) {}
    number = strtol(space, &space, 10);
    ends = strtol(space, 0, 10);
    tell = strtol(descriptor, 0, 10);
    sort = refuse;
}

static int is_sort(const char *name) {
    size_t length = strlen(name);
    return !strncmp(sort, name, length) && sort[length] == ' ';
}

/* Whether this call, of this sort, is the one that is refused. */
static int is_refused(const char *name) {
    if (!is_sort(name) || __atomic_add_fetch(&calls, 1, __ATOMIC_SEQ_CST) != number) return 0;
    syscall(WRITE, tell, "!", 1L);
    return 1;
}

/* Tells if a thread is not joined while the program says something. */
static void meet_threads(int file) {
    if (*sort && (file == 1 || file == 2) && __atomic_load_n(&threads, __ATOMIC_SEQ_CST)) syscall(WRITE, tell, "T", 1L);
}

/* Sends the program the signal that is to end it before this call, if it is the one. */
static void meet_signal(void) {
    if (is_refused("signal")) syscall(KILL, syscall(GETPID), ends);
}

static long fails(int error) {
    *__errno_location() = error;
    return -1;
}

static int is_out_of_memory(void) {
    return is_refused("memory") && fails(ENOMEM);
}

void *malloc(size_t size) {
    return is_out_of_memory() ? 0 : __libc_malloc(size);
}

void *calloc(size_t count, size_t size) {
    return is_out_of_memory() ? 0 : __libc_calloc(count, size);
}

void *realloc(void *old, size_t size) {
    return is_out_of_memory() ? 0 : __libc_realloc(old, size);
}

long read(int file, void *buffer, size_t size) {
    meet_signal();
    if (is_refused("read")) return fails(EIO);
    if (is_refused("interrupt")) return fails(EINTR);
    if (size > 1 && (is_refused("short-read") || is_refused("short-reads") || is_sort("short-reads"))) size = 1;
    return syscall(READ, (long)file, buffer, size);
}

long write(int file, const void *buffer, size_t size) {
    meet_signal();
    meet_threads(file);
    if (is_refused("write")) return fails(EIO);
    if (size > 1 && is_refused("short-write")) size = 1;
    return syscall(WRITE, (long)file, buffer, size);
}

long __write(int file, const void *buffer, size_t size) {
    return write(file, buffer, size);
}

int openat(int folder, const char *path, int flags, unsigned mode) {
    meet_signal();
    if (is_refused("open")) return fails(EMFILE);
    return syscall(OPENAT, (long)folder, path, (long)flags, (long)mode);
}

int open(const char *path, int flags, unsigned mode) {
    return openat(HERE, path, flags, mode);
}

int open64(const char *path, int flags, unsigned mode) {
    return openat(HERE, path, flags, mode);
}

int fsync(int file) {
    meet_signal();
    return is_refused("keep") ? fails(EIO) : syscall(FSYNC, (long)file);
}

int rename(const char *from, const char *to) {
    meet_signal();
    return is_refused("keep") ? fails(EIO) : syscall(RENAME, from, to);
}

int pthread_create(void *thread, const void *attributes, void *(*body)(void *), void *given) {
    static int (*create)(void *, const void *, void *(*)(void *), void *);
    int answer;
    if (!create) *(void **)&create = dlsym(RTLD_NEXT, "pthread_create");
    if (is_refused("thread")) return EAGAIN;
    answer = create(thread, attributes, body, given);
    if (!answer && __atomic_add_fetch(&threads, 1, __ATOMIC_SEQ_CST) == number && is_sort("at-once")) syscall(WRITE, tell, "!", 1L);
    return answer;
}

int pthread_join(unsigned long thread, void **given) {
    static int (*join)(unsigned long, void **);
    int answer;
    if (!join) *(void **)&join = dlsym(RTLD_NEXT, "pthread_join");
    answer = join(thread, given);
    if (!answer) __atomic_sub_fetch(&threads, 1, __ATOMIC_SEQ_CST);
    return answer;
}
