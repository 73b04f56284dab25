"""The library that refuses a program one call of the system, which tools/sweep and tools/again put before the C library.

It refuses the call whose number among those of its kind is REFUSED_NUMBER, and writes into the file REFUSED_TOLD the stream and the name of that call's file,
where it has any. So that file is there if there was such a call.

Where REFUSED_EACH names a file, many calls are refused in one run: a child begins there, which goes on with that call refused and writes elsewhere, and when it
has ended the program goes on as if nothing had been refused. The file gets what became of each child. Such a program writes no files and reads its input from
one, and once it has begun a thread no more children begin. The calls are those behind number REFUSED_FROM, up to REFUSED_TO, one in REFUSED_PARTS, which are
part REFUSED_PART of them; a child numbered 0 tells that there was a call behind these.

What a child writes into the system copies first, so such a program has its memory from the library, which keeps what it knows of a piece apart from it: to give
back a million pieces is to write few pages. One that is given back twice, or that was none, ends the program by a signal. A piece is
written over when it is given back: behind LARGE calls in one child of REFUSED_SPOILED.
"""
import dataclasses
import os
import re
import shutil
import subprocess

# Behind so many growths a sweep may have what is given back written over in few children: of a program of 100 MB the system copies all of it first.
LARGE = 10_000
TEXT = r"""
typedef unsigned long size;
typedef struct { char *base; size length; } part;
extern void *__libc_malloc(size), *__libc_calloc(size, size), *__libc_realloc(void *, size), *__libc_memalign(size, size), __libc_free(void *);
extern char *getenv(const char *);
extern long syscall(long, ...);
extern int *__errno_location(void), sprintf(char *, const char *, ...), strcmp(const char *, const char *), atoi(const char *);
extern size strlen(const char *);
extern void *dlsym(void *, const char *), *memcpy(void *, const void *, size), *memset(void *, int, size);
enum { READ = 0, WRITE = 1, OPEN = 2, CLOSE = 3, LSEEK = 8, PREAD = 17, PWRITE = 18, READV = 19, WRITEV = 20, DUP2 = 33, ALARM = 37, EXIT = 231 };
enum { MMAP = 9, MADVISE = 28, GETPID = 39, WAIT4 = 61, KILL = 62, FCNTL = 72, FSYNC = 74, FDATASYNC = 75, FTRUNCATE = 77, RENAME = 82, READLINK = 89, MEMFD = 319 };
extern int fork(void);
static const char *kind, *told;
static int number, count, each = -1, from, to, parts = 1, part_of_them, is_threaded;
/* What a child writes on standard output and on standard error, and how much the program has written there. */
static int of_child[3];
static long written[3];

/* Gives a file a number that the program does not come to. */
static int far(long file) {
    int moved = (int)syscall(FCNTL, file, 0, 500L);
    syscall(CLOSE, file);
    return moved;
}

/* The memory of a program in which children begin: slabs, each with pieces of one class, all of which are of one size. What is known of a piece stands apart from it. */
enum { SLAB = 1 << 18, SLABS = 1 << 16, CLASSES = 128, SMALL = 64 };
#define ARENA ((size)SLABS * SLAB)
static char *arena, *next[CLASSES], *end[CLASSES];
static unsigned char class_of[SLABS];
/* A bit for each 16 bytes: whether a piece that is given out begins there. */
static size *is_out;
/* Where the pieces begin that were given back, in 16 bytes, by their class. */
static unsigned *back[CLASSES];
static size count_back[CLASSES], slabs;
static int is_taken, spoils = 1, spoiled = 1;

static void turn(void) {
    while (is_threaded && __atomic_exchange_n(&is_taken, 1, 2)) {}
}
static void end_turn(void) {
    if (is_threaded) __atomic_store_n(&is_taken, 0, 3);
}

static void *room(size n) { return (void *)syscall(MMAP, 0L, n, 3L, 0x4022L, -1L, 0L); }

static void begin_memory(void) {
    is_out = room(ARENA / 128);
    char *it = room(ARENA + (2 << 20));
    arena = it + (-(size)it & ((2 << 20) - 1));
    /* A child of a program of 100 MB in large pages begins and ends in a tenth of the time. */
    syscall(MADVISE, arena + SMALL * (size)SLAB, ARENA - SMALL * (size)SLAB, 14L);
}

/* A piece has 16, 32, .. 128 bytes, and behind that there are four sizes up to each power of two. */
static size size_of(int class) { return class < 8 ? 16 * (size)(class + 1) : (size)(128 + 32 * ((class - 8) % 4 + 1)) << (class - 8) / 4; }

static int class_for(size n) {
    if (n <= 128) return n ? (int)(n - 1) / 16 : 0;
    int top = 63 - __builtin_clzl(n - 1);
    return 8 + 4 * (top - 7) + (int)((n - 1) >> (top - 2) & 3);
}

static int is_ours(const void *of) { return arena && (size)((const char *)of - arena) < ARENA; }

static void *take(int class) {
    size n = size_of(class), many = (n + SLAB - 1) / SLAB;
    char *it = 0;
    turn();
    if (count_back[class]) {
        it = arena + 16 * (size)back[class][--count_back[class]];
    } else {
        if (next[class] + n > end[class] && slabs + many <= SLABS) {
            next[class] = arena + slabs * SLAB;
            end[class] = next[class] + many * SLAB;
            class_of[slabs] = class;
            slabs += many;
        }
        if (next[class] + n <= end[class]) {
            it = next[class];
            next[class] += n;
        }
    }
    size at = (it - arena) / 16;
    if (it) is_out[at / 64] |= 1UL << at % 64;
    end_turn();
    return it;
}

static void give(char *of) {
    size at = (of - arena) / 16, bit = 1UL << at % 64, *word = &is_out[at / 64];
    turn();
    if ((size)of % 16 || !(*word & bit)) syscall(KILL, syscall(GETPID), 6L);
    *word &= ~bit;
    int class = class_of[(of - arena) / SLAB];
    if (spoils) memset(of, 0xdb, size_of(class));
    if (!back[class]) back[class] = room(ARENA / size_of(class) * 4);
    back[class][count_back[class]++] = at;
    end_turn();
}

static void *got(size n) { return !arena ? __libc_malloc(n) : n < ARENA ? take(class_for(n)) : 0; }

__attribute__((constructor)) static void begin(void) {
    const char *which = getenv("REFUSED_NUMBER"), *where = getenv("REFUSED_EACH");
    told = getenv("REFUSED_TOLD");
    number = which ? atoi(which) : 0;
    kind = getenv("REFUSED_KIND");
    if (!where) return;
    from = atoi(getenv("REFUSED_FROM"));
    to = atoi(getenv("REFUSED_TO"));
    parts = atoi(getenv("REFUSED_PARTS"));
    part_of_them = atoi(getenv("REFUSED_PART"));
    spoiled = atoi(getenv("REFUSED_SPOILED"));
    begin_memory();
    each = far(syscall(OPEN, where, 02101, 0600));
    for (int s = 1; s <= 2; s++) of_child[s] = far(syscall(MEMFD, "child", 0L));
}

/* Gives a child files of its own, open at the same places, so that the program reads on where it was. */
static void part_files(void) {
    char name[40];
    for (int s = 0; s < 100; s++) {
        long at = s == 1 || s == 2 ? -1 : syscall(LSEEK, (long)s, 0L, 1L);
        if (at < 0) continue;
        sprintf(name, "/proc/self/fd/%d", s);
        long own = syscall(OPEN, name, syscall(FCNTL, (long)s, 3L, 0L) & ~03300L, 0L);
        if (own < 0) continue;
        syscall(LSEEK, own, at, 0L);
        syscall(DUP2, own, (long)s);
        syscall(CLOSE, own);
    }
}

/* Writes what a child wrote to one of its files behind the report, and empties the file. */
static void keep(int file, long count) {
    static char some[65536];
    for (long at = 0, got; at < count && (got = syscall(PREAD, (long)file, some, sizeof some, at)) > 0; at += got) syscall(WRITE, (long)each, some, got);
    syscall(FTRUNCATE, (long)file, 0L);
    syscall(LSEEK, (long)file, 0L, 0L);
}

/* Whether this is the child for which the call is refused. The program waits for it, and reports it. */
static int is_child(void) {
    char line[200];
    int this = ++count, status = 0;
    if (is_threaded || this <= from) return 0;
    if (this > to) {
        if (this == to + 1) syscall(WRITE, (long)each, "0 0 0 0 0 0\n", 12L);
        return 0;
    }
    if (this % parts != part_of_them) return 0;
    long child = fork();
    if (child < 0) syscall(EXIT, 99L);
    if (!child) {
        kind = 0;
        spoils = this <= LARGE || this % spoiled == 0;
        for (int s = 1; s <= 2; s++) syscall(DUP2, (long)of_child[s], (long)s);
        part_files();
        syscall(ALARM, 120L);
        return 1;
    }
    syscall(WAIT4, child, &status, 0L, 0L);
    long output = syscall(LSEEK, (long)of_child[1], 0L, 2L), errors = syscall(LSEEK, (long)of_child[2], 0L, 2L);
    sprintf(line, "%d %d %ld %ld %ld %ld\n", this, status, written[1], written[2], output, errors);
    syscall(WRITE, (long)each, line, strlen(line));
    keep(of_child[1], output);
    keep(of_child[2], errors);
    return 0;
}

static long counted(int stream, long moved) {
    if (each >= 0 && moved > 0 && (stream == 1 || stream == 2)) written[stream] += moved;
    return moved;
}

static int is_refused(const char *of, int stream, const char *name) {
    char line[300] = "", link[40];
    if (!kind || strcmp(kind, of)) return 0;
    if (each >= 0) return is_child();
    if (__atomic_add_fetch(&count, 1, 5) != number) return 0;
    long file = syscall(OPEN, told, 02101, 0600);
    if (name) {
        sprintf(line, "- %.200s", name);
    } else if (stream >= 0) {
        sprintf(link, "/proc/self/fd/%d", stream);
        size front = sprintf(line, "%d ", stream);
        syscall(READLINK, link, line + front, sizeof line - front - 1);
    }
    syscall(WRITE, file, line, strlen(line));
    syscall(WRITE, file, "\n", 1L);
    syscall(CLOSE, file);
    return 1;
}

static int is_failed(const char *of, int stream, int error) {
    if (!is_refused(of, stream, 0)) return 0;
    *__errno_location() = error;
    return 1;
}

void *malloc(size n) { return is_failed("growth", -1, 12) ? 0 : got(n); }
void *calloc(size n, size of) {
    size all;
    if (is_failed("growth", -1, 12) || __builtin_mul_overflow(n, of, &all)) return 0;
    if (!arena) return __libc_calloc(n, of);
    void *it = got(all);
    return it ? memset(it, 0, all) : 0;
}
void free(void *of) {
    if (is_ours(of)) give(of);
    else __libc_free(of);
}
void *realloc(void *at, size n) {
    if (is_failed("growth", -1, 12)) return 0;
    if (at && !is_ours(at)) return __libc_realloc(at, n);
    if (!at) return got(n);
    int class = class_of[((char *)at - arena) / SLAB];
    if (class_for(n) == class) return at;
    void *it = got(n);
    if (!it) return 0;
    memcpy(it, at, n < size_of(class) ? n : size_of(class));
    give(at);
    return it;
}
void *memalign(size to, size n) {
    if (is_failed("growth", -1, 12)) return 0;
    if (!arena) return __libc_memalign(to, n);
    /* (a piece whose size is a power of two stands at a multiple of it) */
    size all = to > n ? to : n, power = 16;
    while (power < all) power *= 2;
    return got(power);
}
void *aligned_alloc(size to, size n) { return memalign(to, n); }
size malloc_usable_size(void *of) {
    size (*real)(void *);
    if (is_ours(of)) return size_of(class_of[((char *)of - arena) / SLAB]);
    real = (size (*)(void *))dlsym((void *)-1L, "malloc_usable_size");
    return of ? real(of) : 0;
}
int posix_memalign(void **at, size to, size n) { return (*at = memalign(to, n)) ? 0 : 12; }

long read(int s, void *to, size n) {
    if (is_failed("read", s, 5)) return -1;
    return syscall(READ, s, to, n > 1 && is_refused("short-read", s, 0) ? 1L : n);
}
long pread(int s, void *to, size n, long at) {
    if (is_failed("read", s, 5)) return -1;
    return syscall(PREAD, s, to, n > 1 && is_refused("short-read", s, 0) ? 1L : n, at);
}
long readv(int s, const part *of, int n) { return is_failed("read", s, 5) ? -1 : syscall(READV, s, of, (long)n); }
long write(int s, const void *of, size n) {
    if (is_failed("write", s, 28)) return -1;
    return counted(s, syscall(WRITE, s, of, n > 1 && is_refused("short-write", s, 0) ? 1L : n));
}
long pwrite(int s, const void *of, size n, long at) {
    if (is_failed("write", s, 28)) return -1;
    return syscall(PWRITE, s, of, n > 1 && is_refused("short-write", s, 0) ? 1L : n, at);
}
long writev(int s, const part *of, int n) {
    if (is_failed("write", s, 28)) return -1;
    if (n > 0 && of->length > 0 && is_refused("short-write", s, 0)) return syscall(WRITE, s, of->base, 1L);
    return counted(s, syscall(WRITEV, s, of, (long)n));
}
int open(const char *name, int how, int rights) {
    if (!is_refused("open", -1, name)) return syscall(OPEN, name, how, rights);
    *__errno_location() = 24;
    return -1;
}
int rename(const char *from, const char *to) { return is_failed("rename", -1, 28) ? -1 : syscall(RENAME, from, to); }
int pthread_create(void *thread, const void *how, void *(*work)(void *), void *with) {
    int (*real)(void *, const void *, void *(*)(void *), void *) = dlsym((void *)-1L, "pthread_create");
    is_threaded = 1;
    return is_refused("thread", -1, 0) ? 11 : real(thread, how, work, with);
}
int fsync(int s) { return is_failed("sync", s, 5) ? -1 : (int)syscall(FSYNC, s); }
int fdatasync(int s) { return is_failed("sync", s, 5) ? -1 : (int)syscall(FDATASYNC, s); }
"""


def library(room):
    """Makes the library in this folder, and returns its name: None where neither the kit's clang nor `cc` makes it."""
    rt = shutil.which("rt")
    kit = os.path.join(os.path.dirname(os.path.dirname(os.path.realpath(rt))), "toolchain/bin/clang") if rt else ""
    source, made = f"{room}/refuser.c", f"{room}/refuser.so"
    with open(source, "w", encoding="utf-8") as it:
        it.write(f"enum {{ LARGE = {LARGE} }};{TEXT}")
    flags = ["-shared", "-fPIC", "-O2", "-nostdlib", "-fno-builtin", "-w", source, "-o", made]
    for compiler in ([kit, "-fuse-ld=lld"] if os.path.exists(kit) else None, ["cc"]):
        if compiler and not subprocess.run([*compiler, *flags], stdin=subprocess.DEVNULL, capture_output=True, check=False).returncode:
            return made
    return None


def environment(made, kind, told):
    """Returns the environment of a program of which a call of this kind is refused: that of no number yet."""
    return {"PATH": "/usr/local/bin:/usr/bin:/bin", "LANG": "C.UTF-8", "LD_PRELOAD": made, "REFUSED_KIND": kind, "REFUSED_TOLD": told}


@dataclasses.dataclass
class Child:
    """What became of a program from the call on that it was refused: the number of the call, its status, and what it wrote behind what had been written."""

    number: int
    status: int
    written: tuple
    output: bytes
    errors: bytes

    def answer(self, output, errors):
        """Returns the whole answer, with the front of what the program itself wrote in the end."""
        return self.status, output[: self.written[0]] + self.output, errors[: self.written[1]] + self.errors


def children(report):
    """Returns what became of each child of a run, from its report."""
    with open(report, "rb") as it:
        text = it.read()
    found, at = [], 0
    while at < len(text):
        line = re.compile(rb"(\d+) (\d+) (\d+) (\d+) (\d+) (\d+)\n").match(text, at)
        number, status, *written, output, errors = map(int, line.groups())
        at = line.end()
        found.append(Child(number, os.waitstatus_to_exitcode(status), tuple(written), text[at : at + output], text[at + output : at + output + errors]))
        at += output + errors
    return found
