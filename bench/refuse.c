/* A library that refuses one allocation of a program: the one of the number that REFUSE says, counted from 1, whichever
 * thread makes it. At its end the program says on its third stream how many there were, and how many of them were refused.
 *
 * With REFUSE_TO it refuses many, each in a copy of the program that is made at that allocation and goes on to its end:
 * those of the numbers REFUSE, REFUSE + REFUSE_STEP and so on. What came of each stands in the file REFUSE_TO: a line
 * `NUMBER STATUS END OUT ERR HASH KIND`, where STATUS is the copy's as wait(2) has it, END is 1 where it ended by itself,
 * and OUT and ERR are the lengths of what it wrote on its streams in all; what it wrote follows where KIND is new. Only a
 * program of one thread, whose first three streams are files, can be copied so. See bench/memory and bench/refused.
 *
 * Numbers say nothing of the place in the program that wants the memory. So each allocation has a site too: a hash of
 * the innermost return addresses into the program that lie on its stack. With REFUSE_SITES the program writes at its end
 * a line `SITE COUNT` for each site into that file. With REFUSE_SITE, a site, the allocation of the number REFUSE among
 * those of that site is refused, whatever thread makes it and however threads take turns. With REFUSE_FROM each
 * allocation from that number on is refused, of the site where one is said. See bench/sites. */
#define _GNU_SOURCE
#include <fcntl.h>
#include <link.h>
#include <stdint.h>
#include <stdio.h>
#include <stdlib.h>
#include <sys/mman.h>
#include <sys/stat.h>
#include <sys/syscall.h>
#include <sys/wait.h>
#include <unistd.h>

extern void *__libc_malloc(size_t size);
extern void *__libc_realloc(void *place, size_t size);

enum { LINE = 200, KNOWN = 1 << 16, OPEN = 64, SECONDS = 120, SITES = 1 << 14, DEPTH = 4, WORDS = 256 };

/* A place of the program that wants memory, and how often it did. */
struct site {
    uint64_t name;
    long count;
};

extern void *__libc_stack_end;

static long made, refused = -1, from, step, denied;
static uint64_t wanted;
static const char *sites_to;
static struct site sites[SITES];
static int is_held;
static uintptr_t text_begin, text_end, text_base;
static int to = -1, is_copy, is_over, streams[3];
static int *has_ended;
static uint64_t known[KNOWN];

static void stop(const char *why) {
    dprintf(2, "refuse: %s\n", why);
    for (;;) syscall(SYS_exit_group, 99);
}

static void put(int file, const char *bytes, size_t length) {
    while (length > 0) {
        ssize_t wrote = write(file, bytes, length);
        if (wrote <= 0) stop("what is found cannot be written");
        bytes += wrote;
        length -= (size_t)wrote;
    }
}

/* What a file has, as it stands in memory. */
static char *bytes_of(int file, size_t *length) {
    struct stat found;
    if (fstat(file, &found) != 0) stop("a stream is no file");
    *length = (size_t)found.st_size;
    if (*length == 0) return NULL;
    char *bytes = mmap(NULL, *length, PROT_READ, MAP_SHARED, file, 0);
    if (bytes == MAP_FAILED) stop("a stream cannot be read");
    return bytes;
}

/* Copies what a stream has to the file that stands for it in the next copy. */
static void begin(int stream) {
    char room[1 << 16];
    off_t at = 0;
    ssize_t length;
    char path[40];
    snprintf(path, sizeof path, "/proc/self/fd/%d", stream);
    int from = open(path, O_RDONLY);
    if (from < 0 || ftruncate(streams[stream], 0) != 0 || lseek(streams[stream], 0, SEEK_SET) != 0) stop("a stream is no file");
    while ((length = pread(from, room, sizeof room, at)) > 0) {
        put(streams[stream], room, (size_t)length);
        at += length;
    }
    close(from);
}

/* In a copy: files are at the same places as in the program, and no longer move with its own. */
static void apart(void) {
    for (int file = 0; file < OPEN; file++) {
        struct stat found;
        if (file == 1 || file == 2) {
            if (dup2(streams[file], file) < 0) stop("a stream cannot be changed");
        } else if (file != to && file != streams[1] && file != streams[2] && fstat(file, &found) == 0 && S_ISREG(found.st_mode)) {
            char path[40];
            snprintf(path, sizeof path, "/proc/self/fd/%d", file);
            int own = open(path, fcntl(file, F_GETFL) & O_ACCMODE);
            if (own < 0 || lseek(own, lseek(file, 0, SEEK_CUR), SEEK_SET) < 0 || dup2(own, file) < 0) stop("a file cannot be opened again");
            close(own);
        }
    }
}

static uint64_t hash(uint64_t sum, const char *bytes, size_t length) {
    for (size_t at = 0; at < length; at++) sum = (sum ^ (unsigned char)bytes[at]) * 0x100000001b3u;
    return sum;
}

/* Whether this is the first with a hash. Where there are too many to remember, each is. */
static int is_new(uint64_t sum) {
    size_t at = (size_t)(sum % KNOWN);
    for (int look = 0; look < 64; look++, at = (at + 1) % KNOWN) {
        if (known[at] == sum) return 0;
        if (known[at] == 0) {
            known[at] = sum;
            return 1;
        }
    }
    return 1;
}

/* Refuses this allocation in a copy, and writes down what comes of it. Returns 1 in the copy. */
static int refuses_in_copy(long number) {
    begin(1);
    begin(2);
    *has_ended = 0;
    pid_t copy = fork();
    if (copy < 0) stop("no copy can be made");
    if (copy == 0) {
        is_copy = 1;
        apart();
        alarm(SECONDS);
        return 1;
    }
    int status;
    if (waitpid(copy, &status, 0) != copy) stop("a copy is lost");
    size_t lengths[3];
    char *bytes[3];
    uint64_t sum = 0xcbf29ce484222325u;
    for (int stream = 1; stream <= 2; stream++) {
        bytes[stream] = bytes_of(streams[stream], &lengths[stream]);
        sum = hash(sum ^ lengths[stream], bytes[stream], lengths[stream]);
    }
    char line[LINE];
    int fresh = is_new(sum);
    int length = snprintf(line, sizeof line, "%ld %d %d %zu %zu %016llx %s\n", number, status, *has_ended, lengths[1], lengths[2],
                          (unsigned long long)sum, fresh ? "new" : "known");
    put(to, line, (size_t)length);
    for (int stream = 1; stream <= 2; stream++) {
        if (fresh) put(to, bytes[stream], lengths[stream]);
        if (lengths[stream] > 0) munmap(bytes[stream], lengths[stream]);
    }
    return 0;
}

/* Where the program's own code lies: the first object that is loaded is the program. */
static int find_text(struct dl_phdr_info *found, size_t size, void *data) {
    (void)size, (void)data;
    for (int at = 0; at < found->dlpi_phnum; at++) {
        const ElfW(Phdr) *part = &found->dlpi_phdr[at];
        if (part->p_type == PT_LOAD && (part->p_flags & PF_X)) {
            text_base = found->dlpi_addr;
            text_begin = found->dlpi_addr + part->p_vaddr;
            text_end = text_begin + part->p_memsz;
        }
    }
    return 1;
}

/* Whether a word of the stack is an address behind a call: one whose target is near, or by a register or a place. */
static int is_behind_call(uintptr_t word) {
    if (word < text_begin + 7 || word >= text_end) return 0;
    const unsigned char *code = (const unsigned char *)word;
    if (code[-5] == 0xe8) return 1;
    return (code[-2] == 0xff && (code[-1] & 0x38) == 0x10) || (code[-3] == 0xff && (code[-2] & 0x38) == 0x10) ||
           (code[-6] == 0xff && (code[-5] & 0x38) == 0x10) || (code[-7] == 0xff && (code[-6] & 0x38) == 0x10);
}

/* The site of the allocation under way. Above the stack of a thread lies what the C library keeps of it, so that these
 * words can be read; that of the first thread has an end of its own. */
static uint64_t site(void) {
    const uintptr_t *at = __builtin_frame_address(0), *end = at + WORDS;
    if (syscall(SYS_gettid) == getpid() && end > (const uintptr_t *)__libc_stack_end) end = __libc_stack_end;
    uint64_t sum = 0xcbf29ce484222325u;
    for (int depth = 0; depth < DEPTH && at < end; at++)
        if (is_behind_call(*at)) {
            uintptr_t offset = *at - text_base;
            sum = hash(sum, (const char *)&offset, sizeof offset);
            depth++;
        }
    return sum;
}

/* Counts an allocation of a site, and returns its number there. */
static long count(uint64_t name) {
    while (__atomic_exchange_n(&is_held, 1, __ATOMIC_ACQUIRE)) {}
    size_t at = (size_t)(name % SITES);
    int look = 0;
    while (sites[at].count > 0 && sites[at].name != name && look++ < SITES) at = (at + 1) % SITES;
    if (look > SITES) stop("there are too many sites");
    sites[at].name = name;
    long number = ++sites[at].count;
    __atomic_store_n(&is_held, 0, __ATOMIC_RELEASE);
    return number;
}

static void look(void) {
    /* Two threads that come here at once find the same number. */
    const char *text = getenv("REFUSE"), *by = getenv("REFUSE_STEP"), *path = getenv("REFUSE_TO");
    const char *name = getenv("REFUSE_SITE"), *first = getenv("REFUSE_FROM");
    sites_to = getenv("REFUSE_SITES");
    wanted = name ? strtoull(name, NULL, 16) : 0;
    from = first ? atol(first) : 0;
    if (name || sites_to) dl_iterate_phdr(find_text, NULL);
    if (path) {
        to = open(path, O_WRONLY | O_CREAT | O_TRUNC | O_CLOEXEC, 0600);
        streams[1] = memfd_create("out", MFD_CLOEXEC);
        streams[2] = memfd_create("err", MFD_CLOEXEC);
        has_ended = mmap(NULL, sizeof *has_ended, PROT_READ | PROT_WRITE, MAP_SHARED | MAP_ANONYMOUS, -1, 0);
        step = by ? atol(by) : 1;
        if (to < 0 || streams[1] < 0 || streams[2] < 0 || has_ended == MAP_FAILED || step < 1) stop("nothing can be written down");
    }
    __atomic_store_n(&refused, text ? atol(text) : 0, __ATOMIC_RELAXED);
}

static int refuses(void) {
    if (__atomic_load_n(&refused, __ATOMIC_RELAXED) < 0) look();
    long number = __atomic_add_fetch(&made, 1, __ATOMIC_RELAXED);
    if ((sites_to || wanted) && !is_over) {
        uint64_t name = site();
        long own = count(name);
        if (wanted) return name == wanted && (own == refused || (from > 0 && own >= from));
    }
    if (from > 0 && number >= from) return 1;
    if (to < 0) return number == refused;
    return !is_copy && !is_over && number >= refused && (number - refused) % step == 0 && refuses_in_copy(number);
}

static int is_denied(void) {
    int is_so = refuses();
    if (is_so) __atomic_add_fetch(&denied, 1, __ATOMIC_RELAXED);
    return is_so;
}

void *malloc(size_t size) {
    return is_denied() ? NULL : __libc_malloc(size);
}

void *realloc(void *place, size_t size) {
    return is_denied() ? NULL : __libc_realloc(place, size);
}

__attribute__((destructor)) static void say(void) {
    if (is_copy) {
        *has_ended = 1;
        return;
    }
    /* (what the end itself takes is not the program's) */
    is_over = 1;
    int file = sites_to ? open(sites_to, O_WRONLY | O_CREAT | O_TRUNC | O_CLOEXEC, 0600) : -1;
    for (int at = 0; file >= 0 && at < SITES; at++)
        if (sites[at].count > 0) dprintf(file, "%016llx %ld\n", (unsigned long long)sites[at].name, sites[at].count);
    dprintf(2, "\nallocations %ld refused %ld\n", made, denied);
}

/* A program that has a status of its own ends by this call, and no destructor runs. */
void _exit(int status) {
    say();
    for (;;) syscall(SYS_exit_group, status);
}
