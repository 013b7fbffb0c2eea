/* Faults made inside a program that is linked with the C library, to be loaded with LD_PRELOAD.
 *
 *   FAULT_GROWTH=N           the Nth growth of memory is refused
 *   FAULT_BOUND=N            each growth that asks for more than N octets at once is refused
 *   FAULT_CALL=recv|send     which calls on sockets are counted, those of all threads together
 *   FAULT_PLACE=K            at which of these calls the fault is made
 *   FAULT_KIND=KIND          what is made there:
 *     reset      the call answers ECONNRESET once, and the socket stays
 *     interrupt  the call answers EINTR once
 *     end        the call answers 0 once: the end of the octets, where it is a recv
 *     one        this call and all later ones move one octet at most
 *     wait       the call begins half a second late
 *     cut        the connection is reset, so that both ends see it
 *     half       this end says that it writes no more
 *     deaf       this end says that it reads no more
 *     shut       this end says both
 *   FAULT_THREAD=N           the Nth thread is not made
 *   FAULT_TOLD=FILE          at exit the counts of growths, recvs, sends and threads are written there, how many
 *                            faults were made, how many blocks were not given back, how many bytes were asked for
 *                            in all, and the most bytes that were held at once, both without the blocks of 16 MiB
 *                            and more: at its start a program asks for such a block and gives it back
 *
 * Growths are those of the two C functions that allocate for Rattle's `Global`. They are called directly, so they
 * cannot be interposed: their code, and that of the function that gives blocks back, is overwritten before the program
 * begins. */
#define _GNU_SOURCE
#include <dlfcn.h>
#include <elf.h>
#include <errno.h>
#include <fcntl.h>
#include <link.h>
#include <malloc.h>
#include <pthread.h>
#include <stdatomic.h>
#include <stdio.h>
#include <stdlib.h>
#include <string.h>
#include <sys/mman.h>
#include <sys/socket.h>
#include <sys/stat.h>
#include <sys/uio.h>
#include <time.h>
#include <unistd.h>

static atomic_long growths, recvs, sends, threads, made;
static atomic_long blocks, asked, held, most;
static long growth_place, bound, call_place, thread_place;
static const char *kind = "", *counted = "", *told;

/* What both functions answer: whether there is memory, and where. */
struct room {
    long is_there;
    void *place;
};

static char nothing;

static int is_refused(size_t size) {
    int is_due = atomic_fetch_add(&growths, 1) + 1 == growth_place;
    if (!is_due && (!bound || size <= (size_t)bound))
        return 0;
    atomic_fetch_add(&made, 1);
    return 1;
}

static struct room room_of(void *place) {
    return place ? (struct room){1, place} : (struct room){0, &nothing};
}

static long counted_size(void *place) {
    long size = place ? malloc_usable_size(place) : 0;
    return size < 16 << 20 ? size : 0;
}

/* Counts a block that grew by this many bytes. */
static void count(long more) {
    long now = atomic_fetch_add(&held, more) + more;
    long before = most;
    if (more > 0)
        atomic_fetch_add(&asked, more);
    while (now > before && !atomic_compare_exchange_weak(&most, &before, now))
        ;
}

static struct room grow(size_t size, size_t align) {
    void *place = is_refused(size) ? NULL : malloc(size ? size : align);
    if (place) {
        atomic_fetch_add(&blocks, 1);
        count(counted_size(place));
    }
    return room_of(place);
}

/* A block that shrinks is not counted as a growth. */
static struct room grow_again(void *place, size_t old, size_t size, size_t align) {
    if (size > old && is_refused(size))
        return room_of(NULL);
    long before = counted_size(place);
    void *now = realloc(place, size ? size : align);
    if (now)
        count(counted_size(now) - before);
    return room_of(now);
}

static void give_back(void *place) {
    atomic_fetch_sub(&blocks, 1);
    count(-counted_size(place));
    free(place);
}

static void overwrite(unsigned char *code, void *with) {
    unsigned char jump[12] = {0x48, 0xb8, 0, 0, 0, 0, 0, 0, 0, 0, 0xff, 0xe0};
    long page = sysconf(_SC_PAGESIZE);
    unsigned char *from = (unsigned char *)((size_t)code & -page);
    memcpy(jump + 2, &with, 8);
    if (mprotect(from, 2 * page, PROT_READ | PROT_WRITE | PROT_EXEC))
        _exit(99);
    memcpy(code, jump, sizeof jump);
    mprotect(from, 2 * page, PROT_READ | PROT_EXEC);
}

static int first_object(struct dl_phdr_info *info, size_t size, void *base) {
    (void)size;
    *(size_t *)base = info->dlpi_addr;
    return 1;
}

/* The functions' addresses stand in the symbol table of the program's file. */
static void replace_growths(void) {
    int file = open("/proc/self/exe", O_RDONLY);
    struct stat about;
    size_t base = 0;
    dl_iterate_phdr(first_object, &base);
    if (file < 0 || fstat(file, &about))
        return;
    char *octets = mmap(NULL, about.st_size, PROT_READ, MAP_PRIVATE, file, 0);
    close(file);
    if (octets == MAP_FAILED)
        return;
    Elf64_Ehdr *head = (Elf64_Ehdr *)octets;
    Elf64_Shdr *sections = (Elf64_Shdr *)(octets + head->e_shoff);
    for (int i = 0; i < head->e_shnum; i++) {
        if (sections[i].sh_type != SHT_SYMTAB)
            continue;
        Elf64_Sym *symbols = (Elf64_Sym *)(octets + sections[i].sh_offset);
        char *names = octets + sections[sections[i].sh_link].sh_offset;
        for (size_t j = 0; j < sections[i].sh_size / sizeof *symbols; j++) {
            if (!strcmp(names + symbols[j].st_name, "rattle_alloc"))
                overwrite((unsigned char *)base + symbols[j].st_value, grow);
            if (!strcmp(names + symbols[j].st_name, "rattle_realloc"))
                overwrite((unsigned char *)base + symbols[j].st_value, grow_again);
            if (!strcmp(names + symbols[j].st_name, "rattle_dealloc"))
                overwrite((unsigned char *)base + symbols[j].st_value, give_back);
        }
    }
    munmap(octets, about.st_size);
}

static long number(const char *name) {
    const char *word = getenv(name);
    return word ? atol(word) : 0;
}

static const char *word(const char *name) {
    const char *word = getenv(name);
    return word ? word : "";
}

__attribute__((constructor)) static void begin(void) {
    growth_place = number("FAULT_GROWTH");
    bound = number("FAULT_BOUND");
    call_place = number("FAULT_PLACE");
    thread_place = number("FAULT_THREAD");
    counted = word("FAULT_CALL");
    kind = word("FAULT_KIND");
    told = getenv("FAULT_TOLD");
    replace_growths();
}

static void tell(void) {
    FILE *file = told ? fopen(told, "w") : NULL;
    if (!file)
        return;
    fprintf(file, "%ld %ld %ld %ld %ld %ld %ld %ld\n", growths, recvs, sends, threads, made, blocks, asked, most);
    fclose(file);
}

__attribute__((destructor)) static void end(void) { tell(); }

/* A program may end by _exit, which runs no destructor. */
void _exit(int status) {
    void (*real)(int) = dlsym(RTLD_NEXT, "_exit");
    tell();
    real(status);
    __builtin_unreachable();
}

static int is(const char *name) { return !strcmp(kind, name); }

/* What the fault makes of a call of this length: 0 to go on with the length, else the call's answer is `answer`. */
static int fault(int socket, long count, size_t *length, ssize_t *answer) {
    if (is("one") && count >= call_place) {
        if (*length > 1)
            *length = 1;
        atomic_fetch_add(&made, 1);
        return 0;
    }
    if (count != call_place)
        return 0;
    atomic_fetch_add(&made, 1);
    if (is("reset") || is("interrupt")) {
        errno = is("reset") ? ECONNRESET : EINTR;
        *answer = -1;
        return 1;
    }
    if (is("end")) {
        *answer = 0;
        return 1;
    }
    if (is("wait"))
        nanosleep(&(struct timespec){0, 500000000}, NULL);
    /* To connect to no address resets the connection that there is. */
    if (is("cut"))
        connect(socket, &(struct sockaddr){.sa_family = AF_UNSPEC}, sizeof(struct sockaddr));
    if (is("half"))
        shutdown(socket, SHUT_WR);
    if (is("deaf"))
        shutdown(socket, SHUT_RD);
    if (is("shut"))
        shutdown(socket, SHUT_RDWR);
    return 0;
}

ssize_t recv(int socket, void *octets, size_t length, int flags) {
    static ssize_t (*real)(int, void *, size_t, int);
    ssize_t answer;
    if (!real)
        real = dlsym(RTLD_NEXT, "recv");
    long count = atomic_fetch_add(&recvs, 1) + 1;
    if (!strcmp(counted, "recv") && fault(socket, count, &length, &answer))
        return answer;
    return real(socket, octets, length, flags);
}

ssize_t send(int socket, const void *octets, size_t length, int flags) {
    static ssize_t (*real)(int, const void *, size_t, int);
    ssize_t answer;
    if (!real)
        real = dlsym(RTLD_NEXT, "send");
    long count = atomic_fetch_add(&sends, 1) + 1;
    if (!strcmp(counted, "send") && fault(socket, count, &length, &answer))
        return answer;
    return real(socket, octets, length, flags);
}

/* A write of several pieces. Of one that is made short, the first piece that is not empty goes, as far as it may. */
ssize_t sendmsg(int socket, const struct msghdr *message, int flags) {
    static ssize_t (*real)(int, const struct msghdr *, int);
    size_t whole = 0, length;
    ssize_t answer;
    if (!real)
        real = dlsym(RTLD_NEXT, "sendmsg");
    for (size_t at = 0; at < message->msg_iovlen; at++)
        whole += message->msg_iov[at].iov_len;
    length = whole;
    long count = atomic_fetch_add(&sends, 1) + 1;
    if (!strcmp(counted, "send") && fault(socket, count, &length, &answer))
        return answer;
    for (size_t at = 0; length < whole && at < message->msg_iovlen; at++) {
        struct iovec piece = message->msg_iov[at];
        struct msghdr less = *message;
        if (!piece.iov_len)
            continue;
        piece.iov_len = piece.iov_len < length ? piece.iov_len : length;
        less.msg_iov = &piece;
        less.msg_iovlen = 1;
        return real(socket, &less, flags);
    }
    return real(socket, message, flags);
}

int pthread_create(pthread_t *thread, const pthread_attr_t *how, void *(*run)(void *), void *with) {
    static int (*real)(pthread_t *, const pthread_attr_t *, void *(*)(void *), void *);
    if (!real)
        real = dlsym(RTLD_NEXT, "pthread_create");
    if (atomic_fetch_add(&threads, 1) + 1 == thread_place) {
        atomic_fetch_add(&made, 1);
        return EAGAIN;
    }
    return real(thread, how, run, with);
}
