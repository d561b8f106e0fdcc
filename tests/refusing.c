/* Refuses one request for memory of the program that it is loaded into (LD_PRELOAD), and counts them all.

   The file that REFUSING names has three words: which of the requests to come is refused (1 is the next one, 0 none), how
   many there were, and how many were refused. A test writes the first while the program runs. */
#include <errno.h>
#include <fcntl.h>
#include <stdatomic.h>
#include <stdlib.h>
#include <sys/mman.h>
#include <unistd.h>

/* What the C library's own calls are known by where these stand in their place. */
extern void *__libc_malloc(size_t size);
extern void *__libc_calloc(size_t count, size_t size);
extern void *__libc_realloc(void *block, size_t size);
extern void *__libc_memalign(size_t align, size_t size);

struct tally {
    atomic_long next, asked, refused;
};

static struct tally untold;
static struct tally *tally = &untold;

__attribute__((constructor)) static void begin(void) {
    const char *path = getenv("REFUSING");
    int file = path ? open(path, O_RDWR | O_CLOEXEC) : -1;
    if (file < 0)
        return;
    void *words = mmap(NULL, sizeof *tally, PROT_READ | PROT_WRITE, MAP_SHARED, file, 0);
    close(file);
    if (words != MAP_FAILED)
        tally = words;
}

/* Whether this request is the one. Of several threads that ask at once one alone gets each number. */
static int is_refused(void) {
    long next = atomic_load(&tally->next);
    atomic_fetch_add(&tally->asked, 1);
    while (next > 0 && !atomic_compare_exchange_weak(&tally->next, &next, next - 1))
        ;
    if (next != 1)
        return 0;
    atomic_fetch_add(&tally->refused, 1);
    errno = ENOMEM;
    return 1;
}

void *malloc(size_t size) { return is_refused() ? NULL : __libc_malloc(size); }

void *calloc(size_t count, size_t size) { return is_refused() ? NULL : __libc_calloc(count, size); }

void *realloc(void *block, size_t size) { return is_refused() ? NULL : __libc_realloc(block, size); }

void *memalign(size_t align, size_t size) { return is_refused() ? NULL : __libc_memalign(align, size); }

void *aligned_alloc(size_t align, size_t size) { return memalign(align, size); }

int posix_memalign(void **block, size_t align, size_t size) {
    void *made = memalign(align, size);
    if (made != NULL)
        *block = made;
    return made != NULL ? 0 : ENOMEM;
}
