/* Preloaded into a program: refuses one allocation, or all from one on, as the system does where memory is short.
 *
 * REFUSE is the number of the allocation, counted from 1; REFUSE_ALL is set where all later ones are refused too; and
 * the file that REFUSED names is made when one is refused. */
#include <errno.h>
#include <fcntl.h>
#include <stddef.h>
#include <stdlib.h>
#include <unistd.h>

extern void *__libc_malloc(size_t size);
extern void *__libc_calloc(size_t count, size_t size);
extern void *__libc_realloc(void *old, size_t size);
extern void *__libc_memalign(size_t alignment, size_t size);

static long number, wanted = -1;

static int is_refused(void)
{
    const char *text, *file;
    int made;

    if (wanted < 0) {
        text = getenv("REFUSE");
        wanted = text ? atol(text) : 0;
    }
    number++;
    if (wanted == 0 || number < wanted || (number > wanted && !getenv("REFUSE_ALL")))
        return 0;
    file = getenv("REFUSED");
    if (file && (made = open(file, O_CREAT | O_WRONLY, 0600)) >= 0)
        close(made);
    errno = ENOMEM;
    return 1;
}

void *malloc(size_t size)
{
    return is_refused() ? NULL : __libc_malloc(size);
}

void *calloc(size_t count, size_t size)
{
    return is_refused() ? NULL : __libc_calloc(count, size);
}

void *realloc(void *old, size_t size)
{
    return is_refused() ? NULL : __libc_realloc(old, size);
}

void *memalign(size_t alignment, size_t size)
{
    return is_refused() ? NULL : __libc_memalign(alignment, size);
}

void *aligned_alloc(size_t alignment, size_t size)
{
    return memalign(alignment, size);
}

int posix_memalign(void **result, size_t alignment, size_t size)
{
    void *made = memalign(alignment, size);

    if (!made)
        return ENOMEM;
    *result = made;
    return 0;
}
