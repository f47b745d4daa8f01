/* The C library's malloc and realloc for c/check: the request whose number REFUSE says is refused, and all others are met.
 * If there was one of that number, the last line on standard error says so. */
#include <stdio.h>
#include <stdlib.h>

void *__real_malloc(size_t size);
void *__real_realloc(void *block, size_t size);
void *__wrap_malloc(size_t size);
void *__wrap_realloc(void *block, size_t size);

static int is_refused(void) {
    static long asked = 0;
    const char *refuse = getenv("REFUSE");
    asked++;
    if (refuse == NULL || asked != strtol(refuse, NULL, 10))
        return 0;
    fprintf(stderr, "refused\n");
    return 1;
}

void *__wrap_malloc(size_t size) {
    return is_refused() ? NULL : __real_malloc(size);
}

void *__wrap_realloc(void *block, size_t size) {
    return is_refused() ? NULL : __real_realloc(block, size);
}
