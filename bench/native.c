/* For bench/native. With -DSTART: the start of a program under the machine's own C library, on Arm. Otherwise the year's three functions: in the library's module a struct by value is a pointer, as it is for x86-64
 * code; on Arm C has another convention, so these stand between. */
#ifdef START

int main(int, char **);
int __libc_start_main(int (*)(int, char **), int, char **, void (*)(void), void (*)(void), void (*)(void), void *);

__attribute__((noreturn, used)) void begin(long *stack)
{
    __libc_start_main(main, stack[0], (char **)(stack + 1), 0, 0, 0, stack);
    __builtin_trap();
}

__attribute__((naked, noreturn)) void _start(void)
{
    __asm__("mov x29, #0\n\tmov x30, #0\n\tmov x0, sp\n\tb begin");
}

#else

#include "bonnetewe.h"

void module_year_begin(struct bonnetewe_year *to);
void module_year_add(struct bonnetewe_year *to, struct bonnetewe_year *year, const uint8_t *file, size_t length);
bonnetewe_answer module_year_close(struct bonnetewe_year *year, const uint8_t *zones, size_t zones_length, const uint8_t *blocks, size_t blocks_length);

struct bonnetewe_year bonnetewe_year_begin(void)
{
    struct bonnetewe_year to;

    module_year_begin(&to);
    return to;
}

struct bonnetewe_year bonnetewe_year_add(struct bonnetewe_year year, const uint8_t *file, size_t length)
{
    struct bonnetewe_year to;

    module_year_add(&to, &year, file, length);
    return to;
}

bonnetewe_answer bonnetewe_year_close(struct bonnetewe_year year, const uint8_t *zones, size_t zones_length, const uint8_t *blocks, size_t blocks_length)
{
    return module_year_close(&year, zones, zones_length, blocks, blocks_length);
}

#endif
