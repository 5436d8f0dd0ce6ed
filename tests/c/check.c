#include "check.h"

#include <stdarg.h>
#include <stdio.h>

static unsigned long checks, failures;

void heading(const char *text)
{
    printf("%s\n", text);
}

static void print_check(int holds, const char *format, va_list words)
{
    printf(holds ? "  ok      " : "  FAILED  ");
    vprintf(format, words);
    printf("\n");
}

static void count(int holds)
{
    checks++;
    if (!holds)
        failures++;
}

int check(int holds, const char *format, ...)
{
    va_list words;
    count(holds);
    va_start(words, format);
    print_check(holds, format, words);
    va_end(words);
    return holds;
}

int check_quietly(int holds, const char *format, ...)
{
    va_list words;
    count(holds);
    if (holds)
        return holds;
    va_start(words, format);
    print_check(holds, format, words);
    va_end(words);
    return holds;
}

int checks_done(void)
{
    printf("%lu checks, %lu failed\n", checks, failures);
    return failures == 0 ? 0 : 1;
}
