/* environment.c - the kernel's services that Linux's prints of error sections call. */
#include "environment.h"
#include <stdarg.h>
#include <stdlib.h>

/* A GUID as %pUl writes it: its first three numbers are little-endian. */
static void print_guid(const u8 *at)
{
    static const u8 order[16] = { 3, 2, 1, 0, 5, 4, 7, 6, 8, 9, 10, 11, 12, 13, 14, 15 };

    for (int index = 0; index < 16; index++)
        printf("%s%02x", index == 4 || index == 6 || index == 8 || index == 10 ? "-" : "", at[order[index]]);
}

/* One conversion, whose letters are `conversion`. */
static void print_value(const char *conversion, va_list *values)
{
    size_t length = strlen(conversion);

    if (conversion[length - 1] == 's')
        printf(conversion, va_arg(*values, const char *));
    else if (length > 3 && !strncmp(conversion + length - 3, "ll", 2))
        printf(conversion, va_arg(*values, u64));
    else
        printf(conversion, va_arg(*values, unsigned int));
}

/* printk: one line for each message, by the conversions that the prints use. */
int kernel_print(const char *format, ...)
{
    const char *at = format;
    va_list values;

    va_start(values, format);
    while (*at) {
        char conversion[16];
        size_t length;

        if (*at != '%') {
            putchar(*at++);
            continue;
        }
        if (!strncmp(at, "%pUl", 4)) {
            print_guid(va_arg(values, const u8 *));
            at += 4;
            continue;
        }
        length = strcspn(at + 1, "sdux") + 2;
        if (length >= sizeof conversion || length > strlen(at)) {
            fprintf(stderr, "a conversion of '%s' is not known\n", format);
            exit(1);
        }
        memcpy(conversion, at, length);
        conversion[length] = 0;
        print_value(conversion, &values);
        at += length;
    }
    va_end(values);
    if (at > format && at[-1] != '\n')
        putchar('\n');
    return 0;
}

/* The bytes themselves, in one line: how the kernel groups them says nothing of what they are. */
void print_hex_dump(const char *level, const char *prefix, int kind, int row, int group, const void *bytes, size_t size, bool letters)
{
    (void)prefix, (void)kind, (void)row, (void)group, (void)letters;
    printf("%sbytes: ", level);
    for (size_t index = 0; index < size; index++)
        printf("%02x", ((const u8 *)bytes)[index]);
    putchar('\n');
}

int scnprintf(char *to, size_t size, const char *format, ...)
{
    va_list values;
    int length;

    va_start(values, format);
    length = vsnprintf(to, size, format, values);
    va_end(values);
    return length < (int)size ? length : size ? (int)size - 1 : 0;
}

ssize_t strscpy(char *to, const char *from, size_t size)
{
    size_t length = strlen(from);

    if (!size)
        return -E2BIG;
    if (length >= size) {
        memcpy(to, from, size - 1);
        to[size - 1] = 0;
        return -E2BIG;
    }
    memcpy(to, from, length + 1);
    return (ssize_t)length;
}
