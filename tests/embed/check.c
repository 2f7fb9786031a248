/* A program that checks a table and has no device. */
#include "apei.h"

#include <stdlib.h>

int main(void)
{
    uint8_t *table = calloc(36, 1);
    uint32_t parts;
    apei_fault fault;
    enum apei_status status = table != NULL ? apei_check_erst(table, 36, &parts, &fault) : APEI_MEMORY;
    free(table);
    return status == APEI_BAD ? 0 : 1;
}
