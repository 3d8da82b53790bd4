#include <stdio.h>
#include "letter.h"

void print_line(const char *line)
{
    printf(line);
    putchar('\n');
}
