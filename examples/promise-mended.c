#include <stdio.h>
#include <string.h>

/* `promise.c` with the hole mended: nothing is written to the path. `cut` writes to its own text, and may. */
static const char *file_part(const char *path)
{
    const char *colon = strchr(path, ':');

    if (colon == 0)
        return "";
    return colon + 1;
}

static char *cut(char *text)
{
    char *colon = strchr(text, ':');

    if (colon != 0)
        *colon = '\0';
    return text;
}

int main(void)
{
    char text[] = "host:file";

    puts(file_part("host:file"));
    puts(cut(text));
    return 0;
}
