#include <stdio.h>
#include <string.h>

/* `file_part` promises not to write to the path, and does, by way of `strchr`. No compiler says a word. */
static const char *file_part(const char *path)
{
    char *colon = strchr(path, ':');

    if (colon == 0)
        return "";
    *colon = '\0';
    return colon + 1;
}

int main(void)
{
    puts(file_part("host:file"));
    return 0;
}
