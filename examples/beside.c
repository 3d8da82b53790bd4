#include <stdio.h>
#include <stdlib.h>

/* A text of the program stands beside the name of a user, twice, and is a format then. */
int main(void)
{
    char line[80];
    char greeting[] = "hello\n";

    printf("%s: %s", getenv("USER"), greeting);
    snprintf(line, sizeof line, "%s: %s", getenv("USER"), greeting);
    return printf(greeting);
}
