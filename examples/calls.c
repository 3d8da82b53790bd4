#include <stdio.h>
#include <stdlib.h>

/* Three calls of `printf` with a format from outside, a good one, and a command from outside. */
int main(int argc, char **argv)
{
    if (argc < 3)
        return 1;
    printf(argv[1]);
    printf("%s\n", argv[1]);
    printf(getenv("HOME"));
    printf(argv[2], argc);
    return system(argv[1]);
}
