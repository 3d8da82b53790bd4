#include <stdio.h>
#include <stdlib.h>
#include <string.h>

static void greet(const char *name)
{
    char text[80];

    strcpy(text, "hello ");
    strncat(text, name, sizeof text - strlen(text) - 1);
    printf(text);
}

int main(void)
{
    greet(getenv("USER"));
    return 0;
}
