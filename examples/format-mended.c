#include <stdio.h>
#include <stdlib.h>

/* `format.c` with the hole mended: the format is a text of the program, and the name of the user is printed by it. */
struct message {
    int level;
    const char *text;
};

static void print(FILE *to, const struct message *message)
{
    if (message->level > 0)
        fprintf(to, "%s", message->text);
}

static void report(const char *text)
{
    struct message message;

    message.level = 1;
    message.text = text;
    print(stderr, &message);
}

int main(void)
{
    report(getenv("USER"));
    return 0;
}
