#include <stdio.h>
#include <stdlib.h>

/* The name of the user goes through a struct and two calls into the format of `fprintf`. */
struct message {
    int level;
    const char *text;
};

static void print(FILE *to, const struct message *message)
{
    if (message->level > 0)
        fprintf(to, message->text);
}

static void report(const char *text)
{
    struct message message;

    message.level = 1;
    message.text = text;
    print(stderr, &message);
}

int main(void)
{
    report(getenv("USER"));
    return 0;
}
