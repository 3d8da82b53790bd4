#include <stdio.h>

/* What comes from outside, and what must not: a library's signatures with qualifiers. */
extern $tainted char *read_line(FILE *from);
extern int log_message($untainted const char *format, ...);

struct request {
    char *name;
    char *greeting;
};

/* Returns its argument: used for trusted and for tainted text, and each call has its own copy. */
static char *chosen(char *first, char *second)
{
    if (first != 0)
        return first;
    return second;
}

static void fill(struct request *request, FILE *from)
{
    request->name = read_line(from);
    request->greeting = chosen("Hello", "Hi");
}

static void greet(struct request *request)
{
    char *text = chosen(request->name, "nobody");

    log_message(request->greeting);
    log_message("%s\n", text);
    log_message(text);
}

int main(void)
{
    struct request request;

    fill(&request, stdin);
    greet(&request);
    return 0;
}
