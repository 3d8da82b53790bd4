#include <stdio.h>

/* Requests come from outside as a whole: the one word is at the function that gives them. */
struct request {
    int length;
    char *name;
    struct request *next;
};

extern $tainted struct request *next_request(int socket);

static void log_all(struct request *request)
{
    while (request->length > 0) {
        printf(request->name);
        request = request->next;
    }
}

static void log_own(void)
{
    struct request own = { 4, "self", 0 };

    puts(own.name);
    printf(own.name);
}

int main(void)
{
    log_all(next_request(0));
    log_own();
    return 0;
}
