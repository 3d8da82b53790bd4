/* A system call that follows the pointer which the user program gave, and one that copies what it points to first. */
struct request {
    int size;
};

extern int copy_from_user(void *$kernel to, const void *$user from, unsigned long size);

int bad_call(struct request *$user given)
{
    return given->size;
}

int good_call(struct request *$user given)
{
    struct request request;

    if (copy_from_user(&request, given, sizeof request) != 0)
        return -1;
    return request.size;
}
