struct settings {
    int speed;
    int limit;
};

unsigned long copy_from_user(void *to, const void __user *from, unsigned long count);

/* A piece of a driver as the kernel writes it: `__user` stands before the `*`. */
static struct settings current_settings;

static int is_allowed(const struct settings *settings)
{
    return settings->speed <= settings->limit;
}

int set_settings(struct settings __user *wanted, int __user *answer)
{
    if (copy_from_user(&current_settings, wanted, sizeof current_settings) != 0)
        return -14;
    if (!is_allowed(wanted))
        return -22;
    return put_user(current_settings.speed, answer);
}
