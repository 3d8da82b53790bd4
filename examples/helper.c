/* A driver follows a pointer of the user program, in a helper that other calls give a pointer of the kernel. */
struct settings {
    int speed;
    int parity;
};

extern unsigned long copy_from_user(void *to, const void *from, unsigned long n);

static struct settings current_settings;

static int speed_of(const struct settings *settings)
{
    return settings->speed;
}

int current_speed(void)
{
    return speed_of(&current_settings);
}

int set_speed(const struct settings *$user wanted)
{
    if (speed_of(wanted) < 0)
        return -22;
    if (copy_from_user(&current_settings, wanted, sizeof current_settings) != 0)
        return -14;
    return 0;
}
