/* `helper.c` with the hole mended: the settings are copied first, and the copy is looked at. */
struct settings {
    int speed;
    int parity;
};

extern unsigned long copy_from_user(void *to, const void *from, unsigned long n);

static struct settings current_settings;

static int speed_of(const struct settings *settings)
{
    return settings->speed;
}

int current_speed(void)
{
    return speed_of(&current_settings);
}

int set_speed(const struct settings *$user wanted)
{
    struct settings copied;

    if (copy_from_user(&copied, wanted, sizeof copied) != 0)
        return -14;
    if (speed_of(&copied) < 0)
        return -22;
    current_settings = copied;
    return 0;
}
