/* `pass` returns what it is given: for `name` that is tainted, for the text of the program it is not. */
char *pass(char *text)
{
    return text;
}

$tainted char *name;
char *shown;
$untainted char *format;

void show(void)
{
    shown = pass(name);
    format = pass("hello %s");
}
