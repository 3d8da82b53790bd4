/* The subject of the letter that is at hand, and a line on the screen. */
const char *subject(void);
void print_line(const char *line);
