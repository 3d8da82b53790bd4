#include "letter.h"

int main(void)
{
    print_line("sent");
    return 0;
}
