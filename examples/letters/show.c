#include "letter.h"

int main(void)
{
    print_line(subject());
    return 0;
}
