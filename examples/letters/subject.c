#include <stdlib.h>
#include "letter.h"

const char *subject(void)
{
    const char *found = getenv("SUBJECT");

    return found != NULL ? found : "no subject";
}
