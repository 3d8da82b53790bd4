#include <dirent.h>
#include <stdio.h>

/* Prints the names of the files in a folder: a file whose name is `%n` writes to memory. */
int main(void)
{
    DIR *folder = opendir(".");
    struct dirent *entry;

    if (folder == NULL)
        return 1;
    while ((entry = readdir(folder)) != NULL) {
        printf(entry->d_name);
        remove(entry->d_name);
    }
    return closedir(folder);
}
