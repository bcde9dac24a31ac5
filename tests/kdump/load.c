/* Loads a kernel that runs if this one crashes: load KERNEL FILES COMMAND_LINE */
#include <fcntl.h>
#include <linux/kexec.h>
#include <stdio.h>
#include <string.h>
#include <sys/syscall.h>
#include <unistd.h>

int main(int count, char **arguments)
{
    if (count != 4) {
        fprintf(stderr, "load: give a kernel, its files and its command line\n");
        return 2;
    }
    int kernel = open(arguments[1], O_RDONLY);
    int files = open(arguments[2], O_RDONLY);
    const char *line = arguments[3];
    if (syscall(SYS_kexec_file_load, kernel, files, strlen(line) + 1, line, KEXEC_FILE_ON_CRASH) != 0) {
        perror("load");
        return 1;
    }
    return 0;
}
