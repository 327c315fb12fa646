/* The baseline of bench/definitions: definitions TIMES DIRECTORY makes the system calls of a keeper that keeps a
 * definition and then drops it, so many times, and nothing else: a draft is written and synced, renamed, and the
 * directory is synced; then the file is removed and the directory is synced. */
#include <fcntl.h>
#include <stdio.h>
#include <stdlib.h>
#include <string.h>
#include <unistd.h>

static void name_of(char *name, const char *directory, long number, const char *ending)
{
    static const char file_name[] = "%s/domain-%08lx-%04lx-%04lx-0000-000000000000.%s";
    unsigned long mixed = number * 0x9e3779b97f4a7c15UL;
    unsigned long high = mixed >> 32, middle = mixed >> 16 & 0xffff, low = mixed & 0xffff;

    snprintf(name, 4096, file_name, directory, high, middle, low, ending);
}

static int sync_directory(const char *directory)
{
    int file = open(directory, O_RDONLY);

    return file < 0 || fsync(file) || close(file);
}

static int put(const char *directory, long number)
{
    static const char line[] = "  <memory unit='KiB'>1048576</memory>\n";
    char draft[4096], name[4096], content[4096];
    int length, file, i;

    name_of(draft, directory, number, "tmp");
    name_of(name, directory, number, "def");
    length = snprintf(content, sizeof content,
                      "def 2 autostart=no name=machine%ld\ntitle=\nlength=%zu\n", number,
                      24 * strlen(line));
    for (i = 0; i < 24; i++) {
        memcpy(content + length, line, strlen(line));
        length += strlen(line);
    }
    if ((file = open(draft, O_WRONLY | O_CREAT | O_TRUNC, 0666)) < 0 ||
        write(file, content, length) != length || close(file))
        return 1;
    if ((file = open(draft, O_RDONLY)) < 0 || fsync(file) || close(file))
        return 1;
    return rename(draft, name) || sync_directory(directory);
}

static int drop(const char *directory, long number)
{
    char name[4096];

    name_of(name, directory, number, "def");
    return unlink(name) || sync_directory(directory);
}

int main(int count, char **words)
{
    long times, number;

    if (count != 3)
        return 2;
    times = atol(words[1]);
    for (number = 0; number < times; number++)
        if (put(words[2], number) || drop(words[2], number))
            return 1;
    return 0;
}
