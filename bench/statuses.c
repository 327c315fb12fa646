/* The baseline of bench/statuses: statuses TIMES DIRECTORY makes the system calls of a keeper that keeps the status of a
 * domain that is suspended and then resumed, so many times, and nothing else: a draft is written, the status file of
 * before is removed, and the draft is renamed. Nothing is synced. */
#include <fcntl.h>
#include <stdio.h>
#include <stdlib.h>
#include <unistd.h>

static const char stem[] = "%s/run-6f1a2b3c-4d5e-4f60-8a7b-9c0d1e2f0000.%s";

static int put(const char *draft, const char *name, int state)
{
    char content[256];
    int length, file;

    length = snprintf(content, sizeof content, "run 1 boot=1 state=%d op=0 phase=0 name=web000\n", state);
    if ((file = open(draft, O_WRONLY | O_CREAT | O_TRUNC, 0666)) < 0 ||
        write(file, content, length) != length || close(file))
        return 1;
    return unlink(name) || rename(draft, name);
}

int main(int count, char **words)
{
    char draft[4096], name[4096];
    long times, number;
    int file;

    if (count != 3)
        return 2;
    times = atol(words[1]);
    snprintf(draft, sizeof draft, stem, words[2], "tmp");
    snprintf(name, sizeof name, stem, words[2], "sta");
    if ((file = open(name, O_WRONLY | O_CREAT | O_TRUNC, 0666)) < 0 || close(file))
        return 1;
    for (number = 0; number < times; number++)
        if (put(draft, name, 3) || put(draft, name, 1))
            return 1;
    return 0;
}
