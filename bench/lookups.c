/* The baseline of bench/lookups: reads packets from standard input and writes the replies that
 * `virtd demo` writes to lookups of `demo`, one write for each. It checks what a lookup needs and
 * no more; any other packet ends it. */
#include <stdint.h>
#include <stdio.h>
#include <string.h>
#include <unistd.h>

static uint32_t word_at(const unsigned char *bytes)
{
    return (uint32_t)bytes[0] << 24 | (uint32_t)bytes[1] << 16 | (uint32_t)bytes[2] << 8 | bytes[3];
}

static void put_word(unsigned char *bytes, uint32_t word)
{
    bytes[0] = word >> 24;
    bytes[1] = word >> 16;
    bytes[2] = word >> 8;
    bytes[3] = word;
}

static const unsigned char domain[] = {
    0, 0, 0, 4, 'd', 'e', 'm', 'o', 0, 0, 0, 0, 0, 0, 0x40, 0,
    0x80, 0, 0, 0, 0, 0, 0, 1, 0xff, 0xff, 0xff, 0xff,
};

static int put_all(const unsigned char *bytes, size_t length)
{
    while (length > 0) {
        ssize_t count = write(1, bytes, length);
        if (count <= 0)
            return 5;
        bytes += count;
        length -= count;
    }
    return 0;
}

static int answer(const unsigned char *packet, uint32_t length)
{
    unsigned char reply[28 + sizeof domain];

    if (word_at(packet + 4) != 0x20008086 || word_at(packet + 8) != 1 || word_at(packet + 12) != 23 ||
        word_at(packet + 16) != 0 || word_at(packet + 24) != 0 || length != 36 ||
        memcmp(packet + 28, "\0\0\0\4demo", 8) != 0)
        return 9;
    put_word(reply, sizeof reply);
    memcpy(reply + 4, packet + 4, 12);
    put_word(reply + 16, 1);
    memcpy(reply + 20, packet + 20, 4);
    put_word(reply + 24, 0);
    memcpy(reply + 28, domain, sizeof domain);
    return put_all(reply, sizeof reply);
}

int main(void)
{
    static unsigned char buffer[8192];
    size_t held = 0;

    for (;;) {
        ssize_t count = read(0, buffer + held, 4096);
        size_t at = 0;

        if (count < 0)
            return 5;
        if (count == 0)
            return held == 0 ? 0 : 8;
        held += count;
        while (held - at >= 4) {
            uint32_t length = word_at(buffer + at);
            int status;

            if (length < 28 || length > 4096)
                return 7;
            if (held - at < length)
                break;
            status = answer(buffer + at, length);
            if (status != 0)
                return status;
            at += length;
        }
        memmove(buffer, buffer + at, held - at);
        held -= at;
    }
}
