/*
 * What head.c, truck.c and wire.c share: reading and writing a line, which is an open descriptor. A serial line carries
 * raw bytes. A CAN line carries packets, one a frame: the identifier in 2 bytes, the higher first, then the data bytes.
 */
#ifndef LINE_H
#define LINE_H

#include <fcntl.h>
#include <limits.h>
#include <poll.h>
#include <time.h>
#include <unistd.h>

#include "arguments.h"

/* How many bytes of a packet are the frame's identifier. */
#define LINE_IDENTIFIER 2

/* The longest packet that is read; a frame has at most 10 bytes. Of a longer packet the rest is dropped, and what is
 * read is still too long for a frame. */
#define LINE_LONGEST 16

#define LINE_WRITE_WAIT 5000 /* in milliseconds */

/* Where nothing was read: the other side is gone, or nothing came in the time given. */
enum { LINE_CLOSED = 0, LINE_SILENT = -1 };

/* An item or an echo. Of a serial byte the identifier is 0. */
struct line_item {
    uint32_t identifier;
    size_t count;
    uint8_t bytes[LINE_LONGEST];
};

/* An open descriptor by its number. */
static inline int line_descriptor(const char *name, const char *text)
{
    int fd = (int)argument_number(name, text, 10, INT_MAX);
    if (fcntl(fd, F_GETFD) < 0)
        argument_bad(name, text, strerror(errno));
    return fd;
}

static inline int64_t line_clock(void)
{
    struct timespec now;
    clock_gettime(CLOCK_MONOTONIC, &now);
    return (int64_t)now.tv_sec * 1000 + now.tv_nsec / 1000000;
}

/* Waits until the line can be read (POLLIN) or written (POLLOUT), or is closed. Returns 0 if the time passed first. */
static inline int line_wait(int fd, short events, int milliseconds)
{
    struct pollfd line = {fd, events, 0};
    int64_t end = line_clock() + milliseconds;
    int ready;
    do {
        int64_t left = end - line_clock();
        ready = poll(&line, 1, left > 0 ? (int)left : 0);
    } while (ready < 0 && errno == EINTR);
    return ready != 0;
}

/* Reads one packet, or at most len serial bytes. Returns how many bytes there are; or LINE_CLOSED or LINE_SILENT. */
static inline int line_read(int fd, uint8_t *bytes, size_t len, int milliseconds)
{
    ssize_t count;
    if (!line_wait(fd, POLLIN, milliseconds))
        return LINE_SILENT;
    do
        count = read(fd, bytes, len);
    while (count < 0 && errno == EINTR);
    if (count >= 0)
        return (int)count;
    /* EIO: the other side of a pseudo-terminal is gone. ECONNRESET: that of a socket pair. */
    if (errno != EIO && errno != ECONNRESET)
        perror("line: read");
    return LINE_CLOSED;
}

/* Writes one packet, or all of the serial bytes. Returns 0 if the line is closed or takes nothing for 5 seconds. */
static inline int line_write(int fd, const uint8_t *bytes, size_t len)
{
    while (len > 0) {
        if (!line_wait(fd, POLLOUT, LINE_WRITE_WAIT)) {
            fprintf(stderr, "line: nothing can be written\n");
            return 0;
        }
        ssize_t count = write(fd, bytes, len);
        if (count < 0 && errno == EINTR)
            continue;
        if (count < 0) {
            if (errno != EIO && errno != EPIPE && errno != ECONNRESET)
                perror("line: write");
            return 0;
        }
        bytes += count;
        len -= (size_t)count;
    }
    return 1;
}

/* Takes one frame or one serial byte from the line. Returns 1; or LINE_CLOSED or LINE_SILENT, and the item is empty. */
static inline int line_get(int fd, uint32_t port, struct line_item *item, int milliseconds)
{
    uint8_t bytes[LINE_LONGEST];
    size_t identifier_len = port == BOOT_ASSIST_PORT_CAN ? LINE_IDENTIFIER : 0;
    memset(item, 0, sizeof *item);
    int len = line_read(fd, bytes, port == BOOT_ASSIST_PORT_CAN ? sizeof bytes : 1, milliseconds);
    if (len <= 0)
        return len;
    if ((size_t)len < identifier_len) {
        fprintf(stderr, "line: a packet of 1 byte is no frame\n");
        return LINE_CLOSED;
    }
    if (identifier_len != 0)
        item->identifier = (uint32_t)bytes[0] << 8 | bytes[1];
    item->count = (size_t)len - identifier_len;
    memcpy(item->bytes, bytes + identifier_len, item->count);
    return 1;
}

/* Sends one frame, or serial bytes; at most BOOT_ASSIST_FRAME_MAX of them. */
static inline int line_put(int fd, uint32_t port, uint32_t identifier, const uint8_t *bytes, size_t count)
{
    uint8_t packet[LINE_IDENTIFIER + BOOT_ASSIST_FRAME_MAX] = {(uint8_t)(identifier >> 8), (uint8_t)identifier};
    if (port != BOOT_ASSIST_PORT_CAN)
        return line_write(fd, bytes, count);
    memcpy(packet + LINE_IDENTIFIER, bytes, count);
    return line_write(fd, packet, LINE_IDENTIFIER + count);
}

#endif
