/*
 * A truck, as a process of its own on a line:
 *
 *     truck PORT FD START IMAGE
 *
 * PORT is can or serial, FD the number of an open descriptor (line.h says what it carries), START the start address in
 * hex. The public password is sent, and the VLE bit as 1. An echo that has not come within 5 seconds is a missing one.
 * Exit status: 0 the load is done; 1 it was abandoned, or the sender refused the image; 2 an argument or a file is
 * bad.
 */
#define _POSIX_C_SOURCE 200809L
#define PROGRAM "truck"
#define USAGE "can|serial FD START IMAGE"
#include <signal.h>

#include "arguments.h"
#include "line.h"

#define ECHO_WAIT 5000 /* in milliseconds */

static const char *const names[] = {"PORT", "FD", "START", "IMAGE"};
static const uint8_t password[] = BOOT_ASSIST_PUBLIC_PASSWORD;
static uint8_t image[BOOT_ASSIST_SRAM_SIZE];

/* Sends an item and waits for its echo, which is empty if none comes. */
static void exchange(int fd, const struct boot_assist_item *item, struct line_item *echo)
{
    memset(echo, 0, sizeof *echo);
    if (!line_put(fd, item->port, item->identifier, item->bytes, item->count) ||
        line_get(fd, item->port, echo, ECHO_WAIT) != 1)
        fprintf(stderr, "truck: nothing could be sent, or no echo came\n");
}

/* Sends the items until the verdict is done or abandoned. Where the sender takes no echo, the load is abandoned. */
static uint8_t send_load(int fd, struct boot_assist_sender *sender, size_t len, size_t *items)
{
    struct boot_assist_item item;
    struct line_item echo;
    uint8_t verdict = BOOT_ASSIST_VERDICT_GOES_ON;
    while (verdict == BOOT_ASSIST_VERDICT_GOES_ON &&
           boot_assist_ask(sender, image, len, &item) == BOOT_ASSIST_ANSWERED) {
        exchange(fd, &item, &echo);
        verdict = BOOT_ASSIST_VERDICT_ABANDONED;
        boot_assist_tell(sender, image, len, item.port, echo.identifier, echo.bytes, echo.count, &verdict);
        ++*items;
    }
    return verdict;
}

int main(int argc, char **argv)
{
    struct boot_assist_sender sender;
    size_t items = 0;
    argument_count(argc, argv, names, 4);
    uint32_t port = argument_port("PORT", argv[1]);
    int fd = line_descriptor("FD", argv[2]);
    uint32_t start = argument_number("START", argv[3], 16, UINT32_MAX);
    size_t len = argument_file("IMAGE", argv[4], image, sizeof image);
    signal(SIGPIPE, SIG_IGN);
    uint8_t number = boot_assist_begin(port, start, true, password, image, len, &sender);
    if (number != BOOT_ASSIST_ANSWERED) {
        printf("truck sends nothing: the sender refuses the image with number %u\n", number);
        return 1;
    }
    if (send_load(fd, &sender, len, &items) != BOOT_ASSIST_VERDICT_DONE) {
        printf("truck abandoned at item %zu\n", items);
        return 1;
    }
    printf("truck done %zu items\n", items);
    return 0;
}
