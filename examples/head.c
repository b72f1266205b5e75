/*
 * A head, as a process of its own on a line:
 *
 *     head PORT FD SRAM
 *
 * PORT is can or serial, FD the number of an open descriptor (line.h says what it carries). When the head jumps, its
 * 65,536 bytes of SRAM, which were all 0 before the load, are written to the file SRAM. The head has chosen serial boot
 * with the public password. Exit status: 0 it jumped; 1 the session stopped, the line closed, or nothing came for
 * 10 seconds; 2 an argument or a file is bad.
 */
#define _POSIX_C_SOURCE 200809L
#define PROGRAM "head"
#define USAGE "can|serial FD SRAM"
#include <signal.h>

#include "arguments.h"
#include "line.h"

#define SILENCE 10000 /* in milliseconds */

static const char *const names[] = {"PORT", "FD", "SRAM"};
static const uint8_t password[] = BOOT_ASSIST_PUBLIC_PASSWORD;
static uint8_t sram[BOOT_ASSIST_SRAM_SIZE];

/* Hands in one item. A call that is refused writes no answer. */
static void hand_in(struct boot_assist_session *session, uint32_t port, const struct line_item *item,
                    struct boot_assist_answer *answer)
{
    *answer = (struct boot_assist_answer){0};
    if (port == BOOT_ASSIST_PORT_CAN)
        boot_assist_frame(session, sram, sizeof sram, item->identifier, item->bytes, item->count, answer);
    else
        /* This line reports no errors, so every byte is clean. A head with a UART hands in here, in the place of false,
         * whether an error bit (framing, parity, overrun) was set in the status that came with the byte:
         * (status & ERROR_BITS) != 0. */
        boot_assist_byte(session, sram, sizeof sram, item->bytes[0], false, answer);
}

/* Takes items and sends their echoes until the session stops or jumps, or the line ends. Returns how many came. The
 * echo of the last item is sent here, before the jump. */
static size_t serve(int fd, uint32_t port, struct boot_assist_session *session, struct boot_assist_answer *answer)
{
    struct line_item item;
    size_t items = 0;
    while (session->stage != BOOT_ASSIST_STAGE_STOPPED && session->stage != BOOT_ASSIST_STAGE_JUMPED) {
        int got = line_get(fd, port, &item, SILENCE);
        if (got == LINE_SILENT)
            fprintf(stderr, "head: nothing came for %d seconds\n", SILENCE / 1000);
        if (got != 1)
            break;
        hand_in(session, port, &item, answer);
        items++;
        if (answer->echo_length != 0 &&
            !line_put(fd, port, answer->echo_identifier, answer->echo, answer->echo_length))
            break;
    }
    return items;
}

static void write_sram(const char *name)
{
    FILE *file = fopen(name, "wb");
    if (file == NULL || fwrite(sram, 1, sizeof sram, file) != sizeof sram || fclose(file) != 0)
        argument_bad("SRAM", name, strerror(errno));
}

int main(int argc, char **argv)
{
    struct boot_assist_session session;
    struct boot_assist_answer answer;
    argument_count(argc, argv, names, 3);
    uint32_t port = argument_port("PORT", argv[1]);
    int fd = line_descriptor("FD", argv[2]);
    signal(SIGPIPE, SIG_IGN);
    boot_assist_fresh(BOOT_ASSIST_MODE_SERIAL_DIRECTLY, password, &session);
    size_t items = serve(fd, port, &session, &answer);
    if (session.stage == BOOT_ASSIST_STAGE_JUMPED) {
        printf("head jumped %08X\n", (unsigned)answer.jump);
        write_sram(argv[3]);
        return 0;
    }
    if (session.stage == BOOT_ASSIST_STAGE_STOPPED)
        printf("head stopped with number %u after %zu items\n", (unsigned)session.refusal, items);
    else
        printf("head did not jump, %zu items\n", items);
    return 1;
}
