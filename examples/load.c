/*
 * Loads an image into a head's SRAM, as a truck does, and shows what the head answers:
 *
 *     load PORT START IMAGE
 *
 * PORT is can or serial, START the start address in hex; the VLE bit is sent as 1. The head has chosen serial boot with
 * the public password.
 * The sender is asked for each item, the item is handed to the head, and the sender is told the head's echo. Exit
 * status: 0 the head jumped, and its SRAM holds the image; 1 it did not, or the sender refused the image (its number is
 * printed); 2 an argument or a file is bad.
 */
#define PROGRAM "load"
#define USAGE "can|serial START IMAGE"
#include "arguments.h"

static const char *const names[] = {"PORT", "START", "IMAGE"};
static const char *const verdicts[] = {
    [BOOT_ASSIST_VERDICT_GOES_ON] = "goes on",
    [BOOT_ASSIST_VERDICT_DONE] = "done",
    [BOOT_ASSIST_VERDICT_ABANDONED] = "abandoned",
};
static const uint8_t password[] = BOOT_ASSIST_PUBLIC_PASSWORD;
static uint8_t image[BOOT_ASSIST_SRAM_SIZE];
static uint8_t sram[BOOT_ASSIST_SRAM_SIZE];

/* Hands an item to the head, and returns the number of its answer. A call that is refused writes no answer. */
static uint8_t hand_in(struct boot_assist_session *session, const struct boot_assist_item *item,
                       struct boot_assist_answer *answer)
{
    *answer = (struct boot_assist_answer){0};
    if (item->port == BOOT_ASSIST_PORT_CAN)
        return boot_assist_frame(session, sram, sizeof sram, item->identifier, item->bytes, item->count, answer);
    return boot_assist_byte(session, sram, sizeof sram, item->bytes[0], false, answer);
}

/* Sends the load to a fresh head, and returns the number of the last answer. */
static uint8_t send_load(struct boot_assist_sender *sender, size_t len, struct boot_assist_session *session,
                         struct boot_assist_answer *answer)
{
    struct boot_assist_item item;
    uint8_t number = BOOT_ASSIST_ANSWERED, verdict = BOOT_ASSIST_VERDICT_GOES_ON;
    size_t items = 0;
    boot_assist_fresh(BOOT_ASSIST_MODE_SERIAL_DIRECTLY, password, session);
    while (verdict == BOOT_ASSIST_VERDICT_GOES_ON &&
           boot_assist_ask(sender, image, len, &item) == BOOT_ASSIST_ANSWERED) {
        number = hand_in(session, &item, answer);
        verdict = BOOT_ASSIST_VERDICT_ABANDONED; /* where the sender does not take the echo */
        boot_assist_tell(sender, image, len, item.port, answer->echo_identifier, answer->echo, answer->echo_length,
                         &verdict);
        items++;
    }
    printf("items     %zu\nnumber    %u\nverdict   %s\n", items, number, verdicts[verdict]);
    return number;
}

/* The VLE of the session's MMU rows, entries 0 to 4. */
static void show_vle(const struct boot_assist_session *session)
{
    struct boot_assist_row rows[BOOT_ASSIST_ROWS];
    if (boot_assist_session_rows(session, rows) != BOOT_ASSIST_ANSWERED)
        return;
    printf("rows' VLE");
    for (int entry = 0; entry < BOOT_ASSIST_ROWS; entry++)
        printf(" %u", (unsigned)rows[entry].vle);
    printf("\n");
}

int main(int argc, char **argv)
{
    struct boot_assist_sender sender;
    struct boot_assist_session session;
    struct boot_assist_answer answer;
    argument_count(argc, argv, names, 3);
    uint32_t port = argument_port("PORT", argv[1]);
    uint32_t start = argument_number("START", argv[2], 16, UINT32_MAX);
    size_t len = argument_file("IMAGE", argv[3], image, sizeof image);

    uint8_t number = boot_assist_begin(port, start, true, password, image, len, &sender);
    if (number != BOOT_ASSIST_ANSWERED) {
        printf("sender    refuses the image: number %u\n", number);
        return 1;
    }
    if (send_load(&sender, len, &session, &answer) != BOOT_ASSIST_JUMPS)
        return 1;
    int held = memcmp(sram + (answer.jump - BOOT_ASSIST_SRAM_BASE), image, len) == 0;
    printf("jump      %08X\nVLE       %u\nSRAM      %s\n", (unsigned)answer.jump, (unsigned)answer.vle,
           held ? "holds the image" : "does not hold the image");
    show_vle(&session);
    return held ? 0 : 1;
}
