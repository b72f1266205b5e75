/*
 * Calls everything that include/boot_assist.h has, and ends with 0 if each call returns the number that it should, and
 * none needs more stack than the header says. .ci/header compiles it in C99, C11 and C++17. With SESSION_AS_ANSWER a
 * session is handed in as an answer, which must not compile.
 *
 * The calls are made on a stack that is filled with a pattern before; the deepest byte that is not the pattern any more
 * tells how much was needed, from the frame of calls() on.
 */
#define _XOPEN_SOURCE 700
#include <stdio.h>
#include <string.h>
#include <ucontext.h>

#include "boot_assist.h"

#define PATTERN 0xA5
#define ITEMS 3

#ifdef SESSION_AS_ANSWER
#define ANSWER (&session)
#else
#define ANSWER (&answer)
#endif

static uint8_t stack[65536], *frame;
static ucontext_t outside, inside;
static int wrong; /* the line of the first call that returned another number; or 0 */

/* All that is handed in is static, so that the stack has what the calls need and little else. */
static uint8_t sram[BOOT_ASSIST_SRAM_SIZE], image[1000], shadow[BOOT_ASSIST_SHADOW_SIZE];
static const uint8_t external[BOOT_ASSIST_EXTERNAL_SIZE] = {0}, password[] = BOOT_ASSIST_PUBLIC_PASSWORD;
static struct boot_assist_choice choice;
static struct boot_assist_row rows[BOOT_ASSIST_ROWS];
static struct boot_assist_session session;
static struct boot_assist_answer answer;
static struct boot_assist_sender sender;
static struct boot_assist_item item;
static struct boot_assist_record record;
static uint8_t verdict;

static void is(int number, int returned, int line)
{
    if (returned != number && wrong == 0)
        wrong = line;
}
#define IS(number, call) is(number, call, __LINE__)

/* A whole load to a fresh head, each item of which must be taken. */
static void load(uint32_t port)
{
    IS(BOOT_ASSIST_ANSWERED, boot_assist_fresh(choice.mode, choice.password, &session));
    IS(BOOT_ASSIST_ANSWERED,
       boot_assist_begin(port, BOOT_ASSIST_SRAM_BASE, true, password, image, sizeof image, &sender));
    while (boot_assist_ask(&sender, image, sizeof image, &item) == BOOT_ASSIST_ANSWERED) {
        if (port == BOOT_ASSIST_PORT_CAN)
            boot_assist_frame(&session, sram, sizeof sram, item.identifier, item.bytes, item.count, ANSWER);
        else
            boot_assist_byte(&session, sram, sizeof sram, item.bytes[0], false, &answer);
        IS(BOOT_ASSIST_ANSWERED, boot_assist_tell(&sender, image, sizeof image, port, answer.echo_identifier,
                                                  answer.echo, answer.echo_length, &verdict));
    }
    IS(BOOT_ASSIST_VERDICT_DONE, verdict);
    IS(BOOT_ASSIST_JUMPS, (int)answer.number);
    IS(0, memcmp(sram, image, sizeof image));
    IS(BOOT_ASSIST_ANSWERED, boot_assist_session_rows(&session, rows));
    IS(1, (int)rows[1].vle);
}

/* The items of a list: the password, a faulty byte, and a frame that is refused for its form. */
static void list(void)
{
    static const uint8_t kinds[ITEMS] = {BOOT_ASSIST_KIND_FRAME, BOOT_ASSIST_KIND_FAULTY, BOOT_ASSIST_KIND_FRAME};
    static const uint32_t identifiers[ITEMS] = {BOOT_ASSIST_FRAME_PASSWORD, 0, 0x800};
    static const uint32_t counts[ITEMS] = {BOOT_ASSIST_PASSWORD_SIZE, 1, 0};
    static uint8_t bytes[BOOT_ASSIST_PASSWORD_SIZE + 1], echoes[ITEMS * BOOT_ASSIST_FRAME_MAX];
    static uint32_t answers[ITEMS * BOOT_ASSIST_ANSWER_NUMBERS];
    memcpy(bytes, password, sizeof password);
    IS(BOOT_ASSIST_ANSWERED, boot_assist_fresh(choice.mode, choice.password, &session));
    IS(BOOT_ASSIST_ANSWERED, boot_assist_list(&session, sram, sizeof sram, ITEMS, kinds, identifiers, counts,
                                              bytes, sizeof bytes, echoes, answers));
    IS(BOOT_ASSIST_TAKEN, (int)answers[BOOT_ASSIST_AT_NUMBER]);
    IS(BOOT_ASSIST_ECHO_PASSWORD, (int)answers[BOOT_ASSIST_AT_ECHO_IDENTIFIER]);
    IS(0, memcmp(echoes, password, sizeof password));
    IS(BOOT_ASSIST_IGNORED, (int)answers[BOOT_ASSIST_ANSWER_NUMBERS]);
    IS(BOOT_ASSIST_BAD_FORM, (int)answers[2 * BOOT_ASSIST_ANSWER_NUMBERS]);
    IS(BOOT_ASSIST_ANSWERED, boot_assist_list(&session, sram, sizeof sram, 0, NULL, NULL, NULL, NULL, 0, NULL, NULL));
}

/* What is refused, and what stops a session. */
static void refusals(void)
{
    IS(BOOT_ASSIST_NOT_ALLOWED, boot_assist_choose(4, NULL, 0, shadow, external, &choice));
    IS(BOOT_ASSIST_EXTERNAL_ROWS, boot_assist_choice_rows(BOOT_ASSIST_MODE_EXTERNAL, rows));
    IS(BOOT_ASSIST_NOT_ALLOWED, boot_assist_fresh(BOOT_ASSIST_MODE_INTERNAL, password, &session));
    IS(BOOT_ASSIST_WRONG_SRAM_SIZE, boot_assist_byte(&session, NULL, 0, 0, false, &answer));
    IS(BOOT_ASSIST_BAD_FORM, boot_assist_frame(&session, sram, sizeof sram, 0x800, NULL, 0, &answer));
    IS(BOOT_ASSIST_LENGTH_ZERO, boot_assist_begin(BOOT_ASSIST_PORT_CAN, 0, false, password, NULL, 0, &sender));
    IS(BOOT_ASSIST_NOT_IN_SRAM, boot_assist_begin(BOOT_ASSIST_PORT_CAN, 0, false, password, image, 1, &sender));
    IS(BOOT_ASSIST_IGNORED, boot_assist_ask(&sender, NULL, 0, &item));
    IS(BOOT_ASSIST_IGNORED, boot_assist_tell(&sender, NULL, 0, BOOT_ASSIST_PORT_CAN, 0, NULL, 0, &verdict));

    IS(BOOT_ASSIST_ANSWERED, boot_assist_fresh(choice.mode, choice.password, &session));
    IS(BOOT_ASSIST_WRONG_PASSWORD,
       boot_assist_frame(&session, sram, sizeof sram, BOOT_ASSIST_FRAME_PASSWORD, external, sizeof external, &answer));
    IS(BOOT_ASSIST_ANSWERED, boot_assist_fresh(choice.mode, choice.password, &session));
    IS(BOOT_ASSIST_TAKEN, boot_assist_byte(&session, sram, sizeof sram, password[0], false, &answer));
    IS(BOOT_ASSIST_FAULTY_BYTE, boot_assist_byte(&session, sram, sizeof sram, 0, true, &answer));
    session.stage = BOOT_ASSIST_STAGE_DATA;
    IS(BOOT_ASSIST_NOT_SOUND, boot_assist_byte(&session, sram, sizeof sram, 0, false, &answer));
}

static void calls(void)
{
    static const uint8_t capture[] = {0, 3, 1, BOOT_ASSIST_KIND_CLEAN, 0xFE, 0};
    frame = (uint8_t *)__builtin_frame_address(0);
    IS(BOOT_ASSIST_ANSWERED, boot_assist_choose(1, NULL, 0, shadow, external, &choice));
    IS(BOOT_ASSIST_MODE_SERIAL_DIRECTLY, (int)choice.mode);
    IS(BOOT_ASSIST_ANSWERED, boot_assist_choice_rows(choice.mode, rows));
    load(BOOT_ASSIST_PORT_CAN);
    load(BOOT_ASSIST_PORT_SERIAL);
    list();
    refusals();
    IS(BOOT_ASSIST_ANSWERED, boot_assist_read(capture, sizeof capture, 0, &record));
    IS(BOOT_ASSIST_KIND_CLEAN, (int)record.kind);
    IS(BOOT_ASSIST_BAD_RECORD, boot_assist_read(capture, sizeof capture, record.next, &record));
}

int main(void)
{
    for (size_t i = 0; i < sizeof image; i++)
        image[i] = (uint8_t)(i % 251);
    memset(stack, PATTERN, sizeof stack);
    if (getcontext(&inside) != 0) {
        perror("getcontext");
        return 2;
    }
    inside.uc_stack.ss_sp = stack;
    inside.uc_stack.ss_size = sizeof stack;
    inside.uc_link = &outside;
    makecontext(&inside, calls, 0);
    if (swapcontext(&outside, &inside) != 0) {
        perror("swapcontext");
        return 2;
    }
    if (wrong != 0) {
        printf("the call of line %d returns another number\n", wrong);
        return 1;
    }
    const uint8_t *deepest = stack;
    while (*deepest == PATTERN)
        deepest++;
    if (frame - deepest > BOOT_ASSIST_STACK) {
        printf("the calls need %td bytes of stack\n", frame - deepest);
        return 1;
    }
    return 0;
}
