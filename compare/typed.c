/*
 * The typed calls of include/boot_assist.h as functions that the comparison can link, and what it compares of the
 * header: where the members of the structs are, and the sizes that have a name. `faulty` and `vle` come as 32 bits:
 * C makes them the header's bool.
 */
#include "boot_assist.h"

uint8_t typed_choose(uint32_t bootcfg, const uint8_t *flash, size_t flash_len, const uint8_t *shadow,
                     const uint8_t *external, struct boot_assist_choice *choice)
{
    return boot_assist_choose(bootcfg, flash, flash_len, shadow, external, choice);
}

uint8_t typed_choice_rows(uint32_t mode, struct boot_assist_row *rows)
{
    return boot_assist_choice_rows(mode, rows);
}

uint8_t typed_fresh(uint32_t mode, const uint8_t *password, struct boot_assist_session *session)
{
    return boot_assist_fresh(mode, password, session);
}

uint8_t typed_session_rows(const struct boot_assist_session *session, struct boot_assist_row *rows)
{
    return boot_assist_session_rows(session, rows);
}

uint8_t typed_frame(struct boot_assist_session *session, uint8_t *sram, size_t sram_len, uint32_t identifier,
                    const uint8_t *data, size_t data_len, struct boot_assist_answer *answer)
{
    return boot_assist_frame(session, sram, sram_len, identifier, data, data_len, answer);
}

uint8_t typed_byte(struct boot_assist_session *session, uint8_t *sram, size_t sram_len, uint8_t byte, uint32_t faulty,
                   struct boot_assist_answer *answer)
{
    return boot_assist_byte(session, sram, sram_len, byte, faulty, answer);
}

uint8_t typed_list(struct boot_assist_session *session, uint8_t *sram, size_t sram_len, size_t items,
                   const uint8_t *kinds, const uint32_t *identifiers, const uint32_t *counts, const uint8_t *bytes,
                   size_t bytes_len, uint8_t *echoes, uint32_t *answers)
{
    return boot_assist_list(session, sram, sram_len, items, kinds, identifiers, counts, bytes, bytes_len, echoes,
                            answers);
}

uint8_t typed_begin(uint32_t port, uint32_t start, uint32_t vle, const uint8_t *password, const uint8_t *image,
                    size_t image_len, struct boot_assist_sender *sender)
{
    return boot_assist_begin(port, start, vle, password, image, image_len, sender);
}

uint8_t typed_ask(struct boot_assist_sender *sender, const uint8_t *image, size_t image_len,
                  struct boot_assist_item *item)
{
    return boot_assist_ask(sender, image, image_len, item);
}

uint8_t typed_tell(struct boot_assist_sender *sender, const uint8_t *image, size_t image_len, uint32_t port,
                   uint32_t identifier, const uint8_t *bytes, size_t bytes_len, uint8_t *verdict)
{
    return boot_assist_tell(sender, image, image_len, port, identifier, bytes, bytes_len, verdict);
}

uint8_t typed_read(const uint8_t *capture, size_t capture_len, size_t at, struct boot_assist_record *record)
{
    return boot_assist_read(capture, capture_len, at, record);
}

#define SIZE(of) sizeof(struct boot_assist_##of)
#define PLACE(of, member) offsetof(struct boot_assist_##of, member)

const size_t typed_session_places[] = {
    SIZE(session), PLACE(session, selected), PLACE(session, held), PLACE(session, stage), PLACE(session, port),
    PLACE(session, count), PLACE(session, start), PLACE(session, vle), PLACE(session, next), PLACE(session, owed),
    PLACE(session, refusal), PLACE(session, entered),
};

const size_t typed_answer_places[] = {
    SIZE(answer), PLACE(answer, echo), PLACE(answer, number), PLACE(answer, echo_identifier),
    PLACE(answer, echo_length), PLACE(answer, jump), PLACE(answer, vle),
};

const size_t typed_choice_places[] = {
    SIZE(choice), PLACE(choice, password), PLACE(choice, mode), PLACE(choice, place), PLACE(choice, looked),
    PLACE(choice, jump), PLACE(choice, watchdog), PLACE(choice, bus16), PLACE(choice, flash), PLACE(choice, nexus),
};

const size_t typed_sender_places[] = {
    SIZE(sender), PLACE(sender, password), PLACE(sender, going), PLACE(sender, port), PLACE(sender, start),
    PLACE(sender, vle), PLACE(sender, image_length), PLACE(sender, place), PLACE(sender, out),
};

const size_t typed_item_places[] = {
    SIZE(item), PLACE(item, bytes), PLACE(item, port), PLACE(item, identifier), PLACE(item, count),
};

const size_t typed_row_places[] = {
    SIZE(row), PLACE(row, logical), PLACE(row, physical), PLACE(row, size), PLACE(row, cache_inhibited),
    PLACE(row, guarded), PLACE(row, big_endian), PLACE(row, global_pid), PLACE(row, vle),
};

const size_t typed_record_places[] = {
    SIZE(record), PLACE(record, kind), PLACE(record, next), PLACE(record, body_start), PLACE(record, body_count),
};

const size_t typed_sizes[] = {
    BOOT_ASSIST_SRAM_BASE, BOOT_ASSIST_SRAM_SIZE, BOOT_ASSIST_FLASH_MAX, BOOT_ASSIST_SHADOW_SIZE,
    BOOT_ASSIST_EXTERNAL_SIZE, BOOT_ASSIST_PASSWORD_SIZE, BOOT_ASSIST_FRAME_MAX, BOOT_ASSIST_ROWS,
    BOOT_ASSIST_ANSWER_NUMBERS,
};

const uint8_t typed_public_password[] = BOOT_ASSIST_PUBLIC_PASSWORD;
