/*
 * A serial session by the same rules (01, "A serial session"; 02, E2), to be timed beside the library, as one would
 * write it in C with no interface to keep: structs by pointer, and no test of what is handed in but the item's form.
 */
#include <string.h>

#include "calls.h"

static enum number say(struct direct_answer *answer, enum number number,
                       uint16_t identifier, const uint8_t *data, size_t count)
{
    answer->number = number;
    answer->identifier = identifier;
    answer->length = (uint8_t)count;
    answer->vle = false;
    answer->jump = 0;
    if (count == 8) {
        memcpy(answer->echo, data, 8);
    } else {
        memset(answer->echo, 0, 8);
        for (size_t i = 0; i < count; i++)
            answer->echo[i] = data[i];
    }
    return number;
}

static enum number say_nothing(struct direct_answer *answer, enum number number)
{
    return say(answer, number, 0, NULL, 0);
}

static enum number stop(struct direct_session *session, enum number refusal)
{
    session->stage = STOPPED;
    session->refusal = refusal;
    return refusal;
}

static uint32_t word(const uint8_t *bytes)
{
    return (uint32_t)bytes[0] << 24 | (uint32_t)bytes[1] << 16 | (uint32_t)bytes[2] << 8 | bytes[3];
}

static bool is_legal(const uint8_t *password)
{
    for (int i = 0; i < 8; i += 2) {
        unsigned half = (unsigned)password[i] << 8 | password[i + 1];
        if (half == 0x0000 || half == 0xFFFF)
            return false;
    }
    return true;
}

static enum number check_password(struct direct_session *session)
{
    if (!is_legal(session->held) || memcmp(session->selected, session->held, 8) != 0)
        return stop(session, BAD_PASSWORD);
    session->stage = HEADER;
    return TAKEN;
}

static enum number read_header(struct direct_session *session)
{
    uint32_t start = word(session->held) & ~3u, size = word(session->held + 4), count = size & 0x7FFFFFFF;
    uint32_t offset = start - SRAM_BASE;
    if (count == 0)
        return stop(session, BAD_LENGTH);
    if (offset > SRAM_SIZE || count > SRAM_SIZE - offset)
        return stop(session, BAD_RANGE);
    session->stage = DATA;
    session->start = session->next = start;
    session->owed = count;
    session->vle = size >> 31;
    return TAKEN;
}

/* Password or header bytes by a port. */
static enum number gather(struct direct_session *session, enum port port, const uint8_t *data, size_t count)
{
    session->port = port;
    if (session->stage == WAITING)
        session->stage = PASSWORD;
    memcpy(session->held + session->count, data, count);
    session->count += (unsigned)count;
    if (session->count < 8)
        return TAKEN;
    session->count = 0;
    return session->stage == PASSWORD ? check_password(session) : read_header(session);
}

/* Data bytes, no more than are owed. */
static inline enum number load(struct direct_session *session, uint8_t *sram, uint16_t identifier,
                               const uint8_t *data, size_t count, struct direct_answer *answer)
{
    uint8_t *to = sram + (session->next - SRAM_BASE);
    if (count == 8)
        memcpy(to, data, 8);
    else
        for (size_t i = 0; i < count; i++)
            to[i] = data[i];
    say(answer, TAKEN, identifier, data, count);
    session->owed -= (uint32_t)count;
    if (session->owed != 0) {
        session->next += (uint32_t)count;
        return TAKEN;
    }
    session->stage = JUMPED;
    answer->jump = session->start;
    answer->vle = session->vle;
    return answer->number = JUMPS;
}

void direct_fresh(struct direct_session *session, const uint8_t password[8])
{
    memset(session, 0, sizeof *session);
    memcpy(session->selected, password, 8);
}

enum number direct_byte(struct direct_session *session, uint8_t sram[SRAM_SIZE], uint8_t byte, bool faulty,
                        struct direct_answer *answer)
{
    if (session->stage == WAITING ? faulty : session->stage > DATA || session->port != SERIAL)
        return say_nothing(answer, IGNORED);
    if (faulty)
        return say_nothing(answer, stop(session, FAULTY_BYTE));
    if (session->stage == DATA)
        return load(session, sram, 0, &byte, 1, answer);
    return say(answer, gather(session, SERIAL, &byte, 1), 0, &byte, 1);
}

enum number direct_frame(struct direct_session *session, uint8_t sram[SRAM_SIZE], uint32_t identifier,
                         const uint8_t *data, size_t count, struct direct_answer *answer)
{
    if (identifier > LAST_IDENTIFIER || count > 8)
        return say_nothing(answer, BAD_FORM);
    if (session->stage == WAITING || session->port == CAN) {
        if (session->stage == DATA && identifier == DATA_FRAME && 1 <= count && count <= session->owed)
            return load(session, sram, 3, data, count, answer);
        if (session->stage == WAITING && identifier == PASSWORD_FRAME && count == 8)
            return say(answer, gather(session, CAN, data, 8), 1, data, 8);
        if (session->stage == HEADER && identifier == HEADER_FRAME && count == 8)
            return say(answer, gather(session, CAN, data, 8), 2, data, 8);
    }
    return say_nothing(answer, IGNORED);
}

void direct_list(struct direct_session *session, uint8_t sram[SRAM_SIZE], const struct direct_item *items,
                 size_t items_len, struct direct_answer *answers)
{
    for (size_t i = 0; i < items_len; i++) {
        const struct direct_item *item = &items[i];
        if (item->kind == FRAME)
            direct_frame(session, sram, item->identifier, item->bytes, item->count, &answers[i]);
        else
            direct_byte(session, sram, *item->bytes, item->kind == FAULTY, &answers[i]);
    }
}
