/*
 * The calls for a serial session in plain C, to be timed beside the library's: the same rules (01, "A serial session";
 * 02, E2) behind the same interface, with all of its checks. Numbers are read and written where they lie, the data stage
 * is tested first, eight bytes are moved as a whole, and a list tests its session once, since every item leaves a sound
 * session sound.
 */
#include <string.h>

#include "calls.h"

/* Whether so many bytes from an address on lie in SRAM. An address below SRAM wraps to a large offset. */
static bool is_in_sram(uint32_t address, uint32_t count)
{
    uint32_t offset = address - SRAM_BASE;
    return offset <= SRAM_SIZE && count <= SRAM_SIZE - offset;
}

/* Whether these are the numbers of a sound session. */
static bool is_sound(const uint32_t *s)
{
    if (s[ENTERED] < DIRECTLY || s[ENTERED] > FROM_EXTERNAL)
        return false;
    if (s[STAGE] == DATA)
        return (s[PORT] | s[VLE]) <= 1 && (s[COUNT] | s[REFUSAL]) == 0 &&
               s[OWED] != 0 && is_in_sram(s[NEXT], s[OWED]) &&
               s[START] % 4 == 0 && s[START] >= SRAM_BASE && s[START] <= s[NEXT];
    if ((s[NEXT] | s[OWED]) != 0)
        return false;
    switch (s[STAGE]) {
    case WAITING:
        return (s[PORT] | s[COUNT] | s[START] | s[VLE] | s[REFUSAL]) == 0;
    case PASSWORD:
        return s[PORT] == SERIAL && 1 <= s[COUNT] && s[COUNT] <= 7 && (s[START] | s[VLE] | s[REFUSAL]) == 0;
    case HEADER:
        return s[PORT] <= SERIAL && s[COUNT] <= (s[PORT] == SERIAL ? 7 : 0) && (s[START] | s[VLE] | s[REFUSAL]) == 0;
    case STOPPED:
        return (s[PORT] | s[COUNT] | s[START]) == 0 &&
               (s[REFUSAL] == FAULTY_BYTE ? s[VLE] <= 1
                                          : s[VLE] == 0 && BAD_PASSWORD <= s[REFUSAL] && s[REFUSAL] <= BAD_RANGE);
    case JUMPED:
        return (s[PORT] | s[COUNT] | s[REFUSAL]) == 0 && s[VLE] <= 1;
    default:
        return false;
    }
}

/* Writes an answer of at most 8 bytes. */
static inline uint8_t say(uint8_t *echo, uint32_t *answer, uint32_t number,
                          uint32_t identifier, const uint8_t *data, size_t len)
{
    if (len == 8) {
        memcpy(echo, data, 8);
    } else {
        memset(echo, 0, 8);
        for (size_t i = 0; i < len; i++)
            echo[i] = data[i];
    }
    answer[NUMBER] = number;
    answer[ECHO_IDENTIFIER] = identifier;
    answer[ECHO_LENGTH] = (uint32_t)len;
    answer[JUMP] = 0;
    answer[JUMP_VLE] = 0;
    return (uint8_t)number;
}

static uint8_t say_nothing(uint8_t *echo, uint32_t *answer, uint32_t number)
{
    return say(echo, answer, number, 0, NULL, 0);
}

/* Stops the session. VLE is kept: it is 0 unless a header was accepted. */
static uint32_t stop(uint8_t *bytes, uint32_t *s, uint32_t refusal)
{
    memset(bytes + HELD, 0, 8);
    s[STAGE] = STOPPED;
    s[PORT] = 0;
    s[COUNT] = 0;
    s[START] = 0;
    s[NEXT] = 0;
    s[OWED] = 0;
    s[REFUSAL] = refusal;
    return refusal;
}

static uint32_t word(const uint8_t *p)
{
    return (uint32_t)p[0] << 24 | (uint32_t)p[1] << 16 | (uint32_t)p[2] << 8 | p[3];
}

static bool is_legal(const uint8_t *password)
{
    for (int i = 0; i < 8; i += 2) {
        unsigned half = (unsigned)password[i] << 8 | password[i + 1];
        if (half == 0x0000 || half == 0xFFFF)
            return false;
    }
    return true;
}

/* The 8 password or header bytes are in. */
static uint32_t complete(uint8_t *bytes, uint32_t *s, uint32_t role, uint32_t port)
{
    const uint8_t *held = bytes + HELD;
    if (role == PASSWORD) {
        if (!is_legal(held) || memcmp(bytes + SELECTED, held, 8) != 0)
            return stop(bytes, s, BAD_PASSWORD);
        s[STAGE] = HEADER;
    } else {
        uint32_t start = word(held) & ~3u, size = word(held + 4), count = size & 0x7FFFFFFF;
        if (count == 0)
            return stop(bytes, s, BAD_LENGTH);
        if (!is_in_sram(start, count))
            return stop(bytes, s, BAD_RANGE);
        s[STAGE] = DATA;
        s[START] = start;
        s[VLE] = size >> 31;
        s[NEXT] = start;
        s[OWED] = count;
    }
    memset(bytes + HELD, 0, 8);
    s[PORT] = port;
    s[COUNT] = 0;
    return TAKEN;
}

/* Password or header bytes are taken; there are no more than are wanted. */
static uint32_t gather(uint8_t *bytes, uint32_t *s, uint32_t role, uint32_t port, const uint8_t *data, size_t len)
{
    memcpy(bytes + HELD + s[COUNT], data, len);
    if (s[COUNT] + len == 8)
        return complete(bytes, s, role, port);
    s[STAGE] = role;
    s[PORT] = port;
    s[COUNT] += (uint32_t)len;
    return TAKEN;
}

/* Data bytes are taken; there are no more than are owed. */
static inline uint8_t load(uint8_t *bytes, uint32_t *s, uint8_t *sram, uint32_t identifier,
                           const uint8_t *data, size_t len, uint8_t *echo, uint32_t *answer)
{
    uint8_t *to = sram + (s[NEXT] - SRAM_BASE);
    if (len == 8)
        memcpy(to, data, 8);
    else
        for (size_t i = 0; i < len; i++)
            to[i] = data[i];
    memset(bytes + HELD, 0, 8);
    say(echo, answer, TAKEN, identifier, data, len);
    s[OWED] -= (uint32_t)len;
    if (s[OWED] != 0) {
        s[NEXT] += (uint32_t)len;
        return TAKEN;
    }
    s[STAGE] = JUMPED;
    s[PORT] = 0;
    s[NEXT] = 0;
    answer[NUMBER] = JUMPS;
    answer[JUMP] = s[START];
    answer[JUMP_VLE] = s[VLE];
    return JUMPS;
}

/* A serial byte, to a sound session. */
static inline uint8_t take_byte(uint8_t *bytes, uint32_t *s, uint8_t *sram, uint8_t byte, bool faulty,
                                uint8_t *echo, uint32_t *answer)
{
    uint32_t stage = s[STAGE];
    if (stage == WAITING ? faulty : stage > DATA || s[PORT] != SERIAL)
        return say_nothing(echo, answer, IGNORED);
    if (faulty)
        return say_nothing(echo, answer, stop(bytes, s, FAULTY_BYTE));
    if (stage == DATA)
        return load(bytes, s, sram, 0, &byte, 1, echo, answer);
    return say(echo, answer, gather(bytes, s, stage == HEADER ? HEADER : PASSWORD, SERIAL, &byte, 1), 0, &byte, 1);
}

/* A CAN frame that is not refused for its form, to a sound session. */
static inline uint8_t take_frame(uint8_t *bytes, uint32_t *s, uint8_t *sram, uint32_t identifier,
                                 const uint8_t *data, size_t len, uint8_t *echo, uint32_t *answer)
{
    uint32_t stage = s[STAGE];
    if (s[PORT] == CAN) {
        if (stage == DATA && identifier == DATA_FRAME && 1 <= len && len <= s[OWED])
            return load(bytes, s, sram, 3, data, len, echo, answer);
        if (stage == WAITING && identifier == PASSWORD_FRAME && len == 8)
            return say(echo, answer, gather(bytes, s, PASSWORD, CAN, data, 8), 1, data, 8);
        if (stage == HEADER && identifier == HEADER_FRAME && len == 8)
            return say(echo, answer, gather(bytes, s, HEADER, CAN, data, 8), 2, data, 8);
    }
    return say_nothing(echo, answer, IGNORED);
}

static bool is_formed(uint32_t identifier, size_t len)
{
    return identifier <= LAST_IDENTIFIER && len <= 8;
}

uint8_t plain_flat_fresh(uint32_t mode, const uint8_t *password, size_t password_len,
                           uint8_t *session_bytes, size_t session_bytes_len, uint32_t *session, size_t session_len)
{
    if (mode < DIRECTLY || mode > FROM_EXTERNAL || password_len != 8 ||
        session_bytes_len != SESSION_BYTES || session_len != SESSION_NUMBERS)
        return BAD_SIZE;
    memcpy(session_bytes + SELECTED, password, 8);
    memset(session_bytes + HELD, 0, 8);
    memset(session, 0, SESSION_NUMBERS * sizeof *session);
    session[ENTERED] = mode;
    return TAKEN;
}

uint8_t plain_flat_byte(uint8_t *session_bytes, size_t session_bytes_len, uint32_t *session, size_t session_len,
                        uint8_t *sram, size_t sram_len, uint8_t byte, uint32_t faulty,
                        uint8_t *echo, size_t echo_len, uint32_t *answer, size_t answer_len)
{
    if (sram_len != SRAM_SIZE)
        return BAD_SRAM;
    if (session_bytes_len != SESSION_BYTES || session_len != SESSION_NUMBERS || !is_sound(session))
        return BAD_SESSION;
    if (echo_len != ECHO_BYTES || answer_len != ANSWER_NUMBERS)
        return BAD_SIZE;
    return take_byte(session_bytes, session, sram, byte, faulty != 0, echo, answer);
}

uint8_t plain_flat_frame(uint8_t *session_bytes, size_t session_bytes_len, uint32_t *session, size_t session_len,
                         uint8_t *sram, size_t sram_len, uint32_t identifier, const uint8_t *data, size_t data_len,
                         uint8_t *echo, size_t echo_len, uint32_t *answer, size_t answer_len)
{
    if (sram_len != SRAM_SIZE)
        return BAD_SRAM;
    if (session_bytes_len != SESSION_BYTES || session_len != SESSION_NUMBERS || !is_sound(session))
        return BAD_SESSION;
    if (!is_formed(identifier, data_len))
        return BAD_FORM;
    if (echo_len != ECHO_BYTES || answer_len != ANSWER_NUMBERS)
        return BAD_SIZE;
    return take_frame(session_bytes, session, sram, identifier, data, data_len, echo, answer);
}

/* Whether the kinds and the counts of a list fit each other, and the counts sum up to the bytes. */
static bool is_list(const uint8_t *kinds, const uint32_t *counts, size_t items, size_t bytes_len)
{
    for (size_t i = 0; i < items; i++) {
        if (kinds[i] != FRAME && (counts[i] != 1 || (kinds[i] != CLEAN && kinds[i] != FAULTY)))
            return false;
        if (counts[i] > bytes_len)
            return false;
        bytes_len -= counts[i];
    }
    return bytes_len == 0;
}

uint8_t plain_flat_list(uint8_t *session_bytes, size_t session_bytes_len, uint32_t *session, size_t session_len,
                        uint8_t *sram, size_t sram_len, const uint8_t *kinds, size_t kinds_len,
                        const uint32_t *identifiers, size_t identifiers_len,
                        const uint32_t *counts, size_t counts_len, const uint8_t *bytes, size_t bytes_len,
                        uint8_t *echoes, size_t echoes_len, uint32_t *answers, size_t answers_len)
{
    size_t items = kinds_len;
    if (sram_len != SRAM_SIZE)
        return BAD_SRAM;
    if (session_bytes_len != SESSION_BYTES || session_len != SESSION_NUMBERS || !is_sound(session))
        return BAD_SESSION;
    if (identifiers_len != items || counts_len != items ||
        echoes_len % ECHO_BYTES != 0 || echoes_len / ECHO_BYTES != items ||
        answers_len % ANSWER_NUMBERS != 0 || answers_len / ANSWER_NUMBERS != items ||
        !is_list(kinds, counts, items, bytes_len))
        return BAD_FORM;
    for (size_t i = 0; i < items; i++) {
        if (kinds[i] != FRAME)
            take_byte(session_bytes, session, sram, *bytes, kinds[i] == FAULTY, echoes, answers);
        else if (is_formed(identifiers[i], counts[i]))
            take_frame(session_bytes, session, sram, identifiers[i], bytes, counts[i], echoes, answers);
        else
            say_nothing(echoes, answers, BAD_FORM);
        bytes += counts[i];
        echoes += ECHO_BYTES;
        answers += ANSWER_NUMBERS;
    }
    return TAKEN;
}
