/*
 * The calls that calls.c compares and times: the flat calls of the library, the same calls in plain C (plain.c), and
 * plain C with no interface to keep (direct.c).
 */
#ifndef CALLS_H
#define CALLS_H

#include <stdbool.h>
#include <stddef.h>
#include <stdint.h>

#include "boot_assist.h"

enum { SRAM_SIZE = 65536 };
#define SRAM_BASE 0x40000000u

enum number {
    TAKEN = 0, IGNORED = 1, BAD_PASSWORD = 2, BAD_LENGTH = 3, BAD_RANGE = 4, JUMPS = 5,
    BAD_FORM = 6, BAD_SRAM = 7, BAD_SESSION = 8, BAD_SIZE = 9, FAULTY_BYTE = 12
};
enum stage { WAITING = 0, PASSWORD = 1, HEADER = 2, DATA = 3, STOPPED = 4, JUMPED = 5 };
enum port { CAN = 0, SERIAL = 1 };
enum kind { FRAME = 1, CLEAN = 2, FAULTY = 3 };
enum entered { DIRECTLY = 2, FROM_INTERNAL = 3, FROM_EXTERNAL = 4 };
enum identifier { PASSWORD_FRAME = 0x011, HEADER_FRAME = 0x012, DATA_FRAME = 0x013, LAST_IDENTIFIER = 0x7FF };

/* A flat session: 8 bytes of the password selected and 8 that hold a password or a header; and numbers. */
enum { SELECTED = 0, HELD = 8, SESSION_BYTES = 16 };
enum { STAGE, PORT, COUNT, START, VLE, NEXT, OWED, REFUSAL, ENTERED, SESSION_NUMBERS };

/* A flat answer: the 8 bytes of an echo; and numbers. */
enum { ECHO_BYTES = 8 };
enum { NUMBER, ECHO_IDENTIFIER, ECHO_LENGTH, JUMP, JUMP_VLE, ANSWER_NUMBERS };

typedef uint8_t fresh_call(uint32_t mode, const uint8_t *password, size_t password_len,
                             uint8_t *session_bytes, size_t session_bytes_len,
                             uint32_t *session, size_t session_len);
typedef uint8_t byte_call(uint8_t *session_bytes, size_t session_bytes_len, uint32_t *session, size_t session_len,
                          uint8_t *sram, size_t sram_len, uint8_t byte, uint32_t faulty,
                          uint8_t *echo, size_t echo_len, uint32_t *answer, size_t answer_len);
typedef uint8_t frame_call(uint8_t *session_bytes, size_t session_bytes_len, uint32_t *session, size_t session_len,
                           uint8_t *sram, size_t sram_len, uint32_t identifier, const uint8_t *data, size_t data_len,
                           uint8_t *echo, size_t echo_len, uint32_t *answer, size_t answer_len);
typedef uint8_t list_call(uint8_t *session_bytes, size_t session_bytes_len, uint32_t *session, size_t session_len,
                          uint8_t *sram, size_t sram_len, const uint8_t *kinds, size_t kinds_len,
                          const uint32_t *identifiers, size_t identifiers_len,
                          const uint32_t *counts, size_t counts_len, const uint8_t *bytes, size_t bytes_len,
                          uint8_t *echoes, size_t echoes_len, uint32_t *answers, size_t answers_len);

fresh_call plain_flat_fresh;
byte_call plain_flat_byte;
frame_call plain_flat_frame;
list_call plain_flat_list;

/* Plain C with no interface to keep: the session and the answer are structs by pointer, which only direct.c writes, so
 * that it tests nothing of them, and SRAM has its size. */
struct direct_session {
    uint8_t selected[8];
    uint8_t held[8];
    enum stage stage;
    enum port port;
    unsigned count; /* of the bytes held */
    uint32_t start, next, owed;
    bool vle;
    enum number refusal;
};

struct direct_answer {
    enum number number;
    uint16_t identifier;
    uint8_t length; /* of the echo */
    bool vle;
    uint32_t jump;
    uint8_t echo[8];
};

struct direct_item {
    enum kind kind;
    uint32_t identifier; /* of a frame */
    size_t count;
    const uint8_t *bytes;
};

void direct_fresh(struct direct_session *session, const uint8_t password[8]);
enum number direct_byte(struct direct_session *session, uint8_t sram[SRAM_SIZE], uint8_t byte, bool faulty,
                        struct direct_answer *answer);
enum number direct_frame(struct direct_session *session, uint8_t sram[SRAM_SIZE], uint32_t identifier,
                         const uint8_t *data, size_t count, struct direct_answer *answer);
void direct_list(struct direct_session *session, uint8_t sram[SRAM_SIZE], const struct direct_item *items,
                 size_t items_len, struct direct_answer *answers);

/* Makes at least so many random calls, and ends the program where two answers differ (agree.c). */
void compare_calls(unsigned long calls);

#endif
