/*
 * The boot assist's C interface, for C99, C++11 and later. Link target/staticlib/libboot_assist.a, which
 * `sh examples/library.sh` builds for x86-64 Linux.
 *
 * A head calls boot_assist_choose and, for serial boot, boot_assist_fresh, then boot_assist_frame or boot_assist_byte
 * with each item as it comes. Where the answer's echo_length is not 0 it sends the echo, and where the number is
 * BOOT_ASSIST_JUMPS it then jumps to the answer's jump address: first the echo, then the jump. Where a call is refused
 * (6 to 9) no answer is written and nothing is sent: what the answer still holds is an earlier one's.
 * A truck calls boot_assist_begin, and then in turn boot_assist_ask for an item, which it sends, and boot_assist_tell
 * with the echo that it heard. boot_assist_read reads a capture file.
 *
 * Of every call:
 *
 *  - It answers for every value of its arguments, by a number of the table boot_assist_number.
 *  - A call that returns 6, 7, 8, 9, 10 or 11 is refused and has written nothing: its outputs hold what they held
 *    before. So do those of boot_assist_ask and boot_assist_tell where they return 1. The one exception is
 *    boot_assist_begin: where it does not return 0 it leaves no load going.
 *  - The caller's part is what C cannot say: each pointer is valid for its length (NULL is allowed where the length
 *    is 0), and no output overlaps another argument.
 *  - The library keeps no state and allocates nothing, so calls on different sessions may run at once. A session and
 *    its SRAM are for one call at a time, and so is a sender.
 *  - It needs at most BOOT_ASSIST_STACK bytes of stack.
 */
#ifndef BOOT_ASSIST_H
#define BOOT_ASSIST_H

#include <stddef.h>
#include <stdint.h>
#ifndef __cplusplus
#include <stdbool.h>
#endif

#ifdef __cplusplus
extern "C" {
#endif

/* The version of this interface. Version 1 was that of plain lists of numbers. */
#define BOOT_ASSIST_VERSION 2

/* The stack that a call needs at most, in bytes: measured on x86-64, where boot_assist_list needs the most, and rounded
 * up. The library uses memcpy and memmove of the C library; a program that is linked to look each up only when it is first
 * called (without -z now) needs several thousand bytes more in that one call, for the dynamic linker. */
#define BOOT_ASSIST_STACK 1024

/* The head's SRAM: sram[0] is the byte at BOOT_ASSIST_SRAM_BASE, and the byte at an address is
 * sram[address - BOOT_ASSIST_SRAM_BASE]. */
#define BOOT_ASSIST_SRAM_BASE UINT32_C(0x40000000)
#define BOOT_ASSIST_SRAM_SIZE 65536

#define BOOT_ASSIST_FLASH_MAX 2097152 /* bytes of the longest internal flash */
#define BOOT_ASSIST_SHADOW_SIZE 12
#define BOOT_ASSIST_EXTERNAL_SIZE 8
#define BOOT_ASSIST_PASSWORD_SIZE 8
#define BOOT_ASSIST_FRAME_MAX 8 /* data bytes of the longest CAN frame, and of the longest echo */
#define BOOT_ASSIST_ROWS 5

/* The public password, for an array of BOOT_ASSIST_PASSWORD_SIZE bytes. */
#define BOOT_ASSIST_PUBLIC_PASSWORD {0xFE, 0xED, 0xFA, 0xCE, 0xCA, 0xFE, 0xBE, 0xEF}

/* The identifiers of the CAN frames that a load is sent in, and of their echoes. */
enum boot_assist_identifier {
    BOOT_ASSIST_ECHO_PASSWORD = 0x001,
    BOOT_ASSIST_ECHO_HEADER = 0x002,
    BOOT_ASSIST_ECHO_DATA = 0x003,
    BOOT_ASSIST_FRAME_PASSWORD = 0x011,
    BOOT_ASSIST_FRAME_HEADER = 0x012,
    BOOT_ASSIST_FRAME_DATA = 0x013
};

/* What a call returns. Each call says below which of these it may return. */
enum boot_assist_number {
    BOOT_ASSIST_ANSWERED = 0,         /* the call was answered */
    BOOT_ASSIST_TAKEN = 0,            /* the same of an item: it was taken */
    BOOT_ASSIST_IGNORED = 1,          /* the item was ignored; of a sender: no load is going, or no item is out */
    BOOT_ASSIST_WRONG_PASSWORD = 2,   /* the 8th password byte is in, and the password did not pass: the session is
                                       * stopped */
    BOOT_ASSIST_LENGTH_ZERO = 3,      /* the header is complete, and its length is 0: the session is stopped; of a
                                       * sender: the image has no bytes */
    BOOT_ASSIST_NOT_IN_SRAM = 4,      /* the header is complete, and the load does not lie wholly in SRAM: the session
                                       * is stopped; of a sender: the image would not lie there */
    BOOT_ASSIST_JUMPS = 5,            /* the last byte is stored: the head jumps */
    BOOT_ASSIST_BAD_FORM = 6,         /* the frame's identifier is above 2047 or its count above 8; of a list: its parts
                                       * do not fit each other */
    BOOT_ASSIST_WRONG_SRAM_SIZE = 7,  /* SRAM is not BOOT_ASSIST_SRAM_SIZE bytes */
    BOOT_ASSIST_NOT_SOUND = 8,        /* the session is not sound, or no session has these numbers; of a sender that is
                                       * asked or told: its load is not sound */
    BOOT_ASSIST_NOT_ALLOWED = 9,      /* BOOTCFG, the flash, the shadow row or the external head is of a size that is
                                       * not allowed; also a number that is no mode or no port, and for a fresh session
                                       * a mode that is not serial */
    BOOT_ASSIST_BAD_RECORD = 10,      /* the capture's record is not whole or breaks its rules, or the starting place is
                                       * past the end */
    BOOT_ASSIST_EXTERNAL_ROWS = 11,   /* rows of external boot were asked for, of a choice or of a sound session */
    BOOT_ASSIST_FAULTY_BYTE = 12      /* the byte is faulty, and the session has opened serial and neither stopped nor
                                       * jumped: the session is stopped, with no echo */
};

/* How the head boots. Serial boot says how it was entered: BOOTCFG asked for it, or no good place was found
 * in the internal flash, or the external head was not good. */
enum boot_assist_mode {
    BOOT_ASSIST_MODE_INTERNAL = 0,
    BOOT_ASSIST_MODE_EXTERNAL = 1,
    BOOT_ASSIST_MODE_SERIAL_DIRECTLY = 2,
    BOOT_ASSIST_MODE_SERIAL_FROM_INTERNAL = 3,
    BOOT_ASSIST_MODE_SERIAL_FROM_EXTERNAL = 4
};

enum boot_assist_stage {
    BOOT_ASSIST_STAGE_WAITING = 0,
    BOOT_ASSIST_STAGE_PASSWORD = 1,
    BOOT_ASSIST_STAGE_HEADER = 2,
    BOOT_ASSIST_STAGE_DATA = 3,
    BOOT_ASSIST_STAGE_STOPPED = 4,
    BOOT_ASSIST_STAGE_JUMPED = 5
};

enum boot_assist_port { BOOT_ASSIST_PORT_CAN = 0, BOOT_ASSIST_PORT_SERIAL = 1 };

/* What an item of a list, or a record of a capture file, is. The end mark and the reset are a capture's alone. */
enum boot_assist_kind {
    BOOT_ASSIST_KIND_END = 0,
    BOOT_ASSIST_KIND_FRAME = 1,
    BOOT_ASSIST_KIND_CLEAN = 2,
    BOOT_ASSIST_KIND_FAULTY = 3,
    BOOT_ASSIST_KIND_RESET = 4
};

/* What becomes of a load when the sender is told an echo. */
enum boot_assist_verdict {
    BOOT_ASSIST_VERDICT_GOES_ON = 0,  /* it was the item's echo: ask for the next */
    BOOT_ASSIST_VERDICT_DONE = 1,     /* the last item's echo: on a clean line a fresh head has the image, and jumps */
    BOOT_ASSIST_VERDICT_ABANDONED = 2 /* it was another, or none */
};

/* A boot choice. In a serial choice the place, the jump address, watchdog and bus16 are 0. */
struct boot_assist_choice {
    uint8_t password[BOOT_ASSIST_PASSWORD_SIZE]; /* the password selected */
    uint32_t mode;                               /* a boot_assist_mode */
    uint32_t place;    /* where the half word is: in internal boot its flash address, in external boot 0 */
    uint32_t looked;   /* how many places were looked at, 0 to 6 */
    uint32_t jump;     /* the jump address */
    uint32_t watchdog; /* 1: the half word enables the watchdog */
    uint32_t bus16;    /* 1: the half word says 16-bit external bus */
    uint32_t flash;    /* 1: internal flash on */
    uint32_t nexus;    /* 1: Nexus on */
};

/* An MMU row. */
struct boot_assist_row {
    uint32_t logical;         /* logical base address */
    uint32_t physical;        /* physical base address */
    uint32_t size;            /* in bytes */
    uint32_t cache_inhibited; /* 1: cache inhibited, 0: cache enabled */
    uint32_t guarded;         /* 1: guarded */
    uint32_t big_endian;      /* 1: big endian */
    uint32_t global_pid;      /* 1: global PID */
    uint32_t vle;             /* 1: VLE */
};

/* A session, which the calls write and the caller keeps. A number that the stage does not have is 0: the port is that
 * of the password (always serial), header and data stages; the start is that of the data and jumped stages; VLE is that
 * of the header which was accepted, and 0 if none was, and the stopped stage has it where the refusal is 12; the next
 * address and the bytes owed are those of the data stage; the refusal is that of the stopped stage. The places of held
 * behind count may hold any byte; they keep it while more bytes are gathered, and after an item that is taken and
 * leaves none held, or that stops the session, all are 0. The password selected and entered are those of every stage,
 * and no item changes them. */
struct boot_assist_session {
    uint8_t selected[BOOT_ASSIST_PASSWORD_SIZE]; /* the password selected by the boot choice */
    uint8_t held[8];                             /* the first count are held */
    uint32_t stage;                              /* a boot_assist_stage */
    uint32_t port;                               /* a boot_assist_port */
    uint32_t count;                              /* how many password or header bytes are held */
    uint32_t start;                              /* the start address, which is the jump address */
    uint32_t vle;                                /* 1: VLE code */
    uint32_t next;                               /* the address of the next byte */
    uint32_t owed;                               /* how many bytes are still owed */
    uint32_t refusal;                            /* the number that stopped the session: 2, 3, 4 or 12 */
    uint32_t entered; /* how serial boot was entered: the boot_assist_mode of its choice, 2, 3 or 4 */
};

/* An answer to an item. Where there is no echo its identifier, length and bytes are 0; the identifier is 0 for serial
 * too. The jump address and VLE are 0 unless the number is 5. */
struct boot_assist_answer {
    uint8_t echo[BOOT_ASSIST_FRAME_MAX]; /* the first echo_length are echoed; the others are 0 */
    uint32_t number;                      /* the number that the call returns, unless it is refused */
    uint32_t echo_identifier;             /* CAN: BOOT_ASSIST_ECHO_PASSWORD, _HEADER or _DATA */
    uint32_t echo_length;
    uint32_t jump;
    uint32_t vle; /* 1: VLE code */
};

/* A sender, the truck's side of a load, which the calls write and the caller keeps. A call that ends a load, or refuses
 * to begin one, writes 0 for all; where going is 0 the others are not looked at. In going, vle and out a number above 1
 * is read as 1, in port as serial; a call that writes the sender writes what it read. */
struct boot_assist_sender {
    uint8_t password[BOOT_ASSIST_PASSWORD_SIZE]; /* the password that is sent */
    uint32_t going;                              /* 1: a load is going */
    uint32_t port;                               /* a boot_assist_port */
    uint32_t start;                              /* the start address as given */
    uint32_t vle;                                /* 1: VLE code */
    uint32_t image_length;                       /* of the image that the load was begun with */
    uint32_t place; /* how many bytes of password, header and image come before the item */
    uint32_t out;   /* 1: the item has been asked for, and its echo not told yet */
};

/* An item to send: a CAN frame, or a clean serial byte. */
struct boot_assist_item {
    uint8_t bytes[BOOT_ASSIST_FRAME_MAX]; /* the first count are the item's; the others are 0 */
    uint32_t port;                         /* a boot_assist_port */
    uint32_t identifier;                   /* CAN: BOOT_ASSIST_FRAME_PASSWORD, _HEADER or _DATA; serial: 0 */
    uint32_t count;                        /* CAN: 1 to 8; serial: 1 */
};

/* A record of a capture file. */
struct boot_assist_record {
    size_t kind;       /* a boot_assist_kind */
    size_t next;       /* where the next record starts; at the end mark, the end */
    size_t body_start; /* where the body starts in the capture */
    size_t body_count; /* how many bytes the body has */
};

/*
 * The boot choice.
 *
 * bootcfg       the BOOTCFG pins, 0 to 3; any other number gets 9
 * flash         the internal flash from address 0, at most BOOT_ASSIST_FLASH_MAX bytes
 * shadow        the flash password (8 bytes), censorship control (2), serial boot control (2)
 * external      the external head: the first 8 bytes of external memory
 * choice        written
 *
 * Returns 0; or 9 for another BOOTCFG or a longer flash.
 */
static inline uint8_t boot_assist_choose(uint32_t bootcfg,
                                         const uint8_t *flash, size_t flash_len,
                                         const uint8_t shadow[BOOT_ASSIST_SHADOW_SIZE],
                                         const uint8_t external[BOOT_ASSIST_EXTERNAL_SIZE],
                                         struct boot_assist_choice *choice);

/*
 * The MMU rows of a boot choice: of internal boot, and of serial boot entered directly or from internal. A choice has
 * accepted no header, so VLE is clear in every row.
 *
 * mode          the choice's mode
 * rows          entries 0 to 4, written
 *
 * Returns 0; or 9 for a number that is no mode; or 11 for external boot and for serial boot entered from external.
 */
static inline uint8_t boot_assist_choice_rows(uint32_t mode, struct boot_assist_row rows[BOOT_ASSIST_ROWS]);

/*
 * A fresh session, from a serial boot choice; a reset is a new boot choice, and SRAM keeps its bytes.
 *
 * mode          the choice's mode: one of the three of serial boot
 * password      the choice's password (not this session's own: no output overlaps another argument)
 * session       written
 *
 * Returns 0; or 9 for another mode.
 */
static inline uint8_t boot_assist_fresh(uint32_t mode, const uint8_t password[BOOT_ASSIST_PASSWORD_SIZE],
                                        struct boot_assist_session *session);

/*
 * The MMU rows of a session. VLE on entries 1 to 3 is that of the header which the session has accepted, the session's
 * vle; where it has accepted none, VLE is clear.
 *
 * session       as the last call left it; only read
 * rows          as for a boot choice, written
 *
 * Returns 0; or 8, then 11 for serial boot entered from external.
 */
static inline uint8_t boot_assist_session_rows(const struct boot_assist_session *session,
                                               struct boot_assist_row rows[BOOT_ASSIST_ROWS]);

/*
 * One CAN frame, and one serial byte.
 *
 * Frames are standard ones, with identifiers of 11 bits. An extended frame (29 bits) must not be handed in as one,
 * whatever its identifier is; and a remote frame, which has no data, must not be handed in at all.
 *
 * session       as the last call left it; written
 * sram          BOOT_ASSIST_SRAM_SIZE bytes; data bytes are stored in it
 * identifier    of the frame, any
 * data          of the frame, of any length
 * byte          the serial byte
 * faulty        whether the UART reported an error with this byte; the error bits of its status may be handed in as
 *               they are
 * answer        written
 *
 * Returns the number of the answer, 0 to 5 or, of a byte, 12; or 7, then 8, then, of a frame, 6.
 */
static inline uint8_t boot_assist_frame(struct boot_assist_session *session,
                                        uint8_t *sram, size_t sram_len,
                                        uint32_t identifier,
                                        const uint8_t *data, size_t data_len,
                                        struct boot_assist_answer *answer);

static inline uint8_t boot_assist_byte(struct boot_assist_session *session,
                                       uint8_t *sram, size_t sram_len,
                                       uint8_t byte, bool faulty,
                                       struct boot_assist_answer *answer);

/* Where the numbers of an answer stand among those of a list: those of item i from i * BOOT_ASSIST_ANSWER_NUMBERS on. */
enum boot_assist_at {
    BOOT_ASSIST_AT_NUMBER = 0,
    BOOT_ASSIST_AT_ECHO_IDENTIFIER = 1,
    BOOT_ASSIST_AT_ECHO_LENGTH = 2,
    BOOT_ASSIST_AT_JUMP = 3,
    BOOT_ASSIST_AT_VLE = 4,
    BOOT_ASSIST_ANSWER_NUMBERS = 5
};

/*
 * A list of items, one call after another.
 *
 * session, sram as for one item; written
 * items         how many items there are
 * kinds         a boot_assist_kind for each item: a frame, a clean or a faulty byte
 * identifiers   a number for each item: of a frame its identifier; of a serial byte it is not looked at
 * counts        a number for each item: how many of the bytes are its own, of a serial byte 1
 * bytes         the bytes of all items, one item's behind another's
 * echoes        BOOT_ASSIST_FRAME_MAX bytes for each item, written: the answer's echo
 * answers       BOOT_ASSIST_ANSWER_NUMBERS numbers for each item, written in the order of boot_assist_at
 *
 * Returns 0, also for a list of no items; or 7, then 8, then 6 where a kind or the counts, whose sum is the number of
 * bytes, do not fit. An item that is refused for its form has its 6 in its answer.
 */
static inline uint8_t boot_assist_list(struct boot_assist_session *session,
                                       uint8_t *sram, size_t sram_len,
                                       size_t items,
                                       const uint8_t *kinds, const uint32_t *identifiers, const uint32_t *counts,
                                       const uint8_t *bytes, size_t bytes_len,
                                       uint8_t *echoes, uint32_t *answers);

/*
 * Begins a load, whatever the sender held before. The head must be fresh (boot_assist_tell says why).
 *
 * port          a boot_assist_port
 * start         the start address, sent as it is; the head drops its two lowest bits
 * vle           whether it is VLE code
 * password      sent as it is
 * image         the bytes to load; they stay the caller's, and are handed in again with each call
 * sender        written
 *
 * Returns 0, and a load is going; or 9 for a number that is no port, then 3, then 4, each of which leaves no load
 * going.
 */
static inline uint8_t boot_assist_begin(uint32_t port, uint32_t start, bool vle,
                                        const uint8_t password[BOOT_ASSIST_PASSWORD_SIZE],
                                        const uint8_t *image, size_t image_len,
                                        struct boot_assist_sender *sender);

/*
 * Asks for the next item of the load. Asking again gives the same item, until its echo is told.
 *
 * sender        as the last call left it; written
 * image         the image that the load was begun with; of another one only another length is noticed
 * item          written
 *
 * Returns 0; or 1 with no load going, then 8 for a load that is not sound. A load is sound unless its start and length
 * would get 3 or 4, no item of it begins at its place (by CAN items begin at 0, 8, 16 and then every 8 bytes, by serial
 * at every byte, and none behind the last), or the image has another length than the one that it was begun with.
 */
static inline uint8_t boot_assist_ask(struct boot_assist_sender *sender,
                                      const uint8_t *image, size_t image_len,
                                      struct boot_assist_item *item);

/*
 * Tells the sender the echo of the item that is out. The head must be fresh when a load is begun, and an abandoned
 * load leaves it as it is. Without a reset a serial head that has not stopped or jumped takes and echoes the next
 * load's bytes as the rest of the old one, so that even done does not mean that it has the image; a CAN head that has
 * its password ignores the next load's, which is abandoned too. A head whose last echo was lost on the way has
 * jumped, though its load is abandoned. An echo tells what its bytes are and not which item they were sent for: where
 * one is lost and another doubled, done can be said of a head that is still owed bytes.
 *
 * sender, image as for asking; the sender is written, and done and abandoned leave it with no load
 * port          a boot_assist_port: where the echo was heard
 * identifier    of a CAN echo, any; of a serial one it is not looked at
 * bytes         the bytes that were heard, of any length; if nothing came, of length 0, by either port
 * verdict       written: a boot_assist_verdict; not NULL
 *
 * Returns 0; or 1 with no load going, then 8 for a load that is not sound, then 1 with no item out, then 9 for a number
 * that is no port.
 */
static inline uint8_t boot_assist_tell(struct boot_assist_sender *sender,
                                       const uint8_t *image, size_t image_len,
                                       uint32_t port, uint32_t identifier,
                                       const uint8_t *bytes, size_t bytes_len,
                                       uint8_t *verdict);

/*
 * The record at a place of a capture file. The body of a frame is two identifier bytes, the higher first, and its data;
 * that of a serial byte is the byte; a reset and the end mark have none.
 *
 * capture       the capture, of any length
 * at            a place in it, any number: 0, and then the next place that the last call wrote
 * record        written
 *
 * Returns 0 or 10.
 */
static inline uint8_t boot_assist_read(const uint8_t *capture, size_t capture_len,
                                       size_t at,
                                       struct boot_assist_record *record);

/*
 * The flat calls: what the library exports, for other languages and for callers with lists of their own. The typed
 * calls above hand the members of a struct on to them where they lie, and decide nothing. NAME_len is how many elements
 * NAME has: bytes of a uint8_t list, numbers (not bytes) of a uint32_t or size_t list. These are the lengths, and the
 * orders:
 */
enum boot_assist_length {
    BOOT_ASSIST_CHOICE_NUMBERS = 8,  /* fields: mode, place, looked, jump, watchdog, bus16, flash, nexus */
    BOOT_ASSIST_ROW_NUMBERS = 8,     /* rows, for each of the 5: logical, physical, size, cache_inhibited, guarded,
                                      * big_endian, global_pid, vle */
    BOOT_ASSIST_SESSION_BYTES = 16,  /* session_bytes: selected (8), held (8) */
    BOOT_ASSIST_SESSION_NUMBERS = 9, /* session: stage, port, count, start, vle, next, owed, refusal, entered */
    BOOT_ASSIST_SENDER_NUMBERS = 7,  /* sender: going, port, start, vle, image_length, place, out */
    BOOT_ASSIST_ITEM_NUMBERS = 3,    /* item: port, identifier, count */
    BOOT_ASSIST_RECORD_NUMBERS = 4   /* record: kind, next, body_start, body_count */
};

/*
 * An answer has BOOT_ASSIST_ANSWER_NUMBERS in the order of boot_assist_at. A password, the external head, an echo,
 * sender_bytes and item_bytes have 8 bytes, the shadow row 12; echoes and answers have as many for each
 * item of a list. Of faulty and vle 0 means no, any other number yes.
 *
 * What is handed in or written with another length gets this number:
 *
 *   9 before any other   a password, the shadow row, the external head; a choice, a fresh session or a sender that is
 *                        begun, none of which is then written (but a password of another length leaves no load going)
 *   9 after the others   rows, an echo or its answer, an item, a record
 *   8                    a session that is handed in, as if it were not sound (so after 7); a sender that is asked or
 *                        told, before any other number
 *   6                    what a list has for each item, echoes and answers among it, as if its parts did not fit
 */
uint8_t boot_assist_flat_choose(uint32_t bootcfg,
                                const uint8_t *flash, size_t flash_len,
                                const uint8_t *shadow, size_t shadow_len,
                                const uint8_t *external, size_t external_len,
                                uint32_t *fields, size_t fields_len,
                                uint8_t *password, size_t password_len);

uint8_t boot_assist_flat_choice_rows(uint32_t mode, uint32_t *rows, size_t rows_len);

uint8_t boot_assist_flat_fresh(uint32_t mode,
                                 const uint8_t *password, size_t password_len,
                                 uint8_t *session_bytes, size_t session_bytes_len,
                                 uint32_t *session, size_t session_len);

uint8_t boot_assist_flat_session_rows(const uint8_t *session_bytes, size_t session_bytes_len,
                                      const uint32_t *session, size_t session_len,
                                      uint32_t *rows, size_t rows_len);

uint8_t boot_assist_flat_frame(uint8_t *session_bytes, size_t session_bytes_len,
                               uint32_t *session, size_t session_len,
                               uint8_t *sram, size_t sram_len,
                               uint32_t identifier,
                               const uint8_t *data, size_t data_len,
                               uint8_t *echo, size_t echo_len,
                               uint32_t *answer, size_t answer_len);

uint8_t boot_assist_flat_byte(uint8_t *session_bytes, size_t session_bytes_len,
                              uint32_t *session, size_t session_len,
                              uint8_t *sram, size_t sram_len,
                              uint8_t byte, uint32_t faulty,
                              uint8_t *echo, size_t echo_len,
                              uint32_t *answer, size_t answer_len);

uint8_t boot_assist_flat_list(uint8_t *session_bytes, size_t session_bytes_len,
                              uint32_t *session, size_t session_len,
                              uint8_t *sram, size_t sram_len,
                              const uint8_t *kinds, size_t kinds_len,
                              const uint32_t *identifiers, size_t identifiers_len,
                              const uint32_t *counts, size_t counts_len,
                              const uint8_t *bytes, size_t bytes_len,
                              uint8_t *echoes, size_t echoes_len,
                              uint32_t *answers, size_t answers_len);

uint8_t boot_assist_flat_begin(uint32_t port, uint32_t start, uint32_t vle,
                               const uint8_t *password, size_t password_len,
                               const uint8_t *image, size_t image_len,
                               uint8_t *sender_bytes, size_t sender_bytes_len,
                               uint32_t *sender, size_t sender_len);

uint8_t boot_assist_flat_ask(uint8_t *sender_bytes, size_t sender_bytes_len,
                             uint32_t *sender, size_t sender_len,
                             const uint8_t *image, size_t image_len,
                             uint8_t *item_bytes, size_t item_bytes_len,
                             uint32_t *item, size_t item_len);

uint8_t boot_assist_flat_tell(uint8_t *sender_bytes, size_t sender_bytes_len,
                              uint32_t *sender, size_t sender_len,
                              const uint8_t *image, size_t image_len,
                              uint32_t port, uint32_t identifier,
                              const uint8_t *bytes, size_t bytes_len,
                              uint8_t *verdict);

uint8_t boot_assist_flat_read(const uint8_t *capture, size_t capture_len,
                              size_t at,
                              size_t *record, size_t record_len);

/* The rest is how the typed calls hand their arguments on. In each struct the bytes come first and the numbers lie one
 * after the other behind them, as the assertions say, so both are handed on as lists where they lie. (That C lets a
 * pointer to one number reach the next rests on the flat calls' being compiled apart.) */
#if defined(__cplusplus)
#define BOOT_ASSIST_HOLDS_(name, fact) static_assert(fact, #name)
#elif defined(__STDC_VERSION__) && __STDC_VERSION__ >= 201112L
#define BOOT_ASSIST_HOLDS_(name, fact) _Static_assert(fact, #name)
#else
#define BOOT_ASSIST_HOLDS_(name, fact) typedef char name[(fact) ? 1 : -1]
#endif
#define BOOT_ASSIST_LAID_OUT_(type, first, bytes, numbers)                                                             \
    BOOT_ASSIST_HOLDS_(type##_is_laid_out, offsetof(struct type, first) == (bytes) &&                                  \
                                               sizeof(struct type) == (bytes) + (numbers) * sizeof(uint32_t))
BOOT_ASSIST_LAID_OUT_(boot_assist_choice, mode, BOOT_ASSIST_PASSWORD_SIZE, BOOT_ASSIST_CHOICE_NUMBERS);
BOOT_ASSIST_LAID_OUT_(boot_assist_row, logical, 0, BOOT_ASSIST_ROW_NUMBERS);
BOOT_ASSIST_LAID_OUT_(boot_assist_session, stage, BOOT_ASSIST_SESSION_BYTES, BOOT_ASSIST_SESSION_NUMBERS);
BOOT_ASSIST_LAID_OUT_(boot_assist_answer, number, BOOT_ASSIST_FRAME_MAX, BOOT_ASSIST_ANSWER_NUMBERS);
BOOT_ASSIST_LAID_OUT_(boot_assist_sender, going, BOOT_ASSIST_PASSWORD_SIZE, BOOT_ASSIST_SENDER_NUMBERS);
BOOT_ASSIST_LAID_OUT_(boot_assist_item, port, BOOT_ASSIST_FRAME_MAX, BOOT_ASSIST_ITEM_NUMBERS);
BOOT_ASSIST_HOLDS_(boot_assist_record_is_laid_out, offsetof(struct boot_assist_record, kind) == 0 &&
                   sizeof(struct boot_assist_record) == BOOT_ASSIST_RECORD_NUMBERS * sizeof(size_t));
#undef BOOT_ASSIST_LAID_OUT_
#undef BOOT_ASSIST_HOLDS_

static inline uint8_t boot_assist_choose(uint32_t bootcfg,
                                         const uint8_t *flash, size_t flash_len,
                                         const uint8_t shadow[BOOT_ASSIST_SHADOW_SIZE],
                                         const uint8_t external[BOOT_ASSIST_EXTERNAL_SIZE],
                                         struct boot_assist_choice *choice)
{
    return boot_assist_flat_choose(bootcfg, flash, flash_len, shadow, BOOT_ASSIST_SHADOW_SIZE,
                                   external, BOOT_ASSIST_EXTERNAL_SIZE, &choice->mode, BOOT_ASSIST_CHOICE_NUMBERS,
                                   choice->password, BOOT_ASSIST_PASSWORD_SIZE);
}

static inline uint8_t boot_assist_choice_rows(uint32_t mode, struct boot_assist_row rows[BOOT_ASSIST_ROWS])
{
    return boot_assist_flat_choice_rows(mode, &rows->logical, BOOT_ASSIST_ROWS * BOOT_ASSIST_ROW_NUMBERS);
}

static inline uint8_t boot_assist_fresh(uint32_t mode, const uint8_t password[BOOT_ASSIST_PASSWORD_SIZE],
                                        struct boot_assist_session *session)
{
    return boot_assist_flat_fresh(mode, password, BOOT_ASSIST_PASSWORD_SIZE,
                                  (uint8_t *)session, BOOT_ASSIST_SESSION_BYTES,
                                  &session->stage, BOOT_ASSIST_SESSION_NUMBERS);
}

static inline uint8_t boot_assist_session_rows(const struct boot_assist_session *session,
                                               struct boot_assist_row rows[BOOT_ASSIST_ROWS])
{
    return boot_assist_flat_session_rows((const uint8_t *)session, BOOT_ASSIST_SESSION_BYTES,
                                         &session->stage, BOOT_ASSIST_SESSION_NUMBERS,
                                         &rows->logical, BOOT_ASSIST_ROWS * BOOT_ASSIST_ROW_NUMBERS);
}

static inline uint8_t boot_assist_frame(struct boot_assist_session *session,
                                        uint8_t *sram, size_t sram_len,
                                        uint32_t identifier,
                                        const uint8_t *data, size_t data_len,
                                        struct boot_assist_answer *answer)
{
    return boot_assist_flat_frame((uint8_t *)session, BOOT_ASSIST_SESSION_BYTES,
                                  &session->stage, BOOT_ASSIST_SESSION_NUMBERS,
                                  sram, sram_len, identifier, data, data_len,
                                  answer->echo, BOOT_ASSIST_FRAME_MAX, &answer->number, BOOT_ASSIST_ANSWER_NUMBERS);
}

static inline uint8_t boot_assist_byte(struct boot_assist_session *session,
                                       uint8_t *sram, size_t sram_len,
                                       uint8_t byte, bool faulty,
                                       struct boot_assist_answer *answer)
{
    return boot_assist_flat_byte((uint8_t *)session, BOOT_ASSIST_SESSION_BYTES,
                                 &session->stage, BOOT_ASSIST_SESSION_NUMBERS,
                                 sram, sram_len, byte, faulty ? 1 : 0,
                                 answer->echo, BOOT_ASSIST_FRAME_MAX, &answer->number, BOOT_ASSIST_ANSWER_NUMBERS);
}

static inline uint8_t boot_assist_list(struct boot_assist_session *session,
                                       uint8_t *sram, size_t sram_len,
                                       size_t items,
                                       const uint8_t *kinds, const uint32_t *identifiers, const uint32_t *counts,
                                       const uint8_t *bytes, size_t bytes_len,
                                       uint8_t *echoes, uint32_t *answers)
{
    return boot_assist_flat_list((uint8_t *)session, BOOT_ASSIST_SESSION_BYTES,
                                 &session->stage, BOOT_ASSIST_SESSION_NUMBERS,
                                 sram, sram_len, kinds, items, identifiers, items, counts, items, bytes, bytes_len,
                                 echoes, items * BOOT_ASSIST_FRAME_MAX, answers, items * BOOT_ASSIST_ANSWER_NUMBERS);
}

static inline uint8_t boot_assist_begin(uint32_t port, uint32_t start, bool vle,
                                        const uint8_t password[BOOT_ASSIST_PASSWORD_SIZE],
                                        const uint8_t *image, size_t image_len,
                                        struct boot_assist_sender *sender)
{
    return boot_assist_flat_begin(port, start, vle ? 1 : 0, password, BOOT_ASSIST_PASSWORD_SIZE, image, image_len,
                                  sender->password, BOOT_ASSIST_PASSWORD_SIZE,
                                  &sender->going, BOOT_ASSIST_SENDER_NUMBERS);
}

static inline uint8_t boot_assist_ask(struct boot_assist_sender *sender,
                                      const uint8_t *image, size_t image_len,
                                      struct boot_assist_item *item)
{
    return boot_assist_flat_ask(sender->password, BOOT_ASSIST_PASSWORD_SIZE,
                                &sender->going, BOOT_ASSIST_SENDER_NUMBERS, image, image_len,
                                item->bytes, BOOT_ASSIST_FRAME_MAX, &item->port, BOOT_ASSIST_ITEM_NUMBERS);
}

static inline uint8_t boot_assist_tell(struct boot_assist_sender *sender,
                                       const uint8_t *image, size_t image_len,
                                       uint32_t port, uint32_t identifier,
                                       const uint8_t *bytes, size_t bytes_len,
                                       uint8_t *verdict)
{
    return boot_assist_flat_tell(sender->password, BOOT_ASSIST_PASSWORD_SIZE,
                                 &sender->going, BOOT_ASSIST_SENDER_NUMBERS, image, image_len,
                                 port, identifier, bytes, bytes_len, verdict);
}

static inline uint8_t boot_assist_read(const uint8_t *capture, size_t capture_len,
                                       size_t at,
                                       struct boot_assist_record *record)
{
    return boot_assist_flat_read(capture, capture_len, at, &record->kind, BOOT_ASSIST_RECORD_NUMBERS);
}

#ifdef __cplusplus
}
#endif

#endif
