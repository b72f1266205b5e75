/*
 * Whether the library, plain.c and direct.c answer alike: random calls, shaped like the protocol and damaged, to each.
 * After every call of the library and of plain.c the number, the session, SRAM, echo and answer are compared, with some
 * places behind each list, which no call may write. direct.c, which tests less, gets the items of sessions that began
 * fresh, and its SRAM is compared after the last of them. The calls are the same in every run.
 */
#include <stdio.h>
#include <stdlib.h>
#include <string.h>

#include "calls.h"

enum { MOST_ITEMS = 24, LONGEST = 272, BEHIND = 4 };

static const uint8_t public_password[8] = {0xFE, 0xED, 0xFA, 0xCE, 0xCA, 0xFE, 0xBE, 0xEF};

/* All that a call may write, and some places behind each list. */
struct memory {
    uint8_t session_bytes[SESSION_BYTES + BEHIND];
    uint32_t session[SESSION_NUMBERS + BEHIND];
    uint8_t echoes[(MOST_ITEMS + 2) * ECHO_BYTES];
    uint32_t answers[(MOST_ITEMS + 2) * ANSWER_NUMBERS];
    uint8_t sram[SRAM_SIZE + BEHIND];
};

/* The lengths of those lists. */
struct lengths {
    size_t session_bytes, session, echoes, answers, sram;
};

struct item {
    uint8_t kind;
    uint32_t identifier;
    size_t count;
    uint8_t bytes[LONGEST];
};

/* The flat lists of some items. */
struct list {
    size_t kinds_len, identifiers_len, counts_len, bytes_len;
    uint8_t kinds[MOST_ITEMS + 1];
    uint32_t identifiers[MOST_ITEMS + 1], counts[MOST_ITEMS + 1];
    uint8_t bytes[MOST_ITEMS * LONGEST + 1];
};

/* What is meant to be sent. */
struct plan {
    enum port port;
    uint8_t password[8], header[8];
    size_t count; /* of a data frame */
};

static const struct program {
    fresh_call *session;
    byte_call *byte;
    frame_call *frame;
    list_call *list;
} library = {boot_assist_flat_fresh, boot_assist_flat_byte, boot_assist_flat_frame, boot_assist_flat_list},
  plain = {plain_flat_fresh, plain_flat_byte, plain_flat_frame, plain_flat_list};

static struct memory ours, theirs;
static struct memory before; /* ours before the call, but for SRAM */
static bool has_direct;      /* whether direct.c has had all items that were taken */
static struct direct_session direct;
static uint8_t direct_sram[SRAM_SIZE];
static unsigned long made; /* how many calls */

/* A random number (splitmix64), one below n, and true once in n times. */
static uint64_t number(void)
{
    static uint64_t state = 1;
    uint64_t z = state += 0x9E3779B97F4A7C15;
    z = (z ^ z >> 30) * 0xBF58476D1CE4E5B9;
    z = (z ^ z >> 27) * 0x94D049BB133111EB;
    return z ^ z >> 31;
}

static uint32_t below(uint32_t n)
{
    return (uint32_t)((number() >> 32) * n >> 32);
}

static bool chance(uint32_t n)
{
    return below(n) == 0;
}

#define PICK(list) ((list)[below(sizeof(list) / sizeof *(list))])

static void fill(void *to, size_t len)
{
    for (uint8_t *byte = to; len > 0; len--)
        *byte++ = (uint8_t)number();
}

/* A list of no places may be NULL. */
static void *at(const void *list, size_t len)
{
    return len == 0 ? NULL : (void *)list;
}

static void print_bytes(const char *name, const uint8_t *bytes, size_t len)
{
    printf("    %s (%zu):", name, len);
    for (size_t i = 0; i < len; i++)
        printf(" %02X", bytes[i]);
    printf("\n");
}

static void print_numbers(const char *name, const uint32_t *numbers, size_t len)
{
    printf("    %s (%zu):", name, len);
    for (size_t i = 0; i < len; i++)
        printf(" %X", (unsigned)numbers[i]);
    printf("\n");
}

static void print_memory(const char *name, const struct memory *memory, size_t items)
{
    printf("  %s\n", name);
    print_bytes("session bytes", memory->session_bytes, sizeof memory->session_bytes);
    print_numbers("session", memory->session, SESSION_NUMBERS + BEHIND);
    print_bytes("echoes", memory->echoes, (items + 2) * ECHO_BYTES);
    print_numbers("answers", memory->answers, (items + 2) * ANSWER_NUMBERS);
}

static void print_item(const struct item *item)
{
    printf("  item of kind %u, identifier %X\n", item->kind, (unsigned)item->identifier);
    print_bytes("data", item->bytes, item->count);
}

static void print_list(const struct list *list)
{
    printf("  list\n");
    print_bytes("kinds", list->kinds, list->kinds_len);
    print_numbers("identifiers", list->identifiers, list->identifiers_len);
    print_numbers("counts", list->counts, list->counts_len);
    print_bytes("bytes", list->bytes, list->bytes_len);
}

/* A difference: prints the call and what it left, and ends the program. Lists are in hex. */
static void differ(const struct item *item, const struct list *list, const struct lengths *lengths,
                   unsigned our_number, unsigned their_number)
{
    size_t items = list != NULL ? list->kinds_len : 1;
    printf("call %lu: the library and plain.c give %u and %u\n", made, our_number, their_number);
    printf("  lengths: session bytes %zu, session %zu, SRAM %zu, echoes %zu, answers %zu\n", lengths->session_bytes,
           lengths->session, lengths->sram, lengths->echoes, lengths->answers);
    if (list != NULL)
        print_list(list);
    else if (item != NULL)
        print_item(item);
    print_memory("before", &before, items);
    print_memory("after the library's call", &ours, items);
    print_memory("after plain.c's", &theirs, items);
    for (size_t i = 0; i < sizeof ours.sram; i++)
        if (ours.sram[i] != theirs.sram[i])
            printf("  SRAM at %zX: %02X and %02X\n", i, ours.sram[i], theirs.sram[i]);
    exit(1);
}

static void differ_direct(const struct item *item, const struct direct_answer *answer)
{
    printf("call %lu: direct.c gives %u\n", made, (unsigned)answer->number);
    if (item != NULL)
        print_item(item);
    print_bytes("echo", answer->echo, answer->length);
    print_memory("before", &before, 1);
    print_memory("after the library's call", &ours, 1);
    exit(1);
}

/* What a call writes holds the same random places for both before it. */
static void prepare(size_t items)
{
    fill(ours.echoes, (items + 2) * ECHO_BYTES);
    fill(ours.answers, (items + 2) * ANSWER_NUMBERS * sizeof *ours.answers);
    memcpy(theirs.echoes, ours.echoes, (items + 2) * ECHO_BYTES);
    memcpy(theirs.answers, ours.answers, (items + 2) * ANSWER_NUMBERS * sizeof *ours.answers);
    memcpy(&before, &ours, offsetof(struct memory, sram));
    made++;
}

static bool are_alike(void)
{
    return memcmp(&ours, &theirs, sizeof ours) == 0;
}

/* Another length, at most so many places more. */
static size_t bend_length(size_t len, size_t more)
{
    return chance(3) ? len + more : chance(2) ? len + 1 : below((uint32_t)len + 1);
}

/* Lengths that are right, or of which some are wrong. */
static struct lengths make_lengths(size_t items)
{
    struct lengths lengths = {SESSION_BYTES, SESSION_NUMBERS, items * ECHO_BYTES, items * ANSWER_NUMBERS, SRAM_SIZE};
    if (!chance(10))
        return lengths;
    if (chance(3))
        lengths.session_bytes = bend_length(SESSION_BYTES, BEHIND);
    if (chance(3))
        lengths.session = bend_length(SESSION_NUMBERS, BEHIND);
    if (chance(3))
        lengths.echoes = bend_length(lengths.echoes, ECHO_BYTES);
    if (chance(3))
        lengths.answers = bend_length(lengths.answers, ANSWER_NUMBERS);
    if (chance(3))
        lengths.sram = chance(4) ? SRAM_SIZE - 1 : bend_length(SRAM_SIZE, BEHIND);
    return lengths;
}

/* A fresh session in both memories. */
static void begin_fresh(const uint8_t password[12])
{
    struct lengths lengths = {SESSION_BYTES, SESSION_NUMBERS, ECHO_BYTES, ANSWER_NUMBERS, SRAM_SIZE};
    uint32_t mode = DIRECTLY + below(3);
    size_t password_len = 8;
    has_direct = !chance(8);
    if (!has_direct) {
        static const uint32_t modes[] = {0, 1, 2, 3, 4, 5, 0x102, 0xFFFFFFFF};
        lengths = make_lengths(1);
        mode = PICK(modes);
        password_len = chance(2) ? 8 : below(12);
    }
    prepare(0);
    uint8_t our_number = library.session(mode, at(password, password_len), password_len,
                                         at(ours.session_bytes, lengths.session_bytes), lengths.session_bytes,
                                         at(ours.session, lengths.session), lengths.session);
    uint8_t their_number = plain.session(mode, at(password, password_len), password_len,
                                         at(theirs.session_bytes, lengths.session_bytes), lengths.session_bytes,
                                         at(theirs.session, lengths.session), lengths.session);
    if (our_number != their_number || !are_alike()) {
        printf("  fresh session: mode %X, a password of %zu bytes\n", (unsigned)mode, password_len);
        differ(NULL, NULL, &lengths, our_number, their_number);
    }
    if (has_direct) {
        direct_fresh(&direct, password);
        memcpy(direct_sram, ours.sram, SRAM_SIZE);
    }
}

static const uint32_t odd_numbers[] = {
    0, 1, 2, 3, 4, 5, 6, 7, 8, 9, 12, 0xFF, 0x100, 0x101, 0x102, 0x103, SRAM_SIZE, SRAM_BASE - 1, SRAM_BASE,
    SRAM_BASE + 1, SRAM_BASE + 4, SRAM_BASE + SRAM_SIZE - 1, SRAM_BASE + SRAM_SIZE, 0x80000000, 0xFFFFFFFF
};

/* The numbers of a sound session. */
static void make_sound(uint32_t *s)
{
    static const uint32_t refusals[] = {BAD_PASSWORD, BAD_LENGTH, BAD_RANGE, FAULTY_BYTE};
    memset(s, 0, SESSION_NUMBERS * sizeof *s);
    s[ENTERED] = DIRECTLY + below(3);
    s[STAGE] = below(7) % 6 == 0 ? DATA : below(6);
    switch (s[STAGE]) {
    case PASSWORD:
        s[PORT] = SERIAL;
        s[COUNT] = 1 + below(7);
        break;
    case HEADER:
        s[PORT] = below(2);
        s[COUNT] = s[PORT] == SERIAL ? below(8) : 0;
        break;
    case DATA:
        s[PORT] = below(2);
        s[NEXT] = SRAM_BASE + (chance(3) ? SRAM_SIZE - 1 - below(12) : chance(2) ? below(12) : below(SRAM_SIZE));
        s[OWED] = 1 + below(chance(3) ? 12 : SRAM_SIZE);
        if (s[OWED] > SRAM_BASE + SRAM_SIZE - s[NEXT] || chance(4))
            s[OWED] = SRAM_BASE + SRAM_SIZE - s[NEXT];
        s[START] = (chance(2) ? s[NEXT] : SRAM_BASE + below(s[NEXT] - SRAM_BASE + 1)) & ~3u;
        s[VLE] = below(2);
        break;
    case STOPPED:
        s[REFUSAL] = PICK(refusals);
        s[VLE] = s[REFUSAL] == FAULTY_BYTE ? below(2) : 0;
        break;
    case JUMPED:
        s[START] = chance(2) ? (uint32_t)number() : PICK(odd_numbers);
        s[VLE] = below(2);
        break;
    }
}

/* One number of a session made another, often about the edge of what is sound. */
static void bend(uint32_t *s)
{
    uint32_t end = SRAM_BASE + SRAM_SIZE;
    switch (below(12)) {
    case 0:
        s[below(SESSION_NUMBERS)] = (uint32_t)number();
        break;
    case 1:
        s[OWED] = end - s[NEXT] + below(3) - 1;
        break;
    case 2:
        s[OWED] = 0u - s[NEXT] - below(2);
        break;
    case 3:
        s[NEXT] = chance(2) ? SRAM_BASE - 1 : end - below(3);
        break;
    case 4:
        s[START] = (s[NEXT] & ~3u) + 1 + below(4);
        break;
    case 5:
        s[below(SESSION_NUMBERS)] ^= 1u << below(32);
        break;
    case 6:
        s[STAGE] = below(7);
        break;
    case 7:
        s[PORT] = below(3);
        break;
    case 8:
        s[COUNT] = below(10);
        break;
    case 9:
        s[VLE] = below(3);
        break;
    case 10:
        s[REFUSAL] = below(14);
        break;
    default:
        s[below(SESSION_NUMBERS)] = PICK(odd_numbers);
    }
}

/* Any session in both memories: sound, bent, or of odd numbers. */
static void begin_any(const uint8_t password[8])
{
    memcpy(ours.session_bytes + SELECTED, password, 8);
    fill(ours.session_bytes + HELD, 8);
    make_sound(ours.session);
    for (uint32_t bends = chance(3) ? 1 + below(2) : 0; bends > 0; bends--)
        bend(ours.session);
    if (chance(64))
        for (size_t i = 0; i < SESSION_NUMBERS; i++)
            ours.session[i] = PICK(odd_numbers);
    memcpy(&theirs, &ours, offsetof(struct memory, echoes));
    has_direct = false;
}

static void put_word(uint8_t *to, uint32_t word)
{
    for (int i = 0; i < 4; i++)
        to[i] = (uint8_t)(word >> (24 - 8 * i));
}

static void make_header(uint8_t header[8])
{
    static const uint32_t starts[] = {
        0, 3, SRAM_BASE - 4, SRAM_BASE - 1, SRAM_BASE, SRAM_BASE + 3, SRAM_BASE + SRAM_SIZE - 5,
        SRAM_BASE + SRAM_SIZE - 4, SRAM_BASE + SRAM_SIZE - 1, SRAM_BASE + SRAM_SIZE, 0x80000000, 0xFFFFFFFF
    };
    static const uint32_t lengths[] = {0, 1, 3, 4, 5, 8, 9, 65532, 65535, 65536, 65537, 0x40000000, 0x7FFFFFFF};
    bool is_odd = chance(4);
    put_word(header, is_odd ? PICK(starts) : SRAM_BASE + below(SRAM_SIZE - 32));
    put_word(header + 4, (is_odd ? PICK(lengths) : 1 + below(32)) | below(2) << 31);
}

static struct plan make_plan(const uint8_t selected[8])
{
    static const uint8_t half_words[] = {0x00, 0x00, 0xFF, 0xFF};
    struct plan plan = {.port = below(2), .count = chance(2) ? 8 : 1 + below(8)};
    memcpy(plan.password, selected, 8);
    if (chance(12))
        plan.password[below(8)] ^= (uint8_t)(1 << below(8));
    if (chance(12))
        memcpy(plan.password + 2 * below(4), half_words + 2 * below(2), 2);
    make_header(plan.header);
    return plan;
}

static void make_frame(struct item *item, uint32_t identifier, const uint8_t *bytes, size_t count)
{
    item->kind = FRAME;
    item->identifier = identifier;
    item->count = count;
    if (bytes != NULL)
        memcpy(item->bytes, bytes, count);
    else
        fill(item->bytes, count);
}

static void make_byte(struct item *item, uint8_t byte)
{
    item->kind = CLEAN;
    item->identifier = (uint32_t)number();
    item->count = 1;
    item->bytes[0] = byte;
}

/* The plan's next item, by the numbers of the session. */
static void make_next(struct item *item, const struct plan *plan, const uint32_t *s)
{
    bool is_can = (s[STAGE] == WAITING ? plan->port : s[PORT]) == CAN;
    const uint8_t *bytes = s[STAGE] == HEADER ? plan->header : plan->password;
    if (s[STAGE] == DATA && is_can)
        make_frame(item, DATA_FRAME, NULL, plan->count <= s[OWED] ? plan->count : s[OWED]);
    else if (s[STAGE] == DATA)
        make_byte(item, (uint8_t)number());
    else if (is_can)
        make_frame(item, s[STAGE] == HEADER ? HEADER_FRAME : PASSWORD_FRAME, bytes, 8);
    else
        make_byte(item, bytes[s[COUNT] % 8]);
}

/* An item that does not go by the plan, or the plan's with one thing wrong. */
static void make_other(struct item *item, const struct plan *plan, const uint32_t *s)
{
    static const size_t counts[] = {0, 1, 7, 8, 9, 16, 255, 256, 257, 264};
    switch (below(8)) {
    case 0:
        make_byte(item, (uint8_t)number());
        break;
    case 1:
        make_frame(item, PASSWORD_FRAME + below(3), chance(2) ? plan->header : plan->password, 8);
        break;
    case 2:
        make_frame(item, DATA_FRAME, NULL, below(10));
        break;
    case 3:
        make_frame(item, below(0x900), NULL, PICK(counts));
        break;
    default:
        make_next(item, plan, s);
        if (item->kind == CLEAN)
            item->kind = FAULTY;
        else if (chance(3))
            item->identifier ^= 1u << below(32);
        else if (chance(3))
            item->identifier ^= 3;
        else if (chance(2))
            item->count = PICK(counts);
        else
            item->count += 1 - 2 * (item->count > 0 && chance(2));
    }
}

static void make_item(struct item *item, const struct plan *plan, const uint32_t *s)
{
    if (chance(8))
        make_other(item, plan, s);
    else
        make_next(item, plan, s);
}

/* One item by its call. Any mark but 0 is a faulty byte's. */
static uint8_t hand_in(const struct program *program, struct memory *memory, const struct lengths *lengths,
                       const struct item *item, uint32_t mark)
{
    uint8_t *session_bytes = at(memory->session_bytes, lengths->session_bytes);
    uint32_t *session = at(memory->session, lengths->session);
    uint8_t *sram = at(memory->sram, lengths->sram);
    uint8_t *echo = at(memory->echoes, lengths->echoes);
    uint32_t *answer = at(memory->answers, lengths->answers);
    if (item->kind == FRAME)
        return program->frame(session_bytes, lengths->session_bytes, session, lengths->session, sram, lengths->sram,
                              item->identifier, at(item->bytes, item->count), item->count,
                              echo, lengths->echoes, answer, lengths->answers);
    return program->byte(session_bytes, lengths->session_bytes, session, lengths->session, sram, lengths->sram,
                         item->bytes[0], mark, echo, lengths->echoes, answer, lengths->answers);
}

/* The item goes to direct.c too, whose answer must be the library's at this place. */
static void compare_direct(const struct item *item, size_t place)
{
    struct direct_answer answer;
    const uint32_t *s = ours.answers + place * ANSWER_NUMBERS;
    if (item->kind == FRAME)
        direct_frame(&direct, direct_sram, item->identifier, item->bytes, item->count, &answer);
    else
        direct_byte(&direct, direct_sram, item->bytes[0], item->kind == FAULTY, &answer);
    if (answer.number != s[NUMBER] || answer.identifier != s[ECHO_IDENTIFIER] || answer.length != s[ECHO_LENGTH] ||
        answer.jump != s[JUMP] || answer.vle != s[JUMP_VLE] ||
        memcmp(answer.echo, ours.echoes + place * ECHO_BYTES, ECHO_BYTES) != 0)
        differ_direct(item, &answer);
}

static void compare_item(const struct plan *plan)
{
    static struct item item;
    struct lengths lengths = make_lengths(1);
    make_item(&item, plan, ours.session);
    uint32_t mark = item.kind == FAULTY ? (uint32_t)(1 + below(255)) << 8 * below(4) : 0;
    prepare(1);
    uint8_t our_number = hand_in(&library, &ours, &lengths, &item, mark);
    uint8_t their_number = hand_in(&plain, &theirs, &lengths, &item, mark);
    if (our_number != their_number || !are_alike())
        differ(&item, NULL, &lengths, our_number, their_number);
    if (has_direct && (our_number <= JUMPS || our_number == FAULTY_BYTE))
        compare_direct(&item, 0);
}

/* Something of a list made another. */
static void bend_list(struct list *list)
{
    size_t place = list->kinds_len == 0 ? 0 : below((uint32_t)list->kinds_len);
    switch (below(8)) {
    case 0:
        list->kinds_len += 1 - 2 * (list->kinds_len > 0 && chance(2));
        break;
    case 1:
        list->identifiers_len += 1 - 2 * (list->identifiers_len > 0 && chance(2));
        break;
    case 2:
        list->counts_len += 1 - 2 * (list->counts_len > 0 && chance(2));
        break;
    case 3:
        list->bytes_len += 1 - 2 * (list->bytes_len > 0 && chance(2));
        break;
    case 4:
        list->kinds[place] = (uint8_t)(chance(2) ? below(6) : number());
        break;
    case 5:
        list->counts[place] += chance(2) ? 1 : 0xFFFFFFFF;
        break;
    case 6: /* the sum is right in 32 bits */
        list->counts[0] += 0x80000000;
        list->counts[list->kinds_len > 1] += 0x80000000;
        break;
    default: /* one byte from an item to its neighbour */
        list->counts[place] += 1;
        list->counts[place + 1] -= 1;
    }
}

static uint8_t hand_in_list(const struct program *program, struct memory *memory, const struct lengths *lengths,
                            const struct list *list)
{
    return program->list(at(memory->session_bytes, lengths->session_bytes), lengths->session_bytes,
                         at(memory->session, lengths->session), lengths->session,
                         at(memory->sram, lengths->sram), lengths->sram, at(list->kinds, list->kinds_len),
                         list->kinds_len, at(list->identifiers, list->identifiers_len), list->identifiers_len,
                         at(list->counts, list->counts_len), list->counts_len, at(list->bytes, list->bytes_len),
                         list->bytes_len, at(memory->echoes, lengths->echoes), lengths->echoes,
                         at(memory->answers, lengths->answers), lengths->answers);
}

static void compare_list(const struct plan *plan)
{
    static struct item items[MOST_ITEMS];
    static struct memory ahead; /* where the items are tried, so that the next goes by what they have done */
    static struct list list;
    struct lengths right = {SESSION_BYTES, SESSION_NUMBERS, ECHO_BYTES, ANSWER_NUMBERS, SRAM_SIZE};
    size_t items_len = below(MOST_ITEMS + 1);
    memset(&list, 0, sizeof list);
    list.kinds_len = list.identifiers_len = list.counts_len = items_len;
    memcpy(&ahead, &ours, offsetof(struct memory, sram));
    for (size_t i = 0; i < items_len; i++) {
        make_item(&items[i], plan, ahead.session);
        hand_in(&plain, &ahead, &right, &items[i], items[i].kind == FAULTY);
        list.kinds[i] = items[i].kind;
        list.identifiers[i] = items[i].identifier;
        list.counts[i] = (uint32_t)items[i].count;
        memcpy(list.bytes + list.bytes_len, items[i].bytes, items[i].count);
        list.bytes_len += items[i].count;
    }
    bool is_bent = chance(4);
    if (is_bent)
        bend_list(&list);
    struct lengths lengths = make_lengths(items_len);
    prepare(items_len);
    uint8_t our_number = hand_in_list(&library, &ours, &lengths, &list);
    uint8_t their_number = hand_in_list(&plain, &theirs, &lengths, &list);
    if (our_number != their_number || !are_alike())
        differ(NULL, &list, &lengths, our_number, their_number);
    if (is_bent && our_number == TAKEN) /* another list than that of the items */
        has_direct = false;
    for (size_t i = 0; has_direct && our_number == TAKEN && i < items_len; i++)
        compare_direct(&items[i], i);
}

/* A session and some calls. */
static void exchange(void)
{
    uint8_t password[12]; /* of which 8 are one */
    fill(password, sizeof password);
    if (chance(2))
        memcpy(password, public_password, 8);
    struct plan plan = make_plan(password);
    if (chance(8))
        memcpy(password, plan.password, 8); /* perhaps one that is not legal */
    if (chance(3))
        begin_any(password);
    else
        begin_fresh(password);
    for (uint32_t calls = 1 + below(48); calls > 0; calls--) {
        if (chance(8))
            compare_list(&plan);
        else
            compare_item(&plan);
        if (ours.session[STAGE] >= STOPPED && chance(4))
            break;
    }
    if (has_direct && memcmp(direct_sram, ours.sram, SRAM_SIZE) != 0) {
        printf("call %lu: direct.c has left another SRAM\n", made);
        exit(1);
    }
}

void compare_calls(unsigned long calls)
{
    fill(&ours, sizeof ours);
    memcpy(&theirs, &ours, sizeof ours);
    while (made < calls)
        exchange();
    printf("%lu random calls: the library, plain.c and direct.c answer alike\n", made);
}
