/*
 * The line between a head and a truck, which are processes of their own:
 *
 *     wire PORT START IMAGE SRAM [to|from PLACE]
 *
 * PORT is can or serial. The head and the truck each get an end, of a pseudo-terminal for serial bytes or of a socket
 * pair for CAN frames, and what one sends is passed on to the other. START and IMAGE are the truck's arguments, SRAM is
 * the head's. With PLACE the lowest bit of one byte is changed on the way: the one that has PLACE bytes before it among
 * those that go to the head, or come from it (on a CAN line the two identifier bytes count too). The programs head and
 * truck are those beside this one. Exit status: 0 both ended with 0; 1 one did not; 2 an argument is bad, or the line
 * cannot be made.
 */
#define _XOPEN_SOURCE 700
#define PROGRAM "wire"
#define USAGE "can|serial START IMAGE SRAM [to|from PLACE]"
#include <signal.h>
#include <sys/socket.h>
#include <sys/wait.h>
#include <termios.h>

#include "arguments.h"
#include "line.h"

static const char *const names[] = {"PORT", "START", "IMAGE", "SRAM", "to or from", "PLACE"};

/* One of the two ends of the line: the descriptor that is kept here, and the one of the head or of the truck. */
struct end {
    int ours, theirs;
};

/* One direction of the line. */
struct way {
    int from, to;
    int64_t passed; /* how many bytes have gone this way */
    int64_t damage; /* the place of the byte to change; or -1 */
};

static int make_terminal(struct end *end)
{
    struct termios raw;
    end->ours = posix_openpt(O_RDWR | O_NOCTTY);
    if (end->ours < 0 || grantpt(end->ours) != 0 || unlockpt(end->ours) != 0)
        return 0;
    end->theirs = open(ptsname(end->ours), O_RDWR | O_NOCTTY);
    if (end->theirs < 0 || tcgetattr(end->theirs, &raw) != 0)
        return 0;
    raw.c_iflag = 0;
    raw.c_oflag = 0;
    raw.c_lflag = 0;
    raw.c_cflag = (raw.c_cflag & ~(tcflag_t)(CSIZE | PARENB)) | CS8 | CREAD;
    raw.c_cc[VMIN] = 1;
    raw.c_cc[VTIME] = 0;
    return tcsetattr(end->theirs, TCSANOW, &raw) == 0;
}

static int make_socket_pair(struct end *end)
{
    int pair[2];
    if (socketpair(AF_UNIX, SOCK_SEQPACKET, 0, pair) != 0)
        return 0;
    end->ours = pair[0];
    end->theirs = pair[1];
    return 1;
}

/* Makes an end. No program that is started gets its descriptors, but for the one that start() hands over. */
static int make_end(uint32_t port, struct end *end)
{
    if (!(port == BOOT_ASSIST_PORT_CAN ? make_socket_pair(end) : make_terminal(end)) ||
        fcntl(end->ours, F_SETFD, FD_CLOEXEC) != 0 || fcntl(end->theirs, F_SETFD, FD_CLOEXEC) != 0) {
        perror("wire: the line cannot be made");
        return 0;
    }
    return 1;
}

/* Starts the program of this name in the directory of the program `beside`, with its end of the line. The arguments are
 * PORT, FD and then those of `more`. Returns its process; or -1. */
static pid_t start(const char *beside, const char *name, struct end *end, char *port, char *const more[2])
{
    char path[4096], number[16];
    const char *slash = strrchr(beside, '/');
    int directory = slash == NULL ? 0 : (int)(slash + 1 - beside);
    snprintf(path, sizeof path, "%.*s%s", directory, beside, name);
    snprintf(number, sizeof number, "%d", end->theirs);
    char *const arguments[] = {path, port, number, more[0], more[1], NULL};
    pid_t pid = fork();
    if (pid == 0) {
        fcntl(end->theirs, F_SETFD, 0);
        execv(path, arguments);
        perror(path);
        _exit(2);
    }
    if (pid < 0)
        perror("wire: fork");
    close(end->theirs);
    return pid;
}

/* Passes on what has come, with the damage. Returns 0 if the side that it comes from is gone. */
static int pass_on(struct way *way)
{
    uint8_t bytes[LINE_LONGEST];
    int len = line_read(way->from, bytes, sizeof bytes, 0);
    if (len <= 0)
        return len == LINE_SILENT;
    if (way->damage >= way->passed && way->damage < way->passed + len)
        bytes[way->damage - way->passed] ^= 1;
    way->passed += len;
    /* Where the other side is gone, the bytes are lost, as on any line. */
    line_write(way->to, bytes, (size_t)len);
    return 1;
}

/* Passes on both ways until the truck is gone. When the head is gone the truck's end stays open: closing it could drop
 * the last echo before the truck has read it, and the truck waits no longer than 5 seconds for an echo. */
static void carry(struct way *to_head, struct way *from_head)
{
    struct pollfd ends[2] = {{to_head->from, POLLIN, 0}, {from_head->from, POLLIN, 0}};
    for (;;) {
        if (poll(ends, 2, -1) < 0) {
            if (errno == EINTR)
                continue;
            perror("wire: poll");
            return;
        }
        if (ends[1].revents != 0 && !pass_on(from_head))
            ends[1].fd = -1;
        if (ends[0].revents != 0 && !pass_on(to_head))
            return;
    }
}

/* Waits for a process, and tells whether it ended with 0. */
static int ended_well(pid_t pid)
{
    int status;
    if (pid < 0)
        return 0;
    while (waitpid(pid, &status, 0) < 0)
        if (errno != EINTR)
            return 0;
    if (WIFSIGNALED(status))
        fprintf(stderr, "wire: a program was ended by signal %d\n", WTERMSIG(status));
    return WIFEXITED(status) && WEXITSTATUS(status) == 0;
}

/* Tests the arguments that are the truck's, so that nothing is started with a bad one. */
static void test_truck(const char *address, const char *file)
{
    static uint8_t image[BOOT_ASSIST_SRAM_SIZE];
    argument_number("START", address, 16, UINT32_MAX);
    argument_file("IMAGE", file, image, sizeof image);
}

int main(int argc, char **argv)
{
    struct end heads, trucks;
    int64_t to = -1, from = -1;
    argument_count(argc, argv, names, argc > 5 ? 6 : 4);
    uint32_t port = argument_port("PORT", argv[1]);
    test_truck(argv[2], argv[3]);
    if (argc > 5) {
        int64_t *damage = strcmp(argv[5], "to") == 0 ? &to : strcmp(argv[5], "from") == 0 ? &from : NULL;
        if (damage == NULL)
            argument_bad("direction", argv[5], "neither to nor from");
        *damage = argument_number("PLACE", argv[6], 10, UINT32_MAX);
    }
    signal(SIGPIPE, SIG_IGN);
    if (!make_end(port, &heads) || !make_end(port, &trucks))
        return 2;
    pid_t head = start(argv[0], "head", &heads, argv[1], (char *const[2]){argv[4], NULL});
    pid_t truck = start(argv[0], "truck", &trucks, argv[1], (char *const[2]){argv[2], argv[3]});
    struct way to_head = {trucks.ours, heads.ours, 0, to};
    struct way from_head = {heads.ours, trucks.ours, 0, from};
    carry(&to_head, &from_head);
    close(heads.ours);
    close(trucks.ours);
    int well = ended_well(head);
    return ended_well(truck) && well ? 0 : 1;
}
