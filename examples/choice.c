/*
 * Shows the boot choice, and its MMU rows, for images read from files:
 *
 *     choice BOOTCFG FLASH SHADOW EXTERNAL
 *
 * FLASH is the internal flash from address 0, SHADOW the 12 bytes of the shadow row, EXTERNAL the first 8 bytes
 * of external memory. Exit status: 0 answered, 1 refused (the number is printed), 2 an argument or a file is bad.
 */
#define PROGRAM "choice"
#define USAGE "BOOTCFG FLASH SHADOW EXTERNAL"
#include "arguments.h"

static const char *const names[] = {"BOOTCFG", "FLASH", "SHADOW", "EXTERNAL"};

static const char *const modes[] = {
    [BOOT_ASSIST_MODE_INTERNAL] = "internal",
    [BOOT_ASSIST_MODE_EXTERNAL] = "external",
    [BOOT_ASSIST_MODE_SERIAL_DIRECTLY] = "serial, entered directly",
    [BOOT_ASSIST_MODE_SERIAL_FROM_INTERNAL] = "serial, entered from internal",
    [BOOT_ASSIST_MODE_SERIAL_FROM_EXTERNAL] = "serial, entered from external",
};

static void show_choice(const struct boot_assist_choice *choice)
{
    printf("boot      %s\n", modes[choice->mode]);
    printf("place     %08X\n", (unsigned)choice->place);
    printf("looked at %u\n", (unsigned)choice->looked);
    printf("jump      %08X\n", (unsigned)choice->jump);
    printf("watchdog  %s\n", choice->watchdog ? "on" : "off");
    printf("16-bit    %s\n", choice->bus16 ? "on" : "off");
    printf("flash     %s\n", choice->flash ? "on" : "off");
    printf("Nexus     %s\n", choice->nexus ? "on" : "off");
    printf("password ");
    for (int i = 0; i < BOOT_ASSIST_PASSWORD_SIZE; i++)
        printf(" %02X", choice->password[i]);
    printf("\n");
}

static void show_rows(uint32_t mode)
{
    struct boot_assist_row rows[BOOT_ASSIST_ROWS];
    uint8_t number = boot_assist_choice_rows(mode, rows);
    if (number != BOOT_ASSIST_ANSWERED) {
        printf("MMU rows  number %u\n", number);
        return;
    }
    for (int entry = 0; entry < BOOT_ASSIST_ROWS; entry++) {
        const struct boot_assist_row *row = &rows[entry];
        printf("MMU row %d %08X %08X %8u bytes, %s, %s, %s, %s, %s\n", entry,
               (unsigned)row->logical, (unsigned)row->physical, (unsigned)row->size,
               row->cache_inhibited ? "cache inhibited" : "cache enabled",
               row->guarded ? "guarded" : "not guarded",
               row->big_endian ? "big endian" : "little endian",
               row->global_pid ? "global PID" : "own PID",
               row->vle ? "VLE" : "no VLE");
    }
}

int main(int argc, char **argv)
{
    static uint8_t flash[BOOT_ASSIST_FLASH_MAX], shadow[BOOT_ASSIST_SHADOW_SIZE], external[BOOT_ASSIST_EXTERNAL_SIZE];
    struct boot_assist_choice choice;
    argument_count(argc, argv, names, 4);
    uint8_t bootcfg = (uint8_t)argument_number("BOOTCFG", argv[1], 10, UINT8_MAX);
    size_t flash_len = argument_file("FLASH", argv[2], flash, sizeof flash);
    argument_bytes("SHADOW", argv[3], shadow, sizeof shadow);
    argument_bytes("EXTERNAL", argv[4], external, sizeof external);

    uint8_t number = boot_assist_choose(bootcfg, flash, flash_len, shadow, external, &choice);
    if (number != BOOT_ASSIST_ANSWERED) {
        printf("number %u\n", number);
        return 1;
    }
    show_choice(&choice);
    show_rows(choice.mode);
    return 0;
}
