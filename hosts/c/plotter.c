/* Plays a plotter: runs a sheet as the box does, and plots its listing over the port by a script.
 *
 *   plotter SHEET SCRIPT [STATUS CONTROL DATA SUM]
 *
 * SHEET is a file. SCRIPT is a file, or - for standard input, of letters, with white space between them as one likes:
 *
 *   s  a step                       r  the device is ready again
 *   o  out of paper                 i  paper in
 *   +  interrupts are let through   -  they are not
 *
 * STATUS, CONTROL, DATA and SUM are the registers at first, 1 0 0 0 if they are not given. Printed are the registers after each letter, in
 * hexadecimal digits, with the byte that was sent, and at the end how many bytes were and what they add up to. The exit status is 1 where a
 * byte was lost in printing, and nothing is printed after it; 2 where nothing was played or the script has another letter. */
#include <ctype.h>
#include <stdio.h>
#include <stdlib.h>
#include "vodlasim.h"

enum { SHEET = 4097, PATH = 512, BUDGET = 1000000, WORDS = 12288, OUTPUT = 4096 };   /* the box's, and one byte more than a sheet may have */

static FILE *opened(const char *name)
{
    FILE *file = fopen(name, "rb");
    if (!file) {
        perror(name);
        exit(2);
    }
    return file;
}

/* the sheet's listing, and its length */
static size_t listed(const char *name, uint8_t listing[OUTPUT])
{
    static uint8_t sheet[SHEET];
    static uint32_t work[WORDS];
    uint64_t report[8];
    FILE *file = opened(name);
    size_t len = fread(sheet, 1, SHEET, file);
    fclose(file);
    vodlasim_run(sheet, len, PATH, BUDGET, 0, work, WORDS, listing, OUTPUT, report);
    if (report[VODLASIM_REFUSED]) {
        fprintf(stderr, "%s: refused with %llu at byte %llu\n", name, (unsigned long long)report[VODLASIM_REFUSED],
                (unsigned long long)report[VODLASIM_PLACE]);
        exit(2);
    }
    return report[VODLASIM_WRITTEN];
}

/* plays what a letter stands for: how many bytes it sent, or -1 for a letter that stands for nothing */
static int action(int letter, uint8_t port[4], const uint8_t *unsent, size_t left)
{
    switch (letter) {
    case 's': return (int)vodlasim_step(port, unsent, left);
    case 'r': vodlasim_ready_again(port); return 0;
    case 'o': vodlasim_out_of_paper(port); return 0;
    case 'i': vodlasim_paper_in(port); return 0;
    case '+': vodlasim_interrupts_on(port); return 0;
    case '-': vodlasim_interrupts_off(port); return 0;
    default: return -1;
    }
}

static void show(int letter, const uint8_t port[4])
{
    printf("%c  status=%02x control=%02x data=%02x sum=%02x", letter, port[VODLASIM_STATUS], port[VODLASIM_CONTROL], port[VODLASIM_DATA],
           port[VODLASIM_SUM]);
}

/* plays the script; the exit status */
static int play(FILE *script, uint8_t port[4], const uint8_t *listing, size_t len)
{
    size_t sent = 0;
    unsigned long total = 0;
    int letter;
    show('=', port);
    putchar('\n');
    while ((letter = getc(script)) != EOF) {
        if (isspace(letter))
            continue;
        int n = action(letter, port, listing + sent, len - sent);
        if (n < 0) {
            fflush(stdout);
            fprintf(stderr, "plotter: no letter of a script: byte %d\n", letter);
            return 2;
        }
        show(letter, port);
        if (n) {
            uint8_t byte = listing[sent];
            printf("  sent %02x", byte);
            if (isprint(byte))
                printf(" '%c'", byte);
            total += byte;
            sent++;
        }
        putchar('\n');
        if (ferror(stdout))
            return 1;
    }
    printf("sent %zu of %zu bytes, which add up to %lu, modulo 256 %02lx\n", sent, len, total, total % 256);
    return fflush(stdout) == 0 && !ferror(stdout) ? 0 : 1;
}

static uint8_t byte_of(const char *text)
{
    char *end;
    unsigned long n = strtoul(text, &end, 0);
    if (end == text || *end || n > 255) {
        fprintf(stderr, "plotter: no byte: %s\n", text);
        exit(2);
    }
    return (uint8_t)n;
}

int main(int argc, char **argv)
{
    if (argc != 3 && argc != 7) {
        fprintf(stderr, "usage: %s SHEET SCRIPT [STATUS CONTROL DATA SUM]\n", argv[0]);
        return 2;
    }
    uint8_t listing[OUTPUT];
    uint8_t port[4] = { VODLASIM_READY, 0, 0, 0 };
    for (int k = 0; k < 4 && argc == 7; k++)
        port[k] = byte_of(argv[3 + k]);
    size_t len = listed(argv[1], listing);
    FILE *script = argv[2][0] == '-' && !argv[2][1] ? stdin : opened(argv[2]);
    int status = play(script, port, listing, len);
    if (status == 1)
        perror("plotter");
    return status;
}
