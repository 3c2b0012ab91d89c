/* Asks how elements read: for each line of hexadecimal on standard input it prints 0, or the reader's cause and place, `42 at 9`. Lines are as
   those of `second elements` (second/READING.md). */
#include <stddef.h>
#include <stdint.h>
#include <stdio.h>
#include <stdlib.h>

#include "trospel.h"

struct line {
    uint8_t *octets; /* never null, so that it can be lent with no octets in it */
    size_t length;
    size_t room;
};

static int append(struct line *line, uint8_t octet)
{
    if (line->length == line->room) {
        uint8_t *larger = realloc(line->octets, 2 * line->room);
        if (larger == NULL)
            return 0;
        line->octets = larger;
        line->room *= 2;
    }
    line->octets[line->length++] = octet;
    return 1;
}

static void drop_return(struct line *line)
{
    if (line->length > 0 && line->octets[line->length - 1] == '\r')
        line->length--;
}

enum reading { LINE, END, NO_ROOM };

/* The CR right before an LF is no part of the line. A last line may lack its LF, and then keeps its CR. */
static enum reading next_line(struct line *line)
{
    int octet = getchar();

    line->length = 0;
    if (octet == EOF)
        return END;
    while (octet != EOF && octet != '\n') {
        if (!append(line, (uint8_t)octet))
            return NO_ROOM;
        octet = getchar();
    }
    if (octet == '\n')
        drop_return(line);
    return LINE;
}

static int digit(uint8_t letter)
{
    if (letter >= '0' && letter <= '9')
        return letter - '0';
    if (letter >= 'A' && letter <= 'F')
        return letter - 'A' + 10;
    if (letter >= 'a' && letter <= 'f')
        return letter - 'a' + 10;
    return -1;
}

/* Puts the octets that the digits write in the place of the digits; 0 where the line is no hexadecimal. */
static int decode(struct line *line)
{
    size_t count = line->length / 2;

    if (line->length == 1 && line->octets[0] == '-') {
        line->length = 0;
        return 1;
    }
    if (line->length % 2 != 0)
        return 0;
    for (size_t i = 0; i < count; i++) {
        int high = digit(line->octets[2 * i]);
        int low = digit(line->octets[2 * i + 1]);
        if (high < 0 || low < 0)
            return 0;
        line->octets[i] = (uint8_t)(high * 16 + low);
    }
    line->length = count;
    return 1;
}

/* The cause alone is asked for too. Where it is another than the refusal's, both are printed, which no element is to have. */
static void answer_octets(const uint8_t *octets, size_t length)
{
    unsigned cause = trospel_element_cause(octets, length);
    uint16_t refusal = trospel_element_refusal(octets, length);

    if (cause != trospel_refusal_cause(refusal))
        printf("%u, but refused with %u\n", cause, (unsigned)refusal);
    else if (refusal == TROSPEL_READS)
        printf("0\n");
    else
        printf("%u at %u\n", cause, (unsigned)trospel_refusal_place(refusal));
}

static void answer(struct line *line, unsigned long number)
{
    if (decode(line))
        answer_octets(line->octets, line->length);
    else
        printf("bad line %lu\n", number);
}

int main(void)
{
    struct line line = { malloc(512), 0, 512 };
    unsigned long number = 0;
    enum reading reading = line.octets == NULL ? NO_ROOM : next_line(&line);

    while (reading == LINE) {
        answer(&line, ++number);
        reading = next_line(&line);
    }
    free(line.octets);
    return reading == END ? EXIT_SUCCESS : EXIT_FAILURE;
}
