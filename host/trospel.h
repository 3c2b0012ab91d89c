/* What the session part offers to the stack's C side. Link target/staticlib/libelement.a (`host/archive` makes it), which is x86-64 code. */
#ifndef TROSPEL_H
#define TROSPEL_H

#include <stddef.h>
#include <stdint.h>

#ifdef __cplusplus
extern "C" {
#endif

/* What the reader can give for a value. */
enum trospel_cause {
    TROSPEL_READS = 0,      /* it reads as an operation */
    TROSPEL_OPERATION = 42, /* syntactical error in the TFT operation */
    TROSPEL_SEMANTICS = 44, /* semantical error in a packet filter: no packet fits it */
    TROSPEL_CODING = 45     /* syntactical error in a packet filter */
};

/* How the value of one traffic flow template element reads: 0, or the reader's cause. A value of no octets or of more than 255 is
   answered with 42. `value` points at `length` octets, and is not null even where `length` is 0. The octets are neither kept nor
   changed, nothing is allocated, and calls may be made from several threads. */
uint8_t trospel_element_cause(const uint8_t *value, size_t length);

/* The same, and where it broke: 256 times the cause, plus the place; 0 where the value reads. What is said above holds here too. The two
   functions below take it apart.

   The place is an offset from 0 in the value: never past `length`, and at most 255. Of cause 44 or 45 it is the first octet of the
   earliest filter at fault, the one with direction and identifier; where an identifier or a precedence is there again, of the earliest
   filter that has one of a filter before it. Of cause 42 it is 0 where length, operation or count are wrong, the first of octets that are
   left over, or `length` where something is missing or reaches past the end. No octet stands at `length`: compare before you index. */
uint16_t trospel_element_refusal(const uint8_t *value, size_t length);

static inline uint8_t trospel_refusal_cause(uint16_t refusal)
{
    return (uint8_t)(refusal >> 8);
}

/* Of a refusal alone: where the cause is 0 there is no place, and this is 0 too. */
static inline uint8_t trospel_refusal_place(uint16_t refusal)
{
    return (uint8_t)(refusal & 0xFF);
}

#ifdef __cplusplus
}
#endif

#endif
