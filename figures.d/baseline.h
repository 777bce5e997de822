/* Codec and receiver in C, as the measure for ours. They keep the promises of include/gorittaem.h, and answer as the
 * functions there do: the same numbers, nothing written on a refusal, room asked for exactly the octets written. */
#ifndef BASELINE_H
#define BASELINE_H
#include <stddef.h>
#include <stdint.h>

void baseline_tables(void);                                     /* fills the tables: once, before all else */
uint16_t baseline_check(const uint8_t *s, size_t len);          /* a table of 256 remainders */
uint16_t baseline_check16(const uint8_t *s, size_t len);        /* a table of 16, half an octet at a time */
uint16_t baseline_check8(const uint8_t *s, size_t len);         /* eight of them: slicing by 8 */
size_t baseline_decode(const uint8_t *src, size_t len, uint8_t *out, size_t room);
size_t baseline_write(uint8_t address, uint8_t control, const uint8_t *payload, size_t len, uint8_t *out, size_t room);
size_t baseline_decode16(const uint8_t *src, size_t len, uint8_t *out, size_t room);
size_t baseline_write16(uint8_t address, uint8_t control, const uint8_t *payload, size_t len, uint8_t *out, size_t room);
size_t baseline_decode1(const uint8_t *src, size_t len, uint8_t *out, size_t room);     /* the check in the same pass */
size_t baseline_write1(uint8_t address, uint8_t control, const uint8_t *payload, size_t len, uint8_t *out, size_t room);
size_t baseline_decode_n(size_t limit, const uint8_t *src, size_t len, uint8_t *out, size_t room);  /* the limit a parameter */
size_t baseline_write_n(size_t limit, uint8_t address, uint8_t control, const uint8_t *payload, size_t len, uint8_t *out,
                        size_t room);
uint16_t baseline_check16_as(const uint8_t *s, size_t len);     /* these four with the loops that ours has */
uint16_t baseline_check_as(const uint8_t *s, size_t len);
size_t baseline_decode_as(const uint8_t *src, size_t len, uint8_t *out, size_t room);
size_t baseline_write_as(uint8_t address, uint8_t control, const uint8_t *payload, size_t len, uint8_t *out, size_t room);
size_t baseline_receive(uint8_t *block, size_t limit, const uint8_t *octets, size_t len, uint8_t *out, size_t room,
                        size_t *taken);                         /* an octet a turn, and the check at the flag */
size_t baseline_receive_as(uint8_t *block, size_t limit, const uint8_t *octets, size_t len, uint8_t *out, size_t room,
                           size_t *taken);                      /* plain octets copied at once, as ours does */
#endif
