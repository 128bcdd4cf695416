/* SHA-256 (FIPS 180-4), so that a printed answer says which bytes it rests on. */
#ifndef SHA256_H
#define SHA256_H

#include <stddef.h>
#include <stdint.h>

/* The digest of some bytes in 64 hexadecimal digits, as sha256sum prints it. */
const char *sha256_words(char words[65], const uint8_t *bytes, size_t length);

#endif
