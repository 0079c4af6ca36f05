/*
 * The functions that reference.c and reference_sha256.c have under their two names each, once by gcc
 * and once by the kit's clang. They take what thimmorel_digest and thimmorel_sha256 take.
 */

#ifndef REFERENCE_H
#define REFERENCE_H

#include <stdint.h>

void reference_gcc(const uint8_t *bytes, uint64_t length, uint8_t digest[32]);
void reference_clang(const uint8_t *bytes, uint64_t length, uint8_t digest[32]);
void reference_sha256_gcc(const uint8_t *bytes, uint64_t length, uint8_t digest[32]);
void reference_sha256_clang(const uint8_t *bytes, uint64_t length, uint8_t digest[32]);

#endif
