/*
 * Each exported call as a function without arguments. It makes the call once, on an image of 2 MiB
 * where the name says nothing else, and ends the program if it is refused.
 */

#ifndef CALLS_H
#define CALLS_H

#include <stdint.h>

void fail(const char *what);
void put32(uint8_t *at, uint32_t x);

/* Before all others. */
void make_images(void);
void make_loaders(void);
void make_older(void);

/* The digests. */
void pass_over_code(void);
void pass_over_slot(void);
void pass_over_header(void);
void pass_over_loader(void);
void pass_over_both_loaders(void);
void pass_over_large_card(void);
void sha256_over_code(void);
void sha256_over_v2(void);
void sha256_over_slot(void);

/* The calls on an image, and the writers. */
void check_full_file(void);
void check_full_slot(void);
void check_small_slot(void);
void find_parts(void);
void ask_vendor_digest(void);
void ask_firmware_digest(void);
void find_vendor_signature(void);
void find_firmware_signature(void);
void read_trust(void);
void write_vendor(void);
void write_firmware(void);

/* The calls on a loader. The choice is between two full areas. The card's code has another digest
   than its header gives, so the internal loader is chosen. */
void check_full_card(void);
void check_small_card(void);
void check_full_internal(void);
void ask_loader_digest(void);
void choose_internal(void);

/* The calls on images of the older model. */
void check_full_v2_file(void);
void check_full_v2_slot(void);
void check_full_pair_file(void);
void check_full_pair_slot(void);
void check_small_pair_slot(void);
void find_v2_code(void);
void find_pair_code(void);
void ask_v2_digest(void);
void ask_pair_v2_digest(void);
void ask_pair_legacy_digest(void);

/* The calls of an install, which has one slot and one record. A call that plans also makes its
   operation. The rest is what the install still needs, by calls of 4 bytes each. */
void begin_install(void);
void erase_once(void);
void erase_rest(void);
void plan_erase_once(void);
void fill_once(void);
void fill_rest(void);
void plan_fill_once(void);
void plan_fill_rest(void);
void ask_install(void);
void find_signatures(void);
void close_install(void);
void plan_close_install(void);
void confirm_install(void);

#endif
