/*
 * reference.h: the second implementation of everything that sdsl.h exports.
 *
 * Written from SCOPE, the requests and the papers that they name (see README.md), by the bit, with no line shared with the library.
 * Each function has the signature of its namesake in sdsl.h.
 */
#ifndef REFERENCE_H
#define REFERENCE_H

#include "sdsl.h"

/* The activation frame. */
struct sdsl_scrambled ref_frame_send(uint32_t end, uint32_t state, uint32_t kind, uint32_t count,
                                     const uint8_t *coefficients, size_t coefficients_len,
                                     uint32_t a, uint32_t b,
                                     const uint8_t *vendor, size_t vendor_len,
                                     uint8_t *frame, size_t frame_len);
struct sdsl_frame_fields ref_frame_read(const uint8_t *frame, size_t frame_len,
                                        uint8_t *coefficients, size_t coefficients_len,
                                        uint8_t *vendor, size_t vendor_len,
                                        uint8_t *reserved, size_t reserved_len);
uint32_t ref_frame_check(const uint8_t *frame, size_t frame_len);

/* The data-mode frame. */
struct sdsl_data_written ref_data_write(uint32_t form, uint32_t size, uint32_t sync,
                                        struct sdsl_data_overhead overhead,
                                        const uint8_t *payload, size_t payload_len,
                                        uint8_t *frame, size_t frame_len);
struct sdsl_data_crcs ref_data_crc(uint32_t form, uint32_t size, const uint8_t *frame, size_t frame_len);
struct sdsl_data_fields ref_data_read(uint32_t form, uint32_t size, uint32_t sync, uint32_t next_crc,
                                      const uint8_t *frame, size_t frame_len,
                                      uint8_t *payload, size_t payload_len);
uint32_t ref_data_check(uint32_t form, uint32_t size, uint32_t sync, uint32_t next_crc,
                        const uint8_t *frame, size_t frame_len);

/* Messages of the operations channel. */
struct sdsl_eoc_written ref_eoc_write(uint32_t source, uint32_t destination, uint32_t number,
                                      const uint8_t *contents, size_t contents_len,
                                      uint8_t *room, size_t room_len);
struct sdsl_eoc_message ref_eoc_read(const uint8_t *octets, size_t octets_len,
                                     uint8_t *contents, size_t contents_len);
struct sdsl_eoc_handed_up ref_eoc_hand_up(const uint8_t *octets, size_t octets_len,
                                          uint8_t *units, size_t units_len);

/* The scrambler. */
struct sdsl_scrambled ref_scrambler_start(uint32_t end);
struct sdsl_scrambled_bit ref_scramble_bit(uint32_t end, uint32_t state, uint32_t bit);
struct sdsl_scrambled_bit ref_descramble_bit(uint32_t end, uint32_t state, uint32_t bit);
struct sdsl_scrambled ref_scramble(uint32_t end, uint32_t state,
                                   const uint8_t *in, size_t in_len, size_t bits,
                                   uint8_t *out, size_t out_len);
struct sdsl_scrambled ref_descramble(uint32_t end, uint32_t state,
                                     const uint8_t *in, size_t in_len, size_t bits,
                                     uint8_t *out, size_t out_len);
struct sdsl_scrambled ref_descramble_frame(uint32_t end, uint32_t state,
                                           const uint8_t *in, size_t in_len,
                                           uint8_t *out, size_t out_len);

/* The receiver. */
struct sdsl_received ref_receive_start(uint32_t end);
struct sdsl_received ref_receive(struct sdsl_receiver state,
                                 uint8_t *line, size_t line_len,
                                 const uint8_t *lump, size_t lump_len, size_t bits,
                                 uint8_t *frame, size_t frame_len);

/* Symbols. */
struct sdsl_level ref_activation_level(uint32_t bit);
struct sdsl_level ref_data_level(uint32_t code);
struct sdsl_symbol_code ref_level_code(int32_t sixteenths);
struct sdsl_encoded_run ref_encoder_start(uint32_t a, uint32_t b);
struct sdsl_encoded ref_encode(uint32_t a, uint32_t b, uint32_t reg, uint32_t symbol);
struct sdsl_encoded_run ref_encode_run(uint32_t a, uint32_t b, uint32_t reg,
                                       const uint8_t *symbols, size_t symbols_len,
                                       uint8_t *codes, size_t codes_len);
uint32_t ref_history_start(uint8_t *history, size_t history_len);
uint32_t ref_precode(const uint8_t *coefficients, size_t coefficients_len,
                     uint8_t *history, size_t history_len,
                     const uint8_t *xs, size_t xs_len,
                     uint8_t *ys, size_t ys_len);
uint32_t ref_unprecode(const uint8_t *coefficients, size_t coefficients_len,
                       uint8_t *history, size_t history_len,
                       const uint8_t *ys, size_t ys_len,
                       uint8_t *xs, size_t xs_len);
struct sdsl_shaped ref_shaper(int32_t y);

/* The start-up supervisor. */
struct sdsl_stepped ref_start(uint32_t end, uint32_t silence);
struct sdsl_stepped ref_step(struct sdsl_supervisor state, uint32_t code);
struct sdsl_run ref_run_codes(struct sdsl_supervisor state, const uint8_t *codes, size_t codes_len);

/*
 * For the driver only, no namesakes in sdsl.h, and nothing is checked.
 *
 * ref_make_frame makes the 529 octets of a frame before it is scrambled, out of 720 octets of coefficients and 16 of vendor data.
 * ref_put_check_bits puts the right check bits into 529 octets, whatever else they hold. ref_put_on_line scrambles 529 octets, whatever
 * they hold, and gives the next state.
 */
void ref_make_frame(uint32_t kind, uint32_t count, const uint8_t *coefficients, uint32_t a, uint32_t b, const uint8_t *vendor,
                    uint8_t *frame);
void ref_put_check_bits(uint8_t *frame);
uint32_t ref_put_on_line(uint32_t end, uint32_t state, const uint8_t *frame, uint8_t *line);

#endif
