/*
 * mock.c: every function of sdsl.h by the reference's namesake, so that the driver can be built and tried without the library.
 * try-mutants.sh links it with a changed copy of the reference.
 */
#include "reference.h"

struct sdsl_scrambled sdsl_frame_send(uint32_t end, uint32_t state, uint32_t kind, uint32_t count,
                                      const uint8_t *coefficients, size_t coefficients_len,
                                      uint32_t a, uint32_t b,
                                      const uint8_t *vendor, size_t vendor_len,
                                      uint8_t *frame, size_t frame_len)
{
    return ref_frame_send(end, state, kind, count, coefficients, coefficients_len, a, b, vendor, vendor_len, frame, frame_len);
}

struct sdsl_frame_fields sdsl_frame_read(const uint8_t *frame, size_t frame_len,
                                         uint8_t *coefficients, size_t coefficients_len,
                                         uint8_t *vendor, size_t vendor_len,
                                         uint8_t *reserved, size_t reserved_len)
{
    return ref_frame_read(frame, frame_len, coefficients, coefficients_len, vendor, vendor_len, reserved, reserved_len);
}

uint32_t sdsl_frame_check(const uint8_t *frame, size_t frame_len)
{
    return ref_frame_check(frame, frame_len);
}

struct sdsl_data_written sdsl_data_write(uint32_t form, uint32_t size, uint32_t sync,
                                         struct sdsl_data_overhead overhead,
                                         const uint8_t *payload, size_t payload_len,
                                         uint8_t *frame, size_t frame_len)
{
    return ref_data_write(form, size, sync, overhead, payload, payload_len, frame, frame_len);
}

struct sdsl_data_crcs sdsl_data_crc(uint32_t form, uint32_t size, const uint8_t *frame, size_t frame_len)
{
    return ref_data_crc(form, size, frame, frame_len);
}

struct sdsl_data_fields sdsl_data_read(uint32_t form, uint32_t size, uint32_t sync, uint32_t next_crc,
                                       const uint8_t *frame, size_t frame_len,
                                       uint8_t *payload, size_t payload_len)
{
    return ref_data_read(form, size, sync, next_crc, frame, frame_len, payload, payload_len);
}

uint32_t sdsl_data_check(uint32_t form, uint32_t size, uint32_t sync, uint32_t next_crc,
                         const uint8_t *frame, size_t frame_len)
{
    return ref_data_check(form, size, sync, next_crc, frame, frame_len);
}

struct sdsl_eoc_written sdsl_eoc_write(uint32_t source, uint32_t destination, uint32_t number,
                                       const uint8_t *contents, size_t contents_len,
                                       uint8_t *room, size_t room_len)
{
    return ref_eoc_write(source, destination, number, contents, contents_len, room, room_len);
}

struct sdsl_eoc_message sdsl_eoc_read(const uint8_t *octets, size_t octets_len,
                                      uint8_t *contents, size_t contents_len)
{
    return ref_eoc_read(octets, octets_len, contents, contents_len);
}

struct sdsl_eoc_handed_up sdsl_eoc_hand_up(const uint8_t *octets, size_t octets_len,
                                           uint8_t *units, size_t units_len)
{
    return ref_eoc_hand_up(octets, octets_len, units, units_len);
}

struct sdsl_scrambled sdsl_scrambler_start(uint32_t end)
{
    return ref_scrambler_start(end);
}

struct sdsl_scrambled_bit sdsl_scramble_bit(uint32_t end, uint32_t state, uint32_t bit)
{
    return ref_scramble_bit(end, state, bit);
}

struct sdsl_scrambled_bit sdsl_descramble_bit(uint32_t end, uint32_t state, uint32_t bit)
{
    return ref_descramble_bit(end, state, bit);
}

struct sdsl_scrambled sdsl_scramble(uint32_t end, uint32_t state,
                                    const uint8_t *in, size_t in_len, size_t bits,
                                    uint8_t *out, size_t out_len)
{
    return ref_scramble(end, state, in, in_len, bits, out, out_len);
}

struct sdsl_scrambled sdsl_descramble(uint32_t end, uint32_t state,
                                      const uint8_t *in, size_t in_len, size_t bits,
                                      uint8_t *out, size_t out_len)
{
    return ref_descramble(end, state, in, in_len, bits, out, out_len);
}

struct sdsl_scrambled sdsl_descramble_frame(uint32_t end, uint32_t state,
                                            const uint8_t *in, size_t in_len,
                                            uint8_t *out, size_t out_len)
{
    return ref_descramble_frame(end, state, in, in_len, out, out_len);
}

struct sdsl_received sdsl_receive_start(uint32_t end)
{
    return ref_receive_start(end);
}

struct sdsl_received sdsl_receive(struct sdsl_receiver state,
                                  uint8_t *line, size_t line_len,
                                  const uint8_t *lump, size_t lump_len, size_t bits,
                                  uint8_t *frame, size_t frame_len)
{
    return ref_receive(state, line, line_len, lump, lump_len, bits, frame, frame_len);
}

struct sdsl_level sdsl_activation_level(uint32_t bit)
{
    return ref_activation_level(bit);
}

struct sdsl_level sdsl_data_level(uint32_t code)
{
    return ref_data_level(code);
}

struct sdsl_symbol_code sdsl_level_code(int32_t sixteenths)
{
    return ref_level_code(sixteenths);
}

struct sdsl_encoded_run sdsl_encoder_start(uint32_t a, uint32_t b)
{
    return ref_encoder_start(a, b);
}

struct sdsl_encoded sdsl_encode(uint32_t a, uint32_t b, uint32_t reg, uint32_t symbol)
{
    return ref_encode(a, b, reg, symbol);
}

struct sdsl_encoded_run sdsl_encode_run(uint32_t a, uint32_t b, uint32_t reg,
                                        const uint8_t *symbols, size_t symbols_len,
                                        uint8_t *codes, size_t codes_len)
{
    return ref_encode_run(a, b, reg, symbols, symbols_len, codes, codes_len);
}

uint32_t sdsl_history_start(uint8_t *history, size_t history_len)
{
    return ref_history_start(history, history_len);
}

uint32_t sdsl_precode(const uint8_t *coefficients, size_t coefficients_len,
                      uint8_t *history, size_t history_len,
                      const uint8_t *xs, size_t xs_len,
                      uint8_t *ys, size_t ys_len)
{
    return ref_precode(coefficients, coefficients_len, history, history_len, xs, xs_len, ys, ys_len);
}

uint32_t sdsl_unprecode(const uint8_t *coefficients, size_t coefficients_len,
                        uint8_t *history, size_t history_len,
                        const uint8_t *ys, size_t ys_len,
                        uint8_t *xs, size_t xs_len)
{
    return ref_unprecode(coefficients, coefficients_len, history, history_len, ys, ys_len, xs, xs_len);
}

struct sdsl_shaped sdsl_shaper(int32_t y)
{
    return ref_shaper(y);
}

struct sdsl_stepped sdsl_start(uint32_t end, uint32_t silence)
{
    return ref_start(end, silence);
}

struct sdsl_stepped sdsl_step(struct sdsl_supervisor state, uint32_t code)
{
    return ref_step(state, code);
}

struct sdsl_run sdsl_run_codes(struct sdsl_supervisor state, const uint8_t *codes, size_t codes_len)
{
    return ref_run_codes(state, codes, codes_len);
}
