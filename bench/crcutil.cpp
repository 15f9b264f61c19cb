// crcutil.cpp: a remainder moved on by octets, by Debian's libcrcutil: tables for eight octets, four words at a time; see others.c.
#include <cstddef>
#include <cstdint>
#include <generic_crc.h>

extern "C" uint32_t crcutil_octets(uint32_t rest, const uint8_t *octets, size_t count)
{
    static const crcutil::GenericCrc<crcutil::uint64, crcutil::uint64, crcutil::uint64, 4> crc(0x8408, 16, false);
    return static_cast<uint32_t>(crc.CrcDefault(octets, count, rest));
}
