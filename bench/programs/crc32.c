/* CRC-32 of 4,096 bytes, each its index modulo 251, as often as the input says (4 bytes,
   little-endian), each time on from the last. */

#include "contract.h"

void contract(const u8 *input, u32 length) {
    u32 times = *(const u32 *)input;
    u32 crc = 0xffffffff;
    for (u32 round = 0; round < times; round++) {
        for (u32 at = 0, byte = 0; at < 4096; at++, byte = byte == 250 ? 0 : byte + 1) {
            crc ^= byte;
            for (u32 bit = 0; bit < 8; bit++) {
                crc = (crc >> 1) ^ (crc & 1 ? 0xedb88320 : 0);
            }
        }
    }
    crc = ~crc;
    return_output(&crc, sizeof crc);
}
