#include "rod_token.h"

namespace {

using Words = std::array<uint32_t, 16>;

constexpr uint32_t turned(uint32_t word, int by)
{
    return word << by | word >> (32 - by);
}

void quarter_round(Words &words, int a, int b, int c, int d)
{
    words[a] += words[b];
    words[d] = turned(words[d] ^ words[a], 16);
    words[c] += words[d];
    words[b] = turned(words[b] ^ words[c], 12);
    words[a] += words[b];
    words[d] = turned(words[d] ^ words[a], 8);
    words[c] += words[d];
    words[b] = turned(words[b] ^ words[c], 7);
}

void double_round(Words &words)
{
    for (int at = 0; at < 4; at++)
        quarter_round(words, at, 4 + at, 8 + at, 12 + at);
    for (int at = 0; at < 4; at++)
        quarter_round(words, at, 4 + (at + 1) % 4, 8 + (at + 2) % 4, 12 + (at + 3) % 4);
}

uint32_t word_of_key(const uint8_t *bytes)
{
    return bytes[0] | bytes[1] << 8 | bytes[2] << 16 | uint32_t{bytes[3]} << 24;
}

// The block of that number in a stream of the ChaCha20 generator; both numbers have 64 bits.
Words chacha20_block(const std::array<uint8_t, 32> &key, uint64_t stream, uint64_t counter)
{
    Words start{0x61707865, 0x3320646E, 0x79622D32, 0x6B206574};
    for (size_t at = 0; at < 8; at++)
        start[4 + at] = word_of_key(&key[4 * at]);
    start[12] = static_cast<uint32_t>(counter);
    start[13] = static_cast<uint32_t>(counter >> 32);
    start[14] = static_cast<uint32_t>(stream);
    start[15] = static_cast<uint32_t>(stream >> 32);
    Words words = start;
    for (int round = 0; round < 10; round++)
        double_round(words);
    for (size_t at = 0; at < words.size(); at++)
        words[at] += start[at];
    return words;
}

// Half of a block: two tokens have one.
void put_nonce(uint8_t *to, const std::array<uint8_t, 32> &secret, uint16_t unit, uint64_t serial)
{
    Words words = chacha20_block(secret, unit, serial / 2);
    for (size_t at = 0; at < 8; at++)
        put_number(to + 4 * at, words[serial % 2 * 8 + at], 4);
}

} // namespace

TokenText token_text(const Configuration &configuration, uint16_t unit, uint64_t serial, uint32_t blocks)
{
    uint32_t block_length = configuration.units[unit].block_length;
    TokenText text{};
    put_number(&text[0], POINT_IN_TIME_TOKEN, 4);
    put_number(&text[6], TOKEN_LENGTH_FIELD, 2);
    put_number(&text[8], unit, 2);
    put_number(&text[10], serial, 6);
    // the identification descriptor of the unit that made it
    text[16] = 0xE4;
    text[20] = 1;
    text[21] = 3;
    text[23] = 8;
    put_number(&text[24], unit_name(unit), 8);
    put_number(&text[44], block_length, 4);
    put_number(&text[56], uint64_t{blocks} * block_length, 8);
    put_nonce(&text[64], configuration.secret, unit, serial);
    return text;
}
