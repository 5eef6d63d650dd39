// The text of a token: who made it, how many bytes it stands for, and a nonce.
#pragma once

#include <array>

#include "frames.h"
#include "requests.h"

using TokenText = std::array<uint8_t, TOKEN_LENGTH>;

constexpr uint32_t POINT_IN_TIME_TOKEN = 0x00800000, ZERO_TOKEN = 0xFFFF0001;
constexpr uint16_t TOKEN_LENGTH_FIELD = 0x01F8;

// The NAA designator by which a unit is known.
constexpr uint64_t unit_name(uint16_t unit)
{
    return uint64_t{0x30} << 56 | unit;
}

TokenText token_text(const Configuration &configuration, uint16_t unit, uint64_t serial, uint32_t blocks);
