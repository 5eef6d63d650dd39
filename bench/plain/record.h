// What was asked of a unit, as its record keeps it: each act with its data, which units, tokens and replies share.
#pragma once

#include <memory>
#include <variant>

#include "blocks.h"
#include "rod_token.h"

enum class CopyState : uint8_t { RUNNING, DONE, FAILED, TERMINATED };

struct CopyResult {
    CopyState state = CopyState::RUNNING;
    uint16_t segments = 0;
    uint32_t bytes = 0;
};

namespace act {

struct Read {
    uint64_t lba;
    uint32_t count;
};
struct Write {
    uint64_t lba;
    uint32_t count;
    Shared<Payload> data;
};
struct Populate {
    uint32_t id;
    uint32_t timeout;
    Ranges ranges;
};
struct Redeem {
    std::unique_ptr<TokenText> text;
    uint16_t target;
};
struct Delete {
    uint64_t serial;
};
struct Start {
    uint32_t id;
    bool background;
    Ranges ranges;
    BlockSlice rod;
};
struct Advance {
    uint32_t id;
};
struct Pump {};
struct End {
    uint32_t id;
};
struct Report {
    uint32_t id;
};
struct Open {
    uint8_t id;
};
struct Capture {
    uint64_t lba;
    uint32_t count;
};
struct Put {
    uint64_t lba;
    BlockSlice slice;
};
struct Close {
    uint8_t id;
    CopyResult result;
};

} // namespace act

// A Start is large and rare, so it lies apart.
using Act = std::variant<act::Read, act::Write, act::Populate, act::Redeem, act::Delete, std::unique_ptr<act::Start>,
                         act::Advance, act::Pump, act::End, act::Report, act::Open, act::Capture, act::Put, act::Close>;

// Who asks: a nexus, or the pump of a unit.
struct Actor {
    uint32_t number;
    bool is_pump;
};

struct Entry {
    uint64_t stamp;
    Actor actor;
    uint16_t unit;
    uint64_t sequence;
    uint64_t moment;
    Act act;
};
