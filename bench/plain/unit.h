// A unit: its blocks, its tokens, its operations and its record.
#pragma once

#include <deque>

#include "frames.h"
#include "operations.h"

// Who asks for an act, and when. The numbers are those of its last entry and of the last entry of all units.
struct Asking {
    Actor actor;
    uint64_t &sequence;
    uint64_t &stamp;
    uint64_t moment;
};

inline OperationKey token_key(const Asking &asking, uint32_t id)
{
    return {asking.actor.number, false, id};
}

// Each act is one more entry of the record, or RecordFull is thrown. An act that is refused is an entry too.
class Unit {
  public:
    Unit(const Configuration &configuration, uint16_t number);
    Unit(const Unit &) = delete;

    const Extents &extents() const { return extents_; }

    void read(const Asking &asking, uint64_t lba, uint32_t count);
    void write(const Asking &asking, uint64_t lba, uint32_t count, Shared<Payload> data);

    void populate(const Asking &asking, uint32_t id, uint32_t timeout, Ranges ranges);
    BlockSlice redeem(const Asking &asking, std::unique_ptr<TokenText> text, uint16_t target);
    // The Delete.
    void remove(const Asking &asking, uint64_t serial);

    const KeptOperation &start(const Asking &asking, std::unique_ptr<act::Start> start);
    const KeptOperation &advance(const Asking &asking, uint32_t id);
    void pump(const Asking &asking);
    void end(const Asking &asking, uint32_t id);
    const KeptOperation &report(const Asking &asking, uint32_t id);

    void open(const Asking &asking, uint8_t id);
    BlockSlice capture(const Asking &asking, uint64_t lba, uint32_t count);
    void put(const Asking &asking, uint64_t lba, BlockSlice slice);
    void close(const Asking &asking, uint8_t id, CopyResult result);

  private:
    enum class Fate : uint8_t { LIVE, EXPIRED, CANCELLED, DELETED };

    struct Token {
        Fate fate;
        uint32_t timeout;
        uint32_t blocks;
        uint64_t last_use;
        // its blocks, as long as it lives
        Shared<BlockList> rod;
    };

    const Shape &shape() const { return configuration_.units[number_]; }
    Entry &admit(const Asking &asking, Act &&act, uint32_t need, uint64_t payload = 0);
    Entry &serve(const Asking &asking, Act &&act, KeptOperation *operation);
    void judge_bounds(uint64_t lba, uint64_t count) const;
    void judge_bounds(const Ranges &ranges) const;
    bool has_room(uint64_t mapped, const Range *ranges, size_t count) const;

    void expire();
    void end_token(uint64_t serial, Fate fate);
    void make_room();
    void note_end(const Token &token);
    void next_piece(KeptOperation &operation, uint32_t count);
    void write_piece(KeptOperation &operation);

    const Configuration &configuration_;
    uint16_t number_;
    Extents extents_;
    uint64_t moment_ = 0;
    std::vector<Token> tokens_;
    // the serials of the live tokens, and a moment up to which none of them ends
    std::vector<uint64_t> live_;
    uint64_t no_end_before_ = UINT64_MAX;
    Operations operations_;
    // the ranges of the piece that is being written
    Ranges piece_;
    std::deque<Entry> record_;
    uint64_t payload_ = 0;
};

// In place: what is kept of a unit points to other parts of it.
using Units = std::deque<Unit>;
