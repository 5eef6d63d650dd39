// The operations of a unit: those that run, and what is kept of those that ended.
#pragma once

#include <deque>
#include <list>
#include <unordered_map>

#include "record.h"

constexpr uint32_t PIECE_BLOCKS = 1024;

inline uint32_t pieces(uint32_t blocks)
{
    return (blocks + PIECE_BLOCKS - 1) / PIECE_BLOCKS;
}

enum class OperationState : uint8_t { DONE = 0x01, FAILED = 0x02, RUNNING = 0x12, TERMINATED = 0x60 };

struct OperationKey {
    uint32_t actor;
    bool is_copy;
    uint32_t id;

    bool operator==(const OperationKey &other) const
    {
        return actor == other.actor && is_copy == other.is_copy && id == other.id;
    }
};

// What a Populate, a Start or an Open began.
struct KeptOperation {
    OperationKey key;
    OperationState state = OperationState::RUNNING;
    Sense sense = NO_SENSE;
    // blocks that were moved
    uint32_t count = 0;

    // of a Populate
    bool made_token = false;
    uint64_t serial = 0;

    // of a Start: its entry, and where its next block lies: a range, and how many blocks of it were written
    const act::Start *start = nullptr;
    size_t range = 0;
    uint32_t in_range = 0;

    // of an Open
    CopyResult result;

    // entries of the record that are kept free for it while it runs
    uint32_t reserved = 0;

    explicit KeptOperation(OperationKey begun_as) : key(begun_as) {}

    bool is_running() const { return state == OperationState::RUNNING; }
    bool is_background() const { return start && start->background; }
};

class Operations {
  public:
    uint32_t reserved() const { return reserved_; }
    bool is_crowded() const { return running_ >= RUNNING_LIMIT; }
    KeptOperation *of(OperationKey key);
    KeptOperation *running(OperationKey key);
    // The one that was begun first of those in the background.
    KeptOperation *first_in_background() { return background_.empty() ? nullptr : background_.front(); }
    // Keeps a new one. The one of its key goes, which has ended, and where there are many the first that has ended.
    void keep(KeptOperation operation);
    // An act served a running operation, which is then in this state.
    void serve(KeptOperation &operation, OperationState state);

  private:
    static constexpr uint32_t RUNNING_LIMIT = 64, KEPT_LIMIT = 256;

    struct Hash {
        size_t operator()(OperationKey key) const
        {
            uint64_t both = uint64_t{key.actor} << 32 ^ key.id ^ uint64_t{key.is_copy} << 63;
            return both * 0x9E3779B97F4A7C15 >> 16;
        }
    };
    using Kept = std::list<KeptOperation>;

    void forget(Kept::iterator ended);

    Kept kept_;
    std::unordered_map<OperationKey, Kept::iterator, Hash> by_key_;
    std::deque<KeptOperation *> background_;
    uint32_t running_ = 0;
    uint32_t reserved_ = 0;
};
