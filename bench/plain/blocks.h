// Which bytes the blocks of a unit hold. Bytes never change, so what was cut out of a unit stays as it stood.
#pragma once

#include <map>
#include <memory_resource>
#include <vector>

#include "bytes.h"

struct Range {
    uint64_t lba;
    uint32_t count;
};

using Ranges = std::vector<Range>;

uint64_t total(const Ranges &ranges);

// Where blocks lie that follow each other: in a payload from an offset on, or nowhere, which is unmapped.
struct Place {
    Shared<Payload> payload;
    uint32_t offset = 0;

    bool is_mapped() const { return static_cast<bool>(payload); }
};

// Blocks as they stood, in pieces. Each has the number of blocks up to its end, so that a block is found by halving.
class BlockList {
  public:
    struct Piece {
        Place place;
        uint32_t end;
    };

    uint32_t sharers = 0;

    static Shared<BlockList> empty() { return Shared<BlockList>(new BlockList); }
    static Shared<BlockList> unmapped(uint32_t count);
    static void destroy(BlockList *list) { delete list; }

    uint32_t count() const { return pieces_.empty() ? 0 : pieces_.back().end; }
    const std::vector<Piece> &pieces() const { return pieces_; }
    // The piece that has the block of this number.
    size_t piece_of(uint32_t block) const;
    void add(const Place &place, uint32_t count);

  private:
    std::vector<Piece> pieces_;
};

// A part of a list that others have too.
struct BlockSlice {
    Shared<BlockList> list;
    uint32_t first = 0;
    uint32_t count = 0;

    BlockSlice part(uint32_t from, uint32_t many) const { return {list, first + from, many}; }
    uint64_t mapped() const;
};

// The mapped blocks of a unit: runs that each lie in one payload, by their first block.
class Extents {
  public:
    explicit Extents(uint32_t block_length) : block_length_(block_length) {}

    uint64_t mapped() const { return mapped_; }
    uint64_t mapped_in(Range range) const;
    void write(Range range, Shared<Payload> payload);
    void put(uint64_t lba, const BlockSlice &slice);
    void cut(Range range, BlockList &list) const;

    // Shows the blocks of a range in order, as mapped(View) and unmapped(how many bytes).
    template <class Sink> void show(Range range, Sink &&sink) const;

  private:
    struct Extent {
        uint32_t count;
        Place place;
    };
    using Map = std::pmr::map<uint64_t, Extent>;

    static uint64_t end_of(Map::const_iterator extent) { return extent->first + extent->second.count; }
    Place behind(const Place &place, uint64_t count) const;
    Map::const_iterator first_behind(uint64_t lba) const;
    Map::iterator carve(uint64_t first, uint64_t end);
    Map::iterator cut_front(Map::iterator extent, uint64_t end);
    void insert(Map::iterator next, uint64_t lba, uint32_t count, Place place);
    template <class Visit> void walk(Range range, Visit &&visit) const;

    uint32_t block_length_;
    uint64_t mapped_ = 0;
    // so that the nodes of the map lie side by side, and not each beside its payload
    std::pmr::unsynchronized_pool_resource nodes_;
    Map extents_{&nodes_};
};

// The extent that has a block, or the first one behind it.
inline Extents::Map::const_iterator Extents::first_behind(uint64_t lba) const
{
    auto next = extents_.upper_bound(lba);
    if (next == extents_.begin())
        return next;
    auto before = std::prev(next);
    return end_of(before) > lba ? before : next;
}

// Visits the runs of a range in order: an extent and how many of its blocks lie before, or null, and how many blocks.
template <class Visit> void Extents::walk(Range range, Visit &&visit) const
{
    uint64_t at = range.lba, end = range.lba + range.count;
    for (auto extent = first_behind(at); at < end; ++extent) {
        uint64_t start = extent == extents_.end() ? end : extent->first;
        if (start > at) {
            uint64_t stop = start < end ? start : end;
            visit(nullptr, 0, static_cast<uint32_t>(stop - at));
            at = stop;
        }
        if (at == end)
            return;
        uint64_t stop = end_of(extent) < end ? end_of(extent) : end;
        visit(&extent->second.place, at - start, static_cast<uint32_t>(stop - at));
        at = stop;
    }
}

template <class Sink> void Extents::show(Range range, Sink &&sink) const
{
    walk(range, [&](const Place *place, uint64_t before, uint32_t count) {
        size_t length = size_t{count} * block_length_;
        if (place)
            sink.mapped(View{place->payload->bytes() + place->offset + before * block_length_, length});
        else
            sink.unmapped(length);
    });
}
