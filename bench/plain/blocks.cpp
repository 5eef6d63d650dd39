#include "blocks.h"

#include <algorithm>

namespace {

#ifdef APART
constexpr bool JOINS = false;
#else
constexpr bool JOINS = true;
#endif

} // namespace

uint64_t total(const Ranges &ranges)
{
    uint64_t blocks = 0;
    for (const Range &range : ranges)
        blocks += range.count;
    return blocks;
}

// ---- lists

Shared<BlockList> BlockList::unmapped(uint32_t count)
{
    Shared<BlockList> list = empty();
    list->add({}, count);
    return list;
}

size_t BlockList::piece_of(uint32_t block) const
{
    auto holds = [](uint32_t wanted, const Piece &piece) { return wanted < piece.end; };
    return std::upper_bound(pieces_.begin(), pieces_.end(), block, holds) - pieces_.begin();
}

void BlockList::add(const Place &place, uint32_t count)
{
    if (!count)
        return;
    if (!pieces_.empty() && !place.is_mapped() && !pieces_.back().place.is_mapped())
        pieces_.back().end += count;
    else
        pieces_.push_back({place, this->count() + count});
}

// Visits the pieces of a slice in order: a place, how many blocks before it are not of the slice, and how many are.
template <class Visit> static void each_piece(const BlockSlice &slice, Visit &&visit)
{
    if (!slice.count)
        return;
    const auto &pieces = slice.list->pieces();
    uint32_t at = slice.first, end = slice.first + slice.count;
    for (size_t index = slice.list->piece_of(at); at < end; index++) {
        uint32_t start = index ? pieces[index - 1].end : 0;
        uint32_t stop = std::min(pieces[index].end, end);
        visit(pieces[index].place, at - start, stop - at);
        at = stop;
    }
}

uint64_t BlockSlice::mapped() const
{
    uint64_t blocks = 0;
    each_piece(*this, [&](const Place &place, uint32_t, uint32_t many) { blocks += place.is_mapped() ? many : 0; });
    return blocks;
}

// ---- extents

Place Extents::behind(const Place &place, uint64_t count) const
{
    return {place.payload, static_cast<uint32_t>(place.offset + count * block_length_)};
}

// Takes the blocks before `end` away from an extent that goes on behind it, and gives what is left.
Extents::Map::iterator Extents::cut_front(Map::iterator extent, uint64_t end)
{
    uint64_t taken = end - extent->first;
    auto node = extents_.extract(extent++);
    node.key() = end;
    node.mapped().count -= static_cast<uint32_t>(taken);
    node.mapped().place.offset += static_cast<uint32_t>(taken * block_length_);
    mapped_ -= taken;
    return extents_.insert(extent, std::move(node));
}

// Unmaps the blocks from `first` up to `end`, and gives the extent behind them.
Extents::Map::iterator Extents::carve(uint64_t first, uint64_t end)
{
    auto next = extents_.lower_bound(first);
    if (first == end)
        return next;
    if (next != extents_.begin()) {
        auto before = std::prev(next);
        uint64_t stop = end_of(before);
        if (stop > first) {
            Extent &extent = before->second;
            mapped_ -= std::min(stop, end) - first;
            if (stop > end) {
                Extent rest{static_cast<uint32_t>(stop - end), behind(extent.place, end - before->first)};
                next = extents_.emplace_hint(next, end, std::move(rest));
            }
            extent.count = static_cast<uint32_t>(first - before->first);
        }
    }
    while (next != extents_.end() && end_of(next) <= end) {
        mapped_ -= next->second.count;
        next = extents_.erase(next);
    }
    return next != extents_.end() && next->first < end ? cut_front(next, end) : next;
}

// Maps blocks that were unmapped, before the extent `next`. Where they go on in the payload of the extent before them
// they lengthen it: what was cut in pieces is one extent again. Built with APART it stays in pieces.
void Extents::insert(Map::iterator next, uint64_t lba, uint32_t count, Place place)
{
    mapped_ += count;
    if (next != extents_.begin()) {
        auto before = std::prev(next);
        Extent &extent = before->second;
        uint64_t offset = extent.place.offset + uint64_t{extent.count} * block_length_;
        if (JOINS && end_of(before) == lba && extent.place.payload == place.payload && offset == place.offset) {
            extent.count += count;
            return;
        }
    }
    extents_.emplace_hint(next, lba, Extent{count, std::move(place)});
}

void Extents::write(Range range, Shared<Payload> payload)
{
    auto next = carve(range.lba, range.lba + range.count);
    if (range.count)
        insert(next, range.lba, range.count, {std::move(payload), 0});
}

void Extents::put(uint64_t lba, const BlockSlice &slice)
{
    auto next = carve(lba, lba + slice.count);
    each_piece(slice, [&](const Place &place, uint32_t before, uint32_t count) {
        if (place.is_mapped())
            insert(next, lba, count, behind(place, before));
        lba += count;
    });
}

uint64_t Extents::mapped_in(Range range) const
{
    uint64_t blocks = 0;
    walk(range, [&](const Place *place, uint64_t, uint32_t count) { blocks += place ? count : 0; });
    return blocks;
}

void Extents::cut(Range range, BlockList &list) const
{
    walk(range, [&](const Place *place, uint64_t before, uint32_t count) {
        list.add(place ? behind(*place, before) : Place{}, count);
    });
}
