#include "unit.h"

#include <algorithm>

namespace {

constexpr size_t LIVE_TOKENS = 64;

} // namespace

Unit::Unit(const Configuration &configuration, uint16_t number)
    : configuration_(configuration), number_(number), extents_(configuration.units[number].block_length)
{
}

// Adds an entry, where the record has room for as many as the act needs, and for the bytes of a Write.
Entry &Unit::admit(const Asking &asking, Act &&act, uint32_t need, uint64_t payload)
{
    if (record_.size() + operations_.reserved() + need > shape().entries || payload_ + payload > shape().payload)
        throw RecordFull{};
    payload_ += payload;
    moment_ = std::max(moment_, asking.moment);
    if (moment_ > no_end_before_)
        expire();
    return record_.emplace_back(
        Entry{++asking.stamp, asking.actor, number_, asking.sequence++, asking.moment, std::move(act)});
}

// Adds the entry of an act for a running operation, which has one kept free.
Entry &Unit::serve(const Asking &asking, Act &&act, KeptOperation *operation)
{
    return admit(asking, std::move(act), operation ? 0 : 1);
}

// ---- blocks

void Unit::judge_bounds(uint64_t lba, uint64_t count) const
{
    refuse_if(lba > shape().blocks || count > shape().blocks - lba, LBA_OUT_OF_RANGE);
}

void Unit::judge_bounds(const Ranges &ranges) const
{
    for (const Range &range : ranges)
        judge_bounds(range.lba, range.count);
}

// Whether so many mapped blocks may be put to some ranges; what these hold is counted only where that matters.
bool Unit::has_room(uint64_t mapped, const Range *ranges, size_t count) const
{
    uint64_t all = extents_.mapped() + mapped;
    for (size_t at = 0; at < count && all > shape().quota; at++)
        all -= extents_.mapped_in(ranges[at]);
    return all <= shape().quota;
}

void Unit::read(const Asking &asking, uint64_t lba, uint32_t count)
{
    admit(asking, act::Read{lba, count}, 1);
    judge_bounds(lba, count);
}

void Unit::write(const Asking &asking, uint64_t lba, uint32_t count, Shared<Payload> data)
{
    admit(asking, act::Write{lba, count, data}, 1, data->length);
    judge_bounds(lba, count);
    Range range{lba, count};
    refuse_if(!has_room(count, &range, 1), SPACE_ALLOCATION_FAILED);
    extents_.write(range, std::move(data));
}

BlockSlice Unit::capture(const Asking &asking, uint64_t lba, uint32_t count)
{
    admit(asking, act::Capture{lba, count}, 1);
    judge_bounds(lba, count);
    auto list = BlockList::empty();
    extents_.cut({lba, count}, *list);
    return {list, 0, count};
}

void Unit::put(const Asking &asking, uint64_t lba, BlockSlice slice)
{
    admit(asking, act::Put{lba, slice}, 1);
    judge_bounds(lba, slice.count);
    Range range{lba, slice.count};
    refuse_if(!has_room(slice.mapped(), &range, 1), SPACE_ALLOCATION_FAILED);
    extents_.put(lba, slice);
}

// ---- tokens

void Unit::end_token(uint64_t serial, Fate fate)
{
    tokens_[serial].fate = fate;
    tokens_[serial].rod = {};
}

void Unit::note_end(const Token &token)
{
    uint64_t end = token.last_use + token.timeout;
    no_end_before_ = std::min(no_end_before_, end < token.last_use ? UINT64_MAX : end);
}

void Unit::expire()
{
    no_end_before_ = UINT64_MAX;
    auto is_over = [this](uint64_t serial) {
        const Token &token = tokens_[serial];
        bool over = moment_ - token.last_use > token.timeout;
        if (over)
            end_token(serial, Fate::EXPIRED);
        else
            note_end(token);
        return over;
    };
    live_.erase(std::remove_if(live_.begin(), live_.end(), is_over), live_.end());
}

// Of so many live tokens the one gives way that was used least lately, and of several the one that was made first.
void Unit::make_room()
{
    if (live_.size() < LIVE_TOKENS)
        return;
    auto by_use = [this](uint64_t a, uint64_t b) { return tokens_[a].last_use < tokens_[b].last_use; };
    auto least = std::min_element(live_.begin(), live_.end(), by_use);
    end_token(*least, Fate::CANCELLED);
    live_.erase(least);
}

void Unit::populate(const Asking &asking, uint32_t id, uint32_t timeout, Ranges ranges)
{
    const Entry &entry = admit(asking, act::Populate{id, timeout, std::move(ranges)}, 1);
    const Ranges &asked = std::get<act::Populate>(entry.act).ranges;
    refuse_if(operations_.running(token_key(asking, id)), OPERATION_IN_PROGRESS);
    judge_bounds(asked);
    make_room();
    auto rod = BlockList::empty();
    for (const Range &range : asked)
        extents_.cut(range, *rod);
    KeptOperation made(token_key(asking, id));
    made.state = OperationState::DONE;
    made.count = rod->count();
    made.made_token = true;
    made.serial = tokens_.size();
    operations_.keep(std::move(made));
    live_.push_back(tokens_.size());
    tokens_.push_back({Fate::LIVE, timeout, rod->count(), moment_, std::move(rod)});
    note_end(tokens_.back());
}

BlockSlice Unit::redeem(const Asking &asking, std::unique_ptr<TokenText> text, uint16_t target)
{
    static constexpr Sense ended[] = {NO_SENSE, TOKEN_EXPIRED, TOKEN_CANCELLED, TOKEN_DELETED};
    const TokenText &asked = *text;
    uint64_t serial = number(&asked[10], 6);
    admit(asking, act::Redeem{std::move(text), target}, 1);
    refuse_if(serial >= tokens_.size(), TOKEN_UNKNOWN);
    Token &token = tokens_[serial];
    const Shape &other = configuration_.units[target];
    bool is_alike = shape().group == other.group && shape().block_length == other.block_length;
    refuse_if(!is_alike, REMOTE_TOKEN_USAGE_NOT_SUPPORTED);
    refuse_if(token_text(configuration_, number_, serial, token.blocks) != asked, TOKEN_CORRUPT);
    refuse_if(token.fate != Fate::LIVE, ended[static_cast<size_t>(token.fate)]);
    token.last_use = moment_;
    return {token.rod, 0, token.blocks};
}

void Unit::remove(const Asking &asking, uint64_t serial)
{
    admit(asking, act::Delete{serial}, 1);
    if (serial >= tokens_.size() || tokens_[serial].fate != Fate::LIVE)
        return;
    end_token(serial, Fate::DELETED);
    live_.erase(std::find(live_.begin(), live_.end(), serial));
}
