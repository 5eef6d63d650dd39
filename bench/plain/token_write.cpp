#include "commands.h"

TokenWrite::TokenWrite(const Configuration &configuration, uint16_t unit, uint32_t id, WriteTokenList list)
    : unit_(unit), id_(id), immediate_(list.immediate), deletes_(list.deletes), offset_(list.offset),
      ranges_(std::move(list.ranges)), blocks_(static_cast<uint32_t>(total(ranges_)))
{
    const uint8_t *text = list.token.bytes;
    refuse_if(number16(text + 6) != TOKEN_LENGTH_FIELD, INVALID_TOKEN_LENGTH);
    uint32_t type = number32(text);
    if (type == ZERO_TOKEN) {
        rod_ = {BlockList::unmapped(blocks_), 0, blocks_};
        return;
    }
    refuse_if(type != POINT_IN_TIME_TOKEN, UNSUPPORTED_TOKEN_TYPE);
    has_creator_ = true;
    creator_ = number16(text + 8);
    refuse_if(creator_ >= configuration.units.size(), TOKEN_UNKNOWN);
    serial_ = number(text + 10, 6);
    text_ = std::make_unique<TokenText>();
    std::memcpy(text_->data(), text, text_->size());
    next_ = Next::REDEEM;
}

bool TokenWrite::run(Turn &turn)
{
    switch (next_) {
    case Next::REDEEM: return redeem(turn);
    case Next::START: return start(turn);
    case Next::ADVANCE: return advance(turn);
    case Next::END:
        // it gave up, whatever comes of this
        try {
            turn.units[unit_].end(turn.asking, id_);
        } catch (const Refused &) {
        }
        throw RecordFull{};
    case Next::DELETE: turn.units[creator_].remove(turn.asking, serial_); break;
    }
    write_good(turn.output, turn.initiator, size_t{0});
    return true;
}

bool TokenWrite::redeem(Turn &turn)
{
    BlockSlice rod = turn.units[creator_].redeem(turn.asking, std::move(text_), unit_);
    bool is_past = offset_ > rod.count || blocks_ > rod.count - offset_;
    refuse_if(is_past, INVALID_FIELD_IN_PARAMETER_LIST);
    rod_ = rod.part(static_cast<uint32_t>(offset_), blocks_);
    next_ = Next::START;
    return false;
}

bool TokenWrite::start(Turn &turn)
{
    auto asked = std::make_unique<act::Start>(act::Start{id_, immediate_, std::move(ranges_), std::move(rod_)});
    const KeptOperation &operation = turn.units[unit_].start(turn.asking, std::move(asked));
    if (immediate_)
        return is_written(turn);
    pieces_left_ = pieces(blocks_);
    return go_on(turn, operation);
}

bool TokenWrite::advance(Turn &turn)
{
    try {
        pieces_left_--;
        return go_on(turn, turn.units[unit_].advance(turn.asking, id_));
    } catch (const RecordFull &) {
        next_ = Next::END;
        return false;
    }
}

bool TokenWrite::go_on(Turn &turn, const KeptOperation &operation)
{
    if (operation.is_running() && pieces_left_) {
        next_ = Next::ADVANCE;
        return false;
    }
    refuse_if(operation.state == OperationState::FAILED, operation.sense);
    refuse_if(operation.state != OperationState::DONE, WRITE_WAS_STOPPED);
    return is_written(turn);
}

// All is written, or is left to the unit. A token that names its unit may be wanted no more.
bool TokenWrite::is_written(Turn &turn)
{
    if (deletes_ && has_creator_) {
        next_ = Next::DELETE;
        return false;
    }
    write_good(turn.output, turn.initiator, size_t{0});
    return true;
}
