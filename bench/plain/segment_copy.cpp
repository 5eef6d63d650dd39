#include "commands.h"

namespace {

constexpr uint64_t COPY_BYTES_LIMIT = 536'870'912;

uint16_t unit_of(const Configuration &configuration, const Cscd &cscd)
{
    refuse_if(cscd.device != 0, INCORRECT_COPY_TARGET_TYPE);
    uint64_t unit = cscd.name - unit_name(0);
    refuse_if(unit >= configuration.units.size(), COPY_TARGET_NOT_REACHABLE);
    refuse_if(cscd.block_length != configuration.units[unit].block_length, INVALID_FIELD_IN_PARAMETER_LIST);
    return static_cast<uint16_t>(unit);
}

bool is_within(const Shape &shape, uint64_t lba, uint32_t count)
{
    return lba <= shape.blocks && count <= shape.blocks - lba;
}

void judge(const Configuration &configuration, const Segment &segment)
{
    const Shape &source = configuration.units[segment.source], &destination = configuration.units[segment.destination];
    refuse_if(source.block_length != destination.block_length, INVALID_FIELD_IN_PARAMETER_LIST);
    refuse_if(!is_within(source, segment.from_lba, segment.count), COPY_OUT_OF_RANGE);
    refuse_if(!is_within(destination, segment.to_lba, segment.count), COPY_OUT_OF_RANGE);
}

// The segments of a list, with the numbers of their units in the place of those of descriptors.
std::vector<Segment> judged(const Configuration &configuration, CopyList list)
{
    std::vector<uint16_t> units;
    for (const Cscd &cscd : list.cscds)
        units.push_back(unit_of(configuration, cscd));
    uint64_t bytes = 0;
    for (Segment &segment : list.segments) {
        segment.source = units[segment.source];
        segment.destination = units[segment.destination];
        judge(configuration, segment);
        bytes += uint64_t{segment.count} * configuration.units[segment.source].block_length;
    }
    refuse_if(bytes > COPY_BYTES_LIMIT, INVALID_FIELD_IN_PARAMETER_LIST);
    return std::move(list.segments);
}

} // namespace

SegmentCopy::SegmentCopy(const Configuration &configuration, uint16_t unit, CopyList list)
    : unit_(unit), id_(list.id), keeps_id_(list.keeps_id), segments_(judged(configuration, std::move(list)))
{
    if (keeps_id_)
        next_ = Next::OPEN;
    else
        next_segment();
}

// Goes to the next segment that has blocks, or to the end.
void SegmentCopy::next_segment()
{
    for (; segment_ < segments_.size(); segment_++, result_.segments++) {
        if (segments_[segment_].count) {
            next_ = Next::CAPTURE;
            return;
        }
    }
    next_ = keeps_id_ ? Next::CLOSE : Next::NOTHING;
}

void SegmentCopy::capture(Turn &turn)
{
    const Segment &segment = segments_[segment_];
    captured_ = turn.units[segment.source].capture(turn.asking, segment.from_lba, segment.count);
    put_ = 0;
    next_ = Next::PUT;
}

void SegmentCopy::put(Turn &turn)
{
    const Segment &segment = segments_[segment_];
    uint32_t count = segment.count - put_ < PIECE_BLOCKS ? segment.count - put_ : PIECE_BLOCKS;
    turn.units[segment.destination].put(turn.asking, segment.to_lba + put_, captured_.part(put_, count));
    put_ += count;
    result_.bytes += count * turn.configuration.units[segment.destination].block_length;
    if (put_ < segment.count)
        return;
    segment_++;
    result_.segments++;
    next_segment();
}

void SegmentCopy::close(Turn &turn, CopyState state)
{
    next_ = Next::NOTHING;
    result_.state = state;
    turn.units[unit_].close(turn.asking, id_, result_);
}

void SegmentCopy::step(Turn &turn)
{
    switch (next_) {
    case Next::OPEN:
        turn.units[unit_].open(turn.asking, id_);
        next_segment();
        break;
    case Next::CAPTURE: capture(turn); break;
    case Next::PUT: put(turn); break;
    case Next::CLOSE: close(turn, refusal_ ? CopyState::FAILED : CopyState::DONE); break;
    case Next::LAST_CLOSE: close(turn, CopyState::TERMINATED); break;
    case Next::NOTHING: break;
    }
}

// A Capture or a Put was refused, which ends the segments; a refusal of another act is that of the command.
void SegmentCopy::stop(Sense sense)
{
    refuse_if(next_ != Next::CAPTURE && next_ != Next::PUT, sense);
    refusal_ = Refused{{COPY_ABORTED, sense.code, sense.qualifier}};
    next_ = keeps_id_ ? Next::CLOSE : Next::NOTHING;
}

bool SegmentCopy::run(Turn &turn)
{
    Next asked = next_;
    bool gave_up = asked == Next::LAST_CLOSE;
    try {
        step(turn);
    } catch (const Refused &refused) {
        if (!gave_up)
            stop(refused.sense);
    } catch (const RecordFull &) {
        if (gave_up || !keeps_id_ || asked == Next::OPEN)
            throw;
        next_ = Next::LAST_CLOSE;
        return false;
    }
    if (gave_up)
        throw RecordFull{};
    if (next_ != Next::NOTHING)
        return false;
    if (refusal_)
        throw *refusal_;
    write_good(turn.output, turn.initiator, size_t{0});
    return true;
}
