// What a unit does by its operations: writes with tokens, and what is kept of copies.
#include <algorithm>

#include "unit.h"

namespace {

OperationKey copy_key(const Asking &asking, uint8_t id)
{
    return {asking.actor.number, true, id};
}

KeptOperation *only_if(bool wanted, KeptOperation *operation)
{
    return operation && operation->is_background() == wanted ? operation : nullptr;
}

} // namespace

const KeptOperation &Unit::start(const Asking &asking, std::unique_ptr<act::Start> start)
{
    const act::Start &asked = *start;
    KeptOperation made(token_key(asking, asked.id));
    uint32_t reserved = pieces(asked.rod.count) + 1;
    admit(asking, std::move(start), 1 + reserved);
    refuse_if(operations_.running(made.key), OPERATION_IN_PROGRESS);
    judge_bounds(asked.ranges);
    refuse_if(operations_.is_crowded(), INSUFFICIENT_RESOURCES);
    made.start = &asked;
    if (asked.rod.count)
        made.reserved = reserved;
    else
        made.state = OperationState::DONE;
    OperationKey key = made.key;
    operations_.keep(std::move(made));
    return *operations_.of(key);
}

// Where the next piece of a Start goes; the operation then stands behind it.
void Unit::next_piece(KeptOperation &operation, uint32_t count)
{
    piece_.clear();
    for (uint32_t left = count; left;) {
        const Range &range = operation.start->ranges[operation.range];
        uint32_t here = std::min(range.count - operation.in_range, left);
        if (here)
            piece_.push_back({range.lba + operation.in_range, here});
        operation.in_range += here;
        left -= here;
        if (operation.in_range == range.count) {
            operation.range++;
            operation.in_range = 0;
        }
    }
}

// Writes the next piece of a Start, if the quota allows all of it.
void Unit::write_piece(KeptOperation &operation)
{
    const BlockSlice &rod = operation.start->rod;
    uint32_t count = std::min(rod.count - operation.count, PIECE_BLOCKS);
    BlockSlice slice = rod.part(operation.count, count);
    next_piece(operation, count);
    if (!has_room(slice.mapped(), piece_.data(), piece_.size())) {
        operation.sense = SPACE_ALLOCATION_FAILED;
        operations_.serve(operation, OperationState::FAILED);
        return;
    }
    uint32_t at = 0;
    for (const Range &range : piece_) {
        extents_.put(range.lba, slice.part(at, range.count));
        at += range.count;
    }
    operation.count += count;
    operations_.serve(operation, operation.count == rod.count ? OperationState::DONE : OperationState::RUNNING);
}

const KeptOperation &Unit::advance(const Asking &asking, uint32_t id)
{
    KeptOperation *operation = only_if(false, operations_.running(token_key(asking, id)));
    serve(asking, act::Advance{id}, operation);
    refuse_if(!operation, INVALID_FIELD_IN_CDB);
    write_piece(*operation);
    return *operation;
}

void Unit::pump(const Asking &asking)
{
    KeptOperation *operation = operations_.first_in_background();
    serve(asking, act::Pump{}, operation);
    if (operation)
        write_piece(*operation);
}

void Unit::end(const Asking &asking, uint32_t id)
{
    KeptOperation *operation = only_if(false, operations_.running(token_key(asking, id)));
    serve(asking, act::End{id}, operation);
    refuse_if(!operation, INVALID_FIELD_IN_CDB);
    operations_.serve(*operation, OperationState::TERMINATED);
}

const KeptOperation &Unit::report(const Asking &asking, uint32_t id)
{
    admit(asking, act::Report{id}, 1);
    const KeptOperation *operation = operations_.of(token_key(asking, id));
    refuse_if(!operation, INVALID_FIELD_IN_CDB);
    return *operation;
}

void Unit::open(const Asking &asking, uint8_t id)
{
    admit(asking, act::Open{id}, 2);
    KeptOperation made(copy_key(asking, id));
    refuse_if(operations_.running(made.key), OPERATION_IN_PROGRESS);
    refuse_if(operations_.is_crowded(), INSUFFICIENT_RESOURCES);
    made.reserved = 1;
    operations_.keep(std::move(made));
}

void Unit::close(const Asking &asking, uint8_t id, CopyResult result)
{
    KeptOperation *operation = operations_.running(copy_key(asking, id));
    serve(asking, act::Close{id, result}, operation);
    refuse_if(!operation, INVALID_FIELD_IN_CDB);
    operation->result = result;
    operations_.serve(*operation, OperationState::DONE);
}
