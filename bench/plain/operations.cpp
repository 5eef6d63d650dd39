#include "operations.h"

#include <algorithm>

KeptOperation *Operations::of(OperationKey key)
{
    auto found = by_key_.find(key);
    return found == by_key_.end() ? nullptr : &*found->second;
}

KeptOperation *Operations::running(OperationKey key)
{
    KeptOperation *operation = of(key);
    return operation && operation->is_running() ? operation : nullptr;
}

void Operations::forget(Kept::iterator ended)
{
    by_key_.erase(ended->key);
    kept_.erase(ended);
}

void Operations::keep(KeptOperation operation)
{
    auto same = by_key_.find(operation.key);
    if (same != by_key_.end())
        forget(same->second);
    if (kept_.size() == KEPT_LIMIT)
        forget(std::find_if(kept_.begin(), kept_.end(), [](const KeptOperation &kept) { return !kept.is_running(); }));
    kept_.push_back(std::move(operation));
    KeptOperation &added = kept_.back();
    by_key_.emplace(added.key, std::prev(kept_.end()));
    if (!added.is_running())
        return;
    running_++;
    reserved_ += added.reserved;
    if (added.is_background())
        background_.push_back(&added);
}

void Operations::serve(KeptOperation &operation, OperationState state)
{
    operation.state = state;
    if (operation.is_running()) {
        operation.reserved--;
        reserved_--;
        return;
    }
    running_--;
    reserved_ -= std::exchange(operation.reserved, 0);
    if (operation.is_background())
        background_.erase(std::find(background_.begin(), background_.end(), &operation));
}
