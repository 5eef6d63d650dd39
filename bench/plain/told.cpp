#include "told.h"

namespace {

void add(Data &data, uint64_t value, size_t count)
{
    data.resize(data.size() + count);
    put_number(&data[data.size() - count], value, count);
}

void add(Data &data, View bytes)
{
    data.insert(data.end(), bytes.bytes, bytes.bytes + bytes.length);
}

void add(Data &data, Sense sense)
{
    auto bytes = sense_bytes(sense);
    add(data, {bytes.data(), bytes.size()});
}

// Header and sense of the status of a token operation, as if so many bytes came behind.
Data operation_data(const KeptOperation &operation, size_t behind)
{
    bool has_failed = operation.state == OperationState::FAILED;
    uint8_t sense = has_failed ? SENSE_LENGTH : 0;
    Data data;
    data.reserve(32 + SENSE_LENGTH + behind);
    add(data, 28 + sense + behind, 4);
    add(data, operation.made_token ? 0x10 : 0x11, 1);
    add(data, static_cast<uint8_t>(operation.state), 1);
    add(data, 0, 2);
    add(data, operation.is_running() ? 100 : 0, 4);
    add(data, has_failed ? 2 : 0, 1);
    add(data, sense, 1);
    add(data, sense, 1);
    add(data, 0xF1, 1);
    add(data, operation.count, 8);
    add(data, 0, 8);
    if (has_failed)
        add(data, operation.sense);
    return data;
}

} // namespace

Data token_information_data(const Configuration &configuration, uint16_t unit, const KeptOperation &operation)
{
    if (!operation.made_token) {
        Data data = operation_data(operation, 4);
        add(data, 0, 4);
        return data;
    }
    Data data = operation_data(operation, 6 + TOKEN_LENGTH);
    TokenText text = token_text(configuration, unit, operation.serial, operation.count);
    add(data, 2 + TOKEN_LENGTH, 4);
    add(data, 0, 2);
    add(data, {text.data(), text.size()});
    return data;
}
