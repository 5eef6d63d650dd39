#include "frames.h"

namespace {

constexpr size_t HEADER_LENGTH = 42, UNIT_LENGTH = 32;
constexpr uint16_t UNITS_LIMIT = 16;
constexpr uint64_t BLOCKS_LIMIT = uint64_t{1} << 32;
constexpr uint32_t ENTRIES_LIMIT = 1'048'576, PAYLOAD_LIMIT = 268'435'456, DATA_LIMIT = 8'388'608;
constexpr uint8_t GROUP_LIMIT = 15;
constexpr size_t RUN_LENGTH = 13, PUMP_LENGTH = 11, REQUEST_AT = 13, REQUEST_FRONT = 22;
// data that is at least so long is read to where it stays, past the buffer of the input
constexpr size_t LONG_DATA = 65'536;

enum class Status : uint8_t { GOOD = 0x00, CHECK_CONDITION = 0x02, TASK_SET_FULL = 0x28 };
constexpr size_t REPLY_FRONT = 10;

// The place in a unit's part of the header of the first field that breaks its limit; its length where none does.
size_t bad_field(const Shape &shape, const uint8_t *spare)
{
    if (shape.blocks < 1 || shape.blocks > BLOCKS_LIMIT)
        return 0;
    if (shape.block_length != 512 && shape.block_length != 4096)
        return 8;
    if (shape.entries < 1 || shape.entries > ENTRIES_LIMIT)
        return 12;
    if (shape.quota > shape.blocks)
        return 16;
    if (shape.payload < 1 || shape.payload > PAYLOAD_LIMIT)
        return 24;
    if (shape.group > GROUP_LIMIT)
        return 28;
    return number(spare, 3) ? 29 : UNIT_LENGTH;
}

Shape shape_in(const uint8_t *bytes, size_t place)
{
    Shape shape{number64(bytes),      number32(bytes + 8),  number32(bytes + 12),
                number64(bytes + 16), number32(bytes + 24), bytes[28]};
    size_t bad = bad_field(shape, bytes + 29);
    if (bad < UNIT_LENGTH)
        throw BadInput{Fault::BAD_HEADER, place + bad};
    return shape;
}

// Makes sure that the bytes of an item, or of a part of it, are there.
const uint8_t *whole(Input &input, size_t length)
{
    if (input.fill(length) < length)
        throw BadInput{Fault::TORN, input.place()};
    return input.front();
}

// The data of a command, of which the input has the front.
void read_data(Input &input, size_t length, Item &item)
{
    if (length < LONG_DATA) {
        const uint8_t *bytes = whole(input, REQUEST_AT + REQUEST_FRONT + length);
        item.request.out = {bytes + REQUEST_AT + REQUEST_FRONT, length};
        return;
    }
    uint64_t place = input.place();
    input.take(REQUEST_AT + REQUEST_FRONT);
    item.request.payload = Payload::of_length(length);
    item.request.out = {item.request.payload->bytes(), length};
    item.left = 0;
    if (!input.read_to(item.request.payload->bytes(), length))
        throw BadInput{Fault::TORN, place};
}

void read_begin(Input &input, Item &item)
{
    const uint8_t *bytes = whole(input, REQUEST_AT + 4);
    size_t length = number32(bytes + REQUEST_AT);
    if (length > DATA_LIMIT)
        throw BadInput{Fault::BAD_RECORD, input.place()};
    bytes = whole(input, REQUEST_AT + REQUEST_FRONT);
    item.initiator = number32(bytes + 1);
    item.moment = number64(bytes + 5);
    item.request.unit = number16(bytes + REQUEST_AT + 4);
    std::memcpy(item.request.cdb.data(), bytes + REQUEST_AT + 6, item.request.cdb.size());
    item.request.payload = {};
    item.left = REQUEST_AT + REQUEST_FRONT + length;
    item.length = item.left;
    read_data(input, length, item);
}

void write_front(Output &output, uint32_t initiator, Status status, uint8_t sense, size_t length)
{
    uint8_t front[REPLY_FRONT];
    put_number(front, initiator, 4);
    front[4] = static_cast<uint8_t>(status);
    front[5] = sense;
    put_number(front + 6, length, 4);
    output.write({front, sizeof front});
}

} // namespace

Configuration read_header(Input &input)
{
    const uint8_t *bytes = whole(input, HEADER_LENGTH);
    if (std::memcmp(bytes, "CMTRACE1", 8) != 0)
        throw BadInput{Fault::BAD_HEADER, 0};
    uint16_t count = number16(bytes + 40);
    if (count < 1 || count > UNITS_LIMIT)
        throw BadInput{Fault::BAD_HEADER, 40};
    size_t length = HEADER_LENGTH + count * UNIT_LENGTH;
    bytes = whole(input, length);
    Configuration made;
    std::memcpy(made.secret.data(), bytes + 8, made.secret.size());
    for (size_t at = HEADER_LENGTH; at < length; at += UNIT_LENGTH)
        made.units.push_back(shape_in(bytes + at, at));
    input.take(length);
    return made;
}

bool read_item(Input &input, Item &item)
{
    if (!input.fill(1))
        return false;
    item.kind = static_cast<ItemKind>(*input.front());
    switch (item.kind) {
    case ItemKind::BEGIN:
        read_begin(input, item);
        return true;
    case ItemKind::RUN: {
        const uint8_t *bytes = whole(input, RUN_LENGTH);
        item.initiator = number32(bytes + 1);
        item.moment = number64(bytes + 5);
        item.length = item.left = RUN_LENGTH;
        return true;
    }
    case ItemKind::PUMP: {
        const uint8_t *bytes = whole(input, PUMP_LENGTH);
        item.unit = number16(bytes + 1);
        item.moment = number64(bytes + 3);
        item.length = item.left = PUMP_LENGTH;
        return true;
    }
    }
    throw BadInput{Fault::BAD_RECORD, input.place()};
}

std::array<uint8_t, SENSE_LENGTH> sense_bytes(Sense sense)
{
    std::array<uint8_t, SENSE_LENGTH> made{};
    made[0] = 0x70;
    made[2] = sense.key;
    made[7] = SENSE_LENGTH - 8;
    made[12] = sense.code;
    made[13] = sense.qualifier;
    return made;
}

void write_good(Output &output, uint32_t initiator, size_t length)
{
    write_front(output, initiator, Status::GOOD, 0, length);
}

void write_good(Output &output, uint32_t initiator, View data)
{
    write_good(output, initiator, data.length);
    output.write(data);
}

void write_check(Output &output, uint32_t initiator, Sense sense)
{
    auto bytes = sense_bytes(sense);
    write_front(output, initiator, Status::CHECK_CONDITION, SENSE_LENGTH, 0);
    output.write({bytes.data(), bytes.size()});
}

void write_task_set_full(Output &output, uint32_t initiator)
{
    write_front(output, initiator, Status::TASK_SET_FULL, 0, 0);
}
