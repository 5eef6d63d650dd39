#include "requests.h"

#include <algorithm>

#include "senses.h"

namespace {

// ---- CDBs

constexpr uint32_t READ_WRITE_LIMIT = 2048;
constexpr uint16_t NO_ACTION = 0xFF;

constexpr uint16_t code(uint8_t operation, uint8_t action = NO_ACTION)
{
    return static_cast<uint16_t>(operation << 8 | action);
}

// Where a field stands: its first byte, and how many bytes it has, which is 0 where there is none.
struct Field {
    uint8_t at, size;
};

struct Form {
    Operation operation;
    Field lba, count, id, length;
};

constexpr Field NONE{0, 0}, LENGTH_AT_10{10, 4}, ID_AT_2{2, 4}, ID_AT_6{6, 4};

Form form_of(uint16_t operation_and_action)
{
    switch (operation_and_action) {
    case code(0x88): return {Operation::READ, {2, 8}, {10, 4}, NONE, NONE};
    case code(0x8A): return {Operation::WRITE, {2, 8}, {10, 4}, NONE, NONE};
    case code(0x83, 0x00): return {Operation::EXTENDED_COPY, NONE, NONE, NONE, LENGTH_AT_10};
    case code(0x83, 0x10): return {Operation::POPULATE_TOKEN, NONE, NONE, ID_AT_6, LENGTH_AT_10};
    case code(0x83, 0x11): return {Operation::WRITE_USING_TOKEN, NONE, NONE, ID_AT_6, LENGTH_AT_10};
    case code(0x84, 0x07): return {Operation::RECEIVE_ROD_TOKEN_INFORMATION, NONE, NONE, ID_AT_2, LENGTH_AT_10};
    default: throw Refused{INVALID_COMMAND_OPERATION_CODE};
    }
}

bool has_action(uint8_t operation)
{
    return operation == 0x83 || operation == 0x84;
}

// What a READ or WRITE may not ask for: protection information, or more blocks than it has.
bool is_invalid(const Cdb &cdb, uint8_t second)
{
    bool moves = cdb.operation == Operation::READ || cdb.operation == Operation::WRITE;
    return moves && (second >> 5 || cdb.count > READ_WRITE_LIMIT);
}

// ---- parameter lists

constexpr size_t RANGE_LENGTH = 16, RANGES_LIMIT = 64, CSCD_LENGTH = 32, SEGMENT_LENGTH = 28, COPY_FRONT = 16;
constexpr uint32_t ROD_BLOCKS_LIMIT = 1'048'576;
constexpr uint32_t TIMEOUT_LIMIT = 3600, TIMEOUT_DEFAULT = 300;
constexpr uint32_t POINT_IN_TIME_ROD = 0x00800000, ANY_ROD = 0x0080FFFF;
constexpr uint8_t IDENTIFICATION_CSCD = 0xE4, BLOCK_TO_BLOCK = 0x02;

Ranges ranges_in(const uint8_t *bytes, size_t count)
{
    Ranges ranges(count);
    for (Range &range : ranges) {
        range = {number64(bytes), number32(bytes + 8)};
        bytes += RANGE_LENGTH;
    }
    return ranges;
}

// Two of the ranges have a block in common.
bool share_a_block(Ranges ranges)
{
    auto is_empty = [](const Range &range) { return range.count == 0; };
    ranges.erase(std::remove_if(ranges.begin(), ranges.end(), is_empty), ranges.end());
    std::sort(ranges.begin(), ranges.end(), [](const Range &a, const Range &b) { return a.lba < b.lba; });
    auto overlap = [](const Range &a, const Range &b) { return b.lba - a.lba < a.count; };
    return std::adjacent_find(ranges.begin(), ranges.end(), overlap) != ranges.end();
}

// The ranges behind the front of a list, by its length fields. What they denote is judged by `judge`.
Ranges token_ranges(View list, size_t front)
{
    refuse_if(list.length < front, PARAMETER_LIST_LENGTH_ERROR);
    refuse_if(number16(list.bytes) + size_t{2} > list.length, PARAMETER_LIST_LENGTH_ERROR);
    size_t length = number16(list.bytes + front - 2);
    refuse_if(length % RANGE_LENGTH != 0, INVALID_FIELD_IN_PARAMETER_LIST);
    refuse_if(front + length > list.length, PARAMETER_LIST_LENGTH_ERROR);
    refuse_if(length > RANGE_LENGTH * RANGES_LIMIT, INVALID_FIELD_IN_PARAMETER_LIST);
    return ranges_in(list.bytes + front, length / RANGE_LENGTH);
}

void judge(const Ranges &ranges)
{
    refuse_if(ranges.size() > 1 && share_a_block(ranges), INVALID_FIELD_IN_PARAMETER_LIST);
    refuse_if(total(ranges) > ROD_BLOCKS_LIMIT, INVALID_FIELD_IN_PARAMETER_LIST);
}

Cscd cscd_in(const uint8_t *bytes)
{
    refuse_if(bytes[0] != IDENTIFICATION_CSCD, UNSUPPORTED_TARGET_DESCRIPTOR_TYPE);
    bool is_named = (bytes[4] & 0x0F) == 1 && (bytes[5] & 0x3F) == 3 && bytes[7] == 8;
    uint32_t block_length = static_cast<uint32_t>(number(bytes + 29, 3));
    return {static_cast<uint8_t>(bytes[1] & 0x1F), is_named ? number64(bytes + 8) : 0, block_length};
}

Segment segment_in(View rest, size_t cscds)
{
    const uint8_t *bytes = rest.bytes;
    refuse_if(bytes[0] != BLOCK_TO_BLOCK, UNSUPPORTED_SEGMENT_DESCRIPTOR_TYPE);
    refuse_if(rest.length < SEGMENT_LENGTH, PARAMETER_LIST_LENGTH_ERROR);
    Segment segment{number16(bytes + 4), number16(bytes + 6), number16(bytes + 10), number64(bytes + 12),
                    number64(bytes + 20)};
    bool is_wrong = number16(bytes + 2) != 0x18 || segment.source >= cscds || segment.destination >= cscds;
    refuse_if(is_wrong, INVALID_FIELD_IN_PARAMETER_LIST);
    return segment;
}

} // namespace

Cdb decode(const std::array<uint8_t, 16> &bytes)
{
    Form form = form_of(code(bytes[0], has_action(bytes[0]) ? bytes[1] & 0x1F : NO_ACTION));
    refuse_if(bytes.back() & 0x04, INVALID_FIELD_IN_CDB);
    auto field = [&](Field where) { return number(&bytes[where.at], where.size); };
    Cdb cdb{};
    cdb.operation = form.operation;
    cdb.lba = field(form.lba);
    cdb.count = static_cast<uint32_t>(field(form.count));
    cdb.id = static_cast<uint32_t>(field(form.id));
    cdb.length = static_cast<uint32_t>(field(form.length));
    refuse_if(is_invalid(cdb, bytes[1]), INVALID_FIELD_IN_CDB);
    return cdb;
}

PopulateList read_populate_list(View list)
{
    Ranges ranges = token_ranges(list, 16);
    uint32_t timeout = number32(list.bytes + 4), type = number32(list.bytes + 8);
    refuse_if(timeout > TIMEOUT_LIMIT, INVALID_FIELD_IN_PARAMETER_LIST);
    bool names_type = list.bytes[2] & 2;
    refuse_if(names_type && type != POINT_IN_TIME_ROD && type != ANY_ROD, INVALID_FIELD_IN_PARAMETER_LIST);
    judge(ranges);
    return {timeout ? timeout : TIMEOUT_DEFAULT, std::move(ranges)};
}

WriteTokenList read_write_token_list(View list)
{
    Ranges ranges = token_ranges(list, 536);
    judge(ranges);
    bool immediate = list.bytes[2] & 1, deletes = list.bytes[2] & 2;
    return {immediate, deletes, number64(list.bytes + 8), {list.bytes + 16, TOKEN_LENGTH}, std::move(ranges)};
}

CopyList read_copy_list(View list)
{
    refuse_if(list.length < COPY_FRONT, PARAMETER_LIST_LENGTH_ERROR);
    uint8_t usage = list.bytes[1] >> 3 & 3;
    size_t cscds = number16(list.bytes + 2), segments = number32(list.bytes + 8);
    refuse_if(usage == 1, INVALID_FIELD_IN_PARAMETER_LIST);
    refuse_if(number32(list.bytes + 12) != 0, INLINE_DATA_LENGTH_EXCEEDED);
    refuse_if(cscds % CSCD_LENGTH != 0, INVALID_FIELD_IN_PARAMETER_LIST);
    refuse_if(cscds > 16 * CSCD_LENGTH, TOO_MANY_TARGET_DESCRIPTORS);
    refuse_if(segments > 64 * SEGMENT_LENGTH, TOO_MANY_SEGMENT_DESCRIPTORS);
    refuse_if(COPY_FRONT + cscds + segments > list.length, PARAMETER_LIST_LENGTH_ERROR);
    CopyList made{list.bytes[0], usage != 3, {}, {}};
    View rest = list.from(COPY_FRONT);
    for (size_t at = 0; at < cscds; at += CSCD_LENGTH)
        made.cscds.push_back(cscd_in(rest.bytes + at));
    rest = rest.from(cscds).first(segments);
    for (size_t at = 0; at < segments; at += SEGMENT_LENGTH)
        made.segments.push_back(segment_in(rest.from(at), made.cscds.size()));
    return made;
}
