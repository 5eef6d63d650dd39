// The senses of refusals, and the other ends of a command or of the input.
#pragma once

#include <cstdint>

struct Sense {
    uint8_t key, code, qualifier;
};

constexpr Sense NO_SENSE{0x00, 0x00, 0x00};
constexpr Sense OPERATION_IN_PROGRESS{0x05, 0x00, 0x16};
constexpr Sense PARAMETER_LIST_LENGTH_ERROR{0x05, 0x1A, 0x00};
constexpr Sense INVALID_COMMAND_OPERATION_CODE{0x05, 0x20, 0x00};
constexpr Sense LBA_OUT_OF_RANGE{0x05, 0x21, 0x00};
constexpr Sense UNSUPPORTED_TOKEN_TYPE{0x05, 0x23, 0x01};
constexpr Sense REMOTE_TOKEN_USAGE_NOT_SUPPORTED{0x05, 0x23, 0x02};
constexpr Sense TOKEN_UNKNOWN{0x05, 0x23, 0x04};
constexpr Sense TOKEN_CORRUPT{0x05, 0x23, 0x05};
constexpr Sense TOKEN_EXPIRED{0x05, 0x23, 0x07};
constexpr Sense TOKEN_CANCELLED{0x05, 0x23, 0x08};
constexpr Sense TOKEN_DELETED{0x05, 0x23, 0x09};
constexpr Sense INVALID_TOKEN_LENGTH{0x05, 0x23, 0x0A};
constexpr Sense INVALID_FIELD_IN_CDB{0x05, 0x24, 0x00};
constexpr Sense LOGICAL_UNIT_NOT_SUPPORTED{0x05, 0x25, 0x00};
constexpr Sense INVALID_FIELD_IN_PARAMETER_LIST{0x05, 0x26, 0x00};
constexpr Sense TOO_MANY_TARGET_DESCRIPTORS{0x05, 0x26, 0x06};
constexpr Sense UNSUPPORTED_TARGET_DESCRIPTOR_TYPE{0x05, 0x26, 0x07};
constexpr Sense TOO_MANY_SEGMENT_DESCRIPTORS{0x05, 0x26, 0x08};
constexpr Sense UNSUPPORTED_SEGMENT_DESCRIPTOR_TYPE{0x05, 0x26, 0x09};
constexpr Sense INLINE_DATA_LENGTH_EXCEEDED{0x05, 0x26, 0x0B};
constexpr Sense INSUFFICIENT_RESOURCES{0x05, 0x55, 0x03};
constexpr Sense SPACE_ALLOCATION_FAILED{0x07, 0x27, 0x07};
constexpr uint8_t COPY_ABORTED = 0x0A;
constexpr Sense WRITE_WAS_STOPPED{COPY_ABORTED, 0x00, 0x00};
constexpr Sense COPY_TARGET_NOT_REACHABLE{COPY_ABORTED, 0x0D, 0x02};
constexpr Sense INCORRECT_COPY_TARGET_TYPE{COPY_ABORTED, 0x0D, 0x03};
constexpr Sense COPY_OUT_OF_RANGE{COPY_ABORTED, 0x21, 0x00};

// An act or a command is refused. Refusals are rare, so they are thrown.
struct Refused {
    Sense sense;
};

// The unit's record has no room for an act.
struct RecordFull {};

// The input can't be played further from a byte on. The exit statuses are those of copymgr.
enum class Fault { READ = 1, WRITE = 2, TORN = 4, BAD_HEADER = 5, BAD_RECORD = 7 };

struct BadInput {
    Fault fault;
    uint64_t place;
};

inline void refuse_if(bool wrong, Sense sense)
{
    if (wrong)
        throw Refused{sense};
}
