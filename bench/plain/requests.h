// What commands ask for: CDBs, and the parameter lists of those that bring one.
#pragma once

#include <array>
#include <vector>

#include "blocks.h"

// What run-commands measures; any other command is refused as one that is not there.
enum class Operation : uint8_t {
    READ,
    WRITE,
    POPULATE_TOKEN,
    WRITE_USING_TOKEN,
    EXTENDED_COPY,
    RECEIVE_ROD_TOKEN_INFORMATION,
};

// The fields of a CDB; those that the command has not are 0.
struct Cdb {
    Operation operation;
    uint64_t lba;
    uint32_t count;
    uint32_t id;
    // the allocation length, or the length of the parameter list
    uint32_t length;
};

Cdb decode(const std::array<uint8_t, 16> &bytes);

constexpr uint32_t TOKEN_LENGTH = 512;

struct PopulateList {
    uint32_t timeout;
    Ranges ranges;
};

struct WriteTokenList {
    bool immediate;
    bool deletes;
    uint64_t offset;
    View token;
    Ranges ranges;
};

// A CSCD descriptor: a unit by its name, which is 0 where the designator is no name.
struct Cscd {
    uint8_t device;
    uint64_t name;
    uint32_t block_length;
};

struct Segment {
    uint16_t source;
    uint16_t destination;
    uint32_t count;
    uint64_t from_lba;
    uint64_t to_lba;
};

struct CopyList {
    uint8_t id;
    bool keeps_id;
    std::vector<Cscd> cscds;
    std::vector<Segment> segments;
};

PopulateList read_populate_list(View list);
WriteTokenList read_write_token_list(View list);
CopyList read_copy_list(View list);
