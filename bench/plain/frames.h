// The header of a trace, its items, and the bytes of replies.
#pragma once

#include <array>
#include <vector>

#include "bytes.h"
#include "senses.h"
#include "streams.h"

struct Shape {
    uint64_t blocks;
    uint32_t block_length;
    uint32_t entries;
    uint64_t quota;
    uint32_t payload;
    uint8_t group;
};

struct Configuration {
    std::array<uint8_t, 32> secret;
    std::vector<Shape> units;
};

enum class ItemKind : uint8_t { BEGIN = 1, RUN = 2, PUMP = 3 };

// A command as it came. Its data lies in the input until the next item is read; where it is long, in a payload.
struct Request {
    uint16_t unit;
    std::array<uint8_t, 16> cdb;
    View out;
    Shared<Payload> payload;
};

struct Item {
    ItemKind kind;
    uint32_t initiator;
    uint64_t moment;
    // of a Begin
    Request request;
    // of a Pump
    uint16_t unit;
    // how many bytes it has, and how many of them are still to be taken from the input
    uint64_t length;
    size_t left;
};

Configuration read_header(Input &input);

// Reads the next item; false at the end of the input.
bool read_item(Input &input, Item &item);

void write_good(Output &output, uint32_t initiator, size_t length);
void write_good(Output &output, uint32_t initiator, View data);
void write_check(Output &output, uint32_t initiator, Sense sense);
void write_task_set_full(Output &output, uint32_t initiator);

constexpr size_t SENSE_LENGTH = 18;
std::array<uint8_t, SENSE_LENGTH> sense_bytes(Sense sense);
