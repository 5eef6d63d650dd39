// Standard input and output, each through one buffer.
#pragma once

#include <memory>

#include "bytes.h"

// Replies gather here until they are many, or more input is waited for. What is long goes out from where it lies.
class Output {
  public:
    explicit Output(int descriptor) : descriptor_(descriptor), buffer_(new uint8_t[CAPACITY]) {}

    void write(View data)
    {
        if (data.length > CAPACITY - used_)
            return write_long(data);
        if (data.length)
            std::memcpy(buffer_.get() + used_, data.bytes, data.length);
        used_ += data.length;
    }
    void write_zeros(size_t count);
    void flush() { send({}); }

  private:
    static constexpr size_t CAPACITY = 262'144;

    void write_long(View data);
    void send(View behind);

    int descriptor_;
    std::unique_ptr<uint8_t[]> buffer_;
    size_t used_ = 0;
};

// Bytes that were read and not taken yet. Before it waits for more, all replies are out.
class Input {
  public:
    Input(int descriptor, Output &output) : descriptor_(descriptor), output_(output), buffer_(new uint8_t[CAPACITY]) {}

    // Reads until so many bytes are there, or the input ends; how many there are.
    size_t fill(size_t wanted)
    {
        return end_ - at_ >= wanted ? end_ - at_ : read_more(wanted);
    }
    const uint8_t *front() const { return buffer_.get() + at_; }
    void take(size_t count)
    {
        at_ += count;
        place_ += count;
    }
    // Where the front stands in the whole input.
    uint64_t place() const { return place_; }
    // Takes so many bytes to another place; false where the input ends before.
    bool read_to(uint8_t *to, size_t count);

  private:
    static constexpr size_t CAPACITY = 262'144;

    size_t read_more(size_t wanted);
    size_t pull(uint8_t *to, size_t most);

    int descriptor_;
    Output &output_;
    std::unique_ptr<uint8_t[]> buffer_;
    size_t at_ = 0, end_ = 0;
    uint64_t place_ = 0;
};
