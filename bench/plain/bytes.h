// Bytes that are looked at, numbers in them, and payloads that several things share.
#pragma once

#include <cstddef>
#include <cstdint>
#include <cstdlib>
#include <cstring>
#include <new>
#include <utility>

// Bytes that someone else owns.
struct View {
    const uint8_t *bytes = nullptr;
    size_t length = 0;

    View from(size_t at) const { return {bytes + at, length - at}; }
    View first(size_t most) const { return {bytes, most < length ? most : length}; }
};

// A number of at most eight bytes, the highest first.
inline uint64_t number(const uint8_t *bytes, size_t count)
{
    uint64_t value = 0;
    for (size_t at = 0; at < count; at++)
        value = value << 8 | bytes[at];
    return value;
}

inline uint16_t number16(const uint8_t *bytes)
{
    return static_cast<uint16_t>(number(bytes, 2));
}

inline uint32_t number32(const uint8_t *bytes)
{
    return static_cast<uint32_t>(number(bytes, 4));
}

inline uint64_t number64(const uint8_t *bytes)
{
    return number(bytes, 8);
}

inline void put_number(uint8_t *to, uint64_t value, size_t count)
{
    while (count-- > 0) {
        to[count] = static_cast<uint8_t>(value);
        value >>= 8;
    }
}

// A pointer to a thing that counts those who share it, in one thread.
template <class T> class Shared {
  public:
    Shared() = default;
    // The thing is new, and nobody shares it yet.
    explicit Shared(T *made) : thing_(made) { thing_->sharers = 1; }
    Shared(const Shared &other) : thing_(other.thing_)
    {
        if (thing_)
            thing_->sharers++;
    }
    Shared(Shared &&other) noexcept : thing_(std::exchange(other.thing_, nullptr)) {}
    Shared &operator=(Shared other) noexcept
    {
        std::swap(thing_, other.thing_);
        return *this;
    }
    ~Shared()
    {
        if (thing_ && --thing_->sharers == 0)
            T::destroy(thing_);
    }

    T *operator->() const { return thing_; }
    T &operator*() const { return *thing_; }
    explicit operator bool() const { return thing_ != nullptr; }
    bool operator==(const Shared &other) const { return thing_ == other.thing_; }

  private:
    T *thing_ = nullptr;
};

// The data of a WRITE, with its count in front of its bytes, so that it takes one piece of memory.
struct Payload {
    uint32_t sharers;
    uint32_t length;

    uint8_t *bytes() { return reinterpret_cast<uint8_t *>(this + 1); }

    static Shared<Payload> of_length(size_t length)
    {
        void *memory = std::malloc(sizeof(Payload) + length);
        if (!memory)
            throw std::bad_alloc();
        return Shared<Payload>(new (memory) Payload{0, static_cast<uint32_t>(length)});
    }

    static Shared<Payload> copy_of(View from)
    {
        Shared<Payload> made = of_length(from.length);
        if (from.length)
            std::memcpy(made->bytes(), from.bytes, from.length);
        return made;
    }

    static void destroy(Payload *payload) { std::free(payload); }
};
