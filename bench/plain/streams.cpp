#include "streams.h"

#include <cerrno>
#include <sys/uio.h>
#include <unistd.h>

#include "senses.h"

namespace {

constexpr size_t ZEROS = 65'536;
const uint8_t zeros[ZEROS] = {};
// from so many bytes on, data is not copied behind the replies that wait
constexpr size_t LONG = 65'536;

iovec part_of(View view)
{
    return {const_cast<uint8_t *>(view.bytes), view.length};
}

} // namespace

void Output::write_zeros(size_t count)
{
    for (; count > ZEROS; count -= ZEROS)
        write({zeros, ZEROS});
    write({zeros, count});
}

void Output::write_long(View data)
{
    if (data.length >= LONG)
        return send(data);
    flush();
    std::memcpy(buffer_.get(), data.bytes, data.length);
    used_ = data.length;
}

// Sends all that waits, and this behind it.
void Output::send(View behind)
{
    View waiting{buffer_.get(), used_};
    used_ = 0;
    while (waiting.length + behind.length) {
        iovec parts[] = {part_of(waiting), part_of(behind)};
        ssize_t sent = writev(descriptor_, parts, 2);
        if (sent < 0 && errno == EINTR)
            continue;
        if (sent < 0)
            throw BadInput{Fault::WRITE, 0};
        size_t first = waiting.first(sent).length;
        waiting = waiting.from(first);
        behind = behind.from(sent - first);
    }
}

size_t Input::pull(uint8_t *to, size_t most)
{
    output_.flush();
    ssize_t count;
    do
        count = read(descriptor_, to, most);
    while (count < 0 && errno == EINTR);
    if (count < 0)
        throw BadInput{Fault::READ, 0};
    return count;
}

size_t Input::read_more(size_t wanted)
{
    std::memmove(buffer_.get(), front(), end_ - at_);
    end_ -= at_;
    at_ = 0;
    while (end_ < wanted) {
        size_t count = pull(buffer_.get() + end_, CAPACITY - end_);
        if (!count)
            break;
        end_ += count;
    }
    return end_;
}

bool Input::read_to(uint8_t *to, size_t count)
{
    size_t here = View{front(), end_ - at_}.first(count).length;
    std::memcpy(to, front(), here);
    take(here);
    for (to += here, count -= here; count;) {
        size_t came = pull(to, count);
        if (!came)
            return false;
        place_ += came;
        to += came;
        count -= came;
    }
    return true;
}
