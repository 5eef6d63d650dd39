// Plays a recorded trace as copymgr does, without proof: the measure of what a command costs beside a plain program. It
// has the commands that bench/run-commands measures, and no others.
//
//     plain replay < TRACE > REPLIES
//
// docs/formats.md says what a trace and its replies are. The exit statuses and the lines of faults are those of copymgr,
// so that the same tools compare both.
#include <cstdio>
#include <unordered_map>

#include "commands.h"

namespace {

constexpr int USAGE = 6;

// An initiator: how many entries it made, and the command that waits for its next Run.
struct Nexus {
    uint64_t sequence = 0;
    Command command;
};

// The units and the initiators of a trace.
class Player {
  public:
    Player(Configuration configuration, Output &output);

    // Plays an item; false where it may not stand here.
    bool play(Item &item);

  private:
    bool begin(Item &item);
    bool run(const Item &item);
    bool pump(const Item &item);

    Configuration configuration_;
    Output &output_;
    Units units_;
    std::vector<uint64_t> pumped_;
    std::unordered_map<uint32_t, Nexus> nexuses_;
    uint64_t stamp_ = 0;
};

Player::Player(Configuration configuration, Output &output)
    : configuration_(std::move(configuration)), output_(output), pumped_(configuration_.units.size())
{
    for (size_t unit = 0; unit < configuration_.units.size(); unit++)
        units_.emplace_back(configuration_, static_cast<uint16_t>(unit));
}

bool Player::play(Item &item)
{
    switch (item.kind) {
    case ItemKind::BEGIN: return begin(item);
    case ItemKind::RUN: return run(item);
    case ItemKind::PUMP: return pump(item);
    }
    return false;
}

bool Player::begin(Item &item)
{
    Nexus &nexus = nexuses_[item.initiator];
    if (waits(nexus.command))
        return false;
    nexus.command = ::begin(configuration_, item.initiator, item.request, output_);
    return true;
}

bool Player::run(const Item &item)
{
    auto found = nexuses_.find(item.initiator);
    if (found == nexuses_.end() || !waits(found->second.command))
        return false;
    Nexus &nexus = found->second;
    Asking asking{{item.initiator, false}, nexus.sequence, stamp_, item.moment};
    Turn turn{configuration_, units_, item.initiator, asking, output_};
    if (::run(nexus.command, turn))
        nexus.command = {};
    return true;
}

bool Player::pump(const Item &item)
{
    if (item.unit >= units_.size())
        return false;
    Asking asking{{item.unit, true}, pumped_[item.unit], stamp_, item.moment};
    try {
        units_[item.unit].pump(asking);
    } catch (const RecordFull &) {
        // then nothing is done
    }
    return true;
}

void play_all(Input &input, Output &output)
{
    Player player(read_header(input), output);
    Item item;
    while (read_item(input, item)) {
        if (!player.play(item))
            throw BadInput{Fault::BAD_RECORD, input.place() + item.left - item.length};
        input.take(item.left);
    }
    output.flush();
}

const char *text_of(Fault fault)
{
    switch (fault) {
    case Fault::READ: return "read failed";
    case Fault::WRITE: return "write failed";
    case Fault::TORN: return "input ends inside the part at byte";
    case Fault::BAD_HEADER: return "bad header at byte";
    case Fault::BAD_RECORD: return "bad record at byte";
    }
    return "";
}

// Where replies can go out, all to what came before a fault do.
int ended(BadInput bad, Output &output)
{
    bool has_place = bad.fault != Fault::READ && bad.fault != Fault::WRITE;
    try {
        if (has_place)
            output.flush();
    } catch (const BadInput &worse) {
        return ended(worse, output);
    }
    std::fprintf(stderr, "copymgr: %s", text_of(bad.fault));
    if (has_place)
        std::fprintf(stderr, " %llu", static_cast<unsigned long long>(bad.place));
    std::fputc('\n', stderr);
    return static_cast<int>(bad.fault);
}

} // namespace

int main(int count, char **words)
{
    if (count != 2 || std::strcmp(words[1], "replay") != 0) {
        std::fputs("plain: use plain replay < TRACE > REPLIES\n", stderr);
        return USAGE;
    }
    Output output(1);
    Input input(0, output);
    try {
        play_all(input, output);
    } catch (const BadInput &bad) {
        return ended(bad, output);
    }
    return 0;
}
