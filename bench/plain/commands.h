// Commands that wait for their next Run, each of which does one act.
#pragma once

#include <memory>
#include <optional>
#include <variant>

#include "requests.h"
#include "unit.h"

// What a Run may use.
struct Turn {
    const Configuration &configuration;
    Units &units;
    uint32_t initiator;
    Asking asking;
    Output &output;
};

struct ReadCommand {
    uint16_t unit;
    Range range;
};
struct WriteCommand {
    uint16_t unit;
    Range range;
    Shared<Payload> data;
};
struct PopulateCommand {
    uint16_t unit;
    uint32_t id;
    PopulateList list;
};
// RECEIVE ROD TOKEN INFORMATION
struct ReportCommand {
    uint16_t unit;
    uint32_t id;
    uint32_t length;
};

// WRITE USING TOKEN
class TokenWrite {
  public:
    TokenWrite(const Configuration &configuration, uint16_t unit, uint32_t id, WriteTokenList list);
    bool run(Turn &turn);

  private:
    enum class Next { REDEEM, START, ADVANCE, END, DELETE };

    bool redeem(Turn &turn);
    bool start(Turn &turn);
    bool advance(Turn &turn);
    bool go_on(Turn &turn, const KeptOperation &operation);
    bool is_written(Turn &turn);

    uint16_t unit_;
    uint32_t id_;
    bool immediate_, deletes_;
    uint64_t offset_;
    Ranges ranges_;
    uint32_t blocks_;
    // the token, and the unit that made it; the zero token has none
    std::unique_ptr<TokenText> text_;
    bool has_creator_ = false;
    uint16_t creator_ = 0;
    uint64_t serial_ = 0;
    BlockSlice rod_;
    uint32_t pieces_left_ = 0;
    Next next_ = Next::START;
};

// EXTENDED COPY (LID1)
class SegmentCopy {
  public:
    SegmentCopy(const Configuration &configuration, uint16_t unit, CopyList list);
    // There is no act to ask for.
    bool is_empty() const { return next_ == Next::NOTHING; }
    bool run(Turn &turn);

  private:
    enum class Next { OPEN, CAPTURE, PUT, CLOSE, LAST_CLOSE, NOTHING };

    void step(Turn &turn);
    void capture(Turn &turn);
    void put(Turn &turn);
    void close(Turn &turn, CopyState state);
    void next_segment();
    void stop(Sense sense);

    uint16_t unit_;
    uint8_t id_;
    bool keeps_id_;
    std::vector<Segment> segments_;
    size_t segment_ = 0;
    BlockSlice captured_;
    uint32_t put_ = 0;
    CopyResult result_;
    // what ended the segments, and is told in the end
    std::optional<Refused> refusal_;
    Next next_;
};

using Command = std::variant<std::monostate, ReadCommand, WriteCommand, PopulateCommand, ReportCommand,
                             std::unique_ptr<TokenWrite>, std::unique_ptr<SegmentCopy>>;

inline bool waits(const Command &command)
{
    return command.index() != 0;
}

// Begins a command: it waits, or is replied to.
Command begin(const Configuration &configuration, uint32_t initiator, Request &request, Output &output);

// Does the act that a command asks for; whether the command is replied to.
bool run(Command &command, Turn &turn);
