#include "commands.h"

#include "told.h"

namespace {

bool has_list(Operation operation)
{
    switch (operation) {
    case Operation::POPULATE_TOKEN:
    case Operation::WRITE_USING_TOKEN:
    case Operation::EXTENDED_COPY: return true;
    default: return false;
    }
}

Cdb judged(const Configuration &configuration, const Request &request)
{
    refuse_if(request.unit >= configuration.units.size(), LOGICAL_UNIT_NOT_SUPPORTED);
    Cdb cdb = decode(request.cdb);
    size_t length = request.out.length;
    if (cdb.operation == Operation::WRITE)
        refuse_if(length != size_t{cdb.count} * configuration.units[request.unit].block_length, INVALID_FIELD_IN_CDB);
    else if (has_list(cdb.operation))
        refuse_if(length != cdb.length, PARAMETER_LIST_LENGTH_ERROR);
    else
        refuse_if(length != 0, INVALID_FIELD_IN_CDB);
    return cdb;
}

void write_cut(Output &output, uint32_t initiator, const Data &data, uint32_t length)
{
    write_good(output, initiator, View{data.data(), data.size()}.first(length));
}

Command begin_copy(const Configuration &configuration, uint32_t initiator, const Request &request, Output &output)
{
    if (request.out.length) {
        auto copy = std::make_unique<SegmentCopy>(configuration, request.unit, read_copy_list(request.out));
        if (!copy->is_empty())
            return copy;
    }
    write_good(output, initiator, size_t{0});
    return {};
}

Command begin_judged(const Configuration &configuration, uint32_t initiator, Request &request, Output &output)
{
    Cdb cdb = judged(configuration, request);
    uint16_t unit = request.unit;
    switch (cdb.operation) {
    case Operation::READ: return ReadCommand{unit, {cdb.lba, cdb.count}};
    case Operation::WRITE: {
        // long data lies in a payload already
        auto data = request.payload ? std::move(request.payload) : Payload::copy_of(request.out);
        return WriteCommand{unit, {cdb.lba, cdb.count}, std::move(data)};
    }
    case Operation::POPULATE_TOKEN: return PopulateCommand{unit, cdb.id, read_populate_list(request.out)};
    case Operation::WRITE_USING_TOKEN:
        return std::make_unique<TokenWrite>(configuration, unit, cdb.id, read_write_token_list(request.out));
    case Operation::RECEIVE_ROD_TOKEN_INFORMATION: return ReportCommand{unit, cdb.id, cdb.length};
    case Operation::EXTENDED_COPY: break;
    }
    return begin_copy(configuration, initiator, request, output);
}

// Where a READ's blocks go.
struct Shown {
    Output &output;

    void mapped(View bytes) { output.write(bytes); }
    void unmapped(size_t length) { output.write_zeros(length); }
};

// Does the act of a command and writes its reply, where it has one.
struct Running {
    Turn &turn;

    Unit &at(uint16_t unit) { return turn.units[unit]; }

    bool good()
    {
        write_good(turn.output, turn.initiator, size_t{0});
        return true;
    }
    bool good(const Data &data, uint32_t length)
    {
        write_cut(turn.output, turn.initiator, data, length);
        return true;
    }

    bool operator()(std::monostate) { return false; }
    bool operator()(ReadCommand &command)
    {
        at(command.unit).read(turn.asking, command.range.lba, command.range.count);
        size_t length = size_t{command.range.count} * turn.configuration.units[command.unit].block_length;
        write_good(turn.output, turn.initiator, length);
        at(command.unit).extents().show(command.range, Shown{turn.output});
        return true;
    }
    bool operator()(WriteCommand &command)
    {
        at(command.unit).write(turn.asking, command.range.lba, command.range.count, std::move(command.data));
        return good();
    }
    bool operator()(PopulateCommand &command)
    {
        at(command.unit).populate(turn.asking, command.id, command.list.timeout, std::move(command.list.ranges));
        return good();
    }
    bool operator()(ReportCommand &command)
    {
        const KeptOperation &operation = at(command.unit).report(turn.asking, command.id);
        return good(token_information_data(turn.configuration, command.unit, operation), command.length);
    }
    bool operator()(std::unique_ptr<TokenWrite> &command) { return command->run(turn); }
    bool operator()(std::unique_ptr<SegmentCopy> &command) { return command->run(turn); }
};

} // namespace

Command begin(const Configuration &configuration, uint32_t initiator, Request &request, Output &output)
{
    try {
        return begin_judged(configuration, initiator, request, output);
    } catch (const Refused &refused) {
        write_check(output, initiator, refused.sense);
        return {};
    }
}

bool run(Command &command, Turn &turn)
{
    try {
        return std::visit(Running{turn}, command);
    } catch (const Refused &refused) {
        write_check(turn.output, turn.initiator, refused.sense);
    } catch (const RecordFull &) {
        write_task_set_full(turn.output, turn.initiator);
    }
    return true;
}
