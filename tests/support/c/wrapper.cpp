// What fio2070.hpp alone has, and each of its calls with a right result and an error; the calls below it have their rows in
// tests/rows.json. The last line is `N passed, M failed`.
#include "fio2070.hpp"

#include "checks.h"

template <typename T, std::size_t Most>
static std::vector<T> octets(const fio2070::List<T, Most> &list) { return {list.begin(), list.end()}; }
using List = std::vector<std::uint8_t>;

static std::string hex(const fio2070::Frame &frame) {
    std::string text;
    for (const std::uint8_t octet : frame) text += {"0123456789abcdef"[octet >> 4], "0123456789abcdef"[octet & 15]};
    return text;
}

static const List BLOCK = {0xb6, 5, 1, 0x8c, 3, 0xe7, 0, 0, 0, 3, 0xe8}, IDENTIFY = {FIO2070_TYPE_IDENTIFY};

// A command of a type with one field more.
static fio2070::Command command_of(std::uint8_t code, std::uint8_t fio2070::Command::*field, std::uint8_t number) {
    fio2070::Command command{};
    command.code = code, command.*field = number;
    return command;
}

static fio2070::Frame poll(std::uint8_t block) {
    return fio2070::encode_command(command_of(FIO2070_TYPE_POLL, &fio2070::Command::block, block)).value();
}

static fio2070::Command configuration_of(std::uint8_t count) {
    return command_of(FIO2070_TYPE_CONFIGURE_INPUTS, &fio2070::Command::count, count);
}

static void reads_and_writes() {
    CHECK(octets(poll(5)) == List({0x36, 5}));
    const fio2070::ConfigurationItem items[] = {{12, 0, 5, 3}, {3, 1, 0, 0}};
    const std::array<fio2070::ConfigurationItem, 1> absent = {{{128, 0, 1, 1}}};
    auto configuration = fio2070::encode_command(configuration_of(2), items);
    CHECK(configuration && octets(*configuration) == List({0x33, 2, 12, 5, 3, 0x83, 0, 0}));
    CHECK(!fio2070::encode_command(configuration_of(1), absent) && !fio2070::encode_command(configuration_of(1), items));
    CHECK(fio2070::command_items(BLOCK).empty() && fio2070::block_entries(*configuration).empty());
    auto command = fio2070::decode_command(poll(5));
    CHECK(command && command->block == 5 && command.fault().kind() == FIO2070_FAULT_NONE);
    auto nothing = fio2070::decode_command(List());
    CHECK(!nothing && !nothing.message() && nothing.fault().text() == "empty");
    auto answer = fio2070::decode_answer(BLOCK);
    CHECK(answer && (*answer).block == 5 && answer->count == 1);
    auto cut = fio2070::read_block({BLOCK.data(), 1});
    CHECK(!cut && cut.fault().text() == "wrong length needed 8 got 1" && cut.fault().needed() == 8);
    CHECK(cut.fault().got() == 1 && cut.fault().code() == 0);
    CHECK(!fio2070::encode_answer(fio2070::Answer{}) && !fio2070::decode_answer({0x36, 5}) && !fio2070::read_block({0xb1}));
    CHECK(fio2070::body(BLOCK).size() == 10 && fio2070::body({}).empty());
}

static void has_values() {
    CHECK(poll(5) == poll(5) && poll(5) != poll(6));
    CHECK(fio2070::encode_command(configuration_of(2), {{12, 0, 5, 3}, {3, 1, 0, 0}})->size() == 8);
    CHECK(octets(*fio2070::encode_answer(*fio2070::decode_answer(BLOCK), {{12, 1, 999}})) == BLOCK);
    CHECK(fio2070::decode_command({0x36, 5}).value().block == 5);
    CHECK(octets(fio2070::block_entries(BLOCK)) == std::vector<fio2070::Entry>({{12, 1, 999}}));
    CHECK(*fio2070::read_block(BLOCK) == fio2070::BlockHeader({5, 0, 1, 0, 1000}));
    std::string text;
    try {
        (void)fio2070::decode_command({0x33}).value();
    } catch (const fio2070::FaultError &error) {
        text = error.what();
        CHECK(error.fault().kind() == FIO2070_FAULT_WRONG_LENGTH);
    }
    CHECK(text == "wrong length needed 2 got 1");
}

// Values that differ in one bit of a field are not equal.
template <typename Value, typename Field>
static void tells(Field Value::*field, const char *name, int line) {
    bool holds = true;
    for (unsigned bit = 0; bit < 8 * sizeof(Field); bit++) {
        Value one{}, other{};
        reinterpret_cast<std::uint8_t *>(&(other.*field))[bit / 8] = static_cast<std::uint8_t>(1 << bit % 8);
        holds = holds && one == Value{} && !(one == other) && one != other;
    }
    check(holds, name, static_cast<unsigned>(line));
}
#define TELLS(field) tells(&fio2070_##field, #field, __LINE__)

static void tells_values() {
    TELLS(entry::input), TELLS(entry::state), TELLS(entry::stamp), TELLS(outputs::levels), TELLS(outputs::controls);
    TELLS(configuration_item::input), TELLS(configuration_item::ignore);
    TELLS(configuration_item::leading), TELLS(configuration_item::trailing);
    TELLS(record_item::gap), TELLS(record_item::input), TELLS(record_item::state), TELLS(record_item::stamp), TELLS(record_item::wide);
    TELLS(block_header::number), TELLS(block_header::status), TELLS(block_header::count), TELLS(block_header::stamp);
    TELLS(breach::rule), TELLS(breach::has_due), TELLS(breach::due), TELLS(breach::got);
    TELLS(content_breach::rule), TELLS(content_breach::input), TELLS(content_breach::items);
    TELLS(error_counts::receive), TELLS(error_counts::transmit);
    TELLS(judge_outcome::kind), TELLS(judge_outcome::why), TELLS(judge_outcome::rule), TELLS(judge_outcome::has_due);
    TELLS(judge_outcome::due), TELLS(judge_outcome::got), TELLS(judge_outcome::input), TELLS(judge_outcome::items);
    TELLS(command::code), TELLS(command::clear), TELLS(command::block), TELLS(command::timeout), TELLS(command::count);
    TELLS(command::body), TELLS(command::load), TELLS(command::levels), TELLS(command::controls);
    TELLS(answer::code), TELLS(answer::flags), TELLS(answer::receive_errors), TELLS(answer::transmit_errors);
    TELLS(answer::status), TELLS(answer::block), TELLS(answer::count), TELLS(answer::body), TELLS(answer::stamp), TELLS(answer::inputs);
}

static void has_the_longest_text() {
    const fio2070::Fault fault({FIO2070_FAULT_WRONG_LENGTH, 0, 65535, {}, SIZE_MAX});
    CHECK(fault.text() == "wrong length needed 65535 got 18446744073709551615");
    CHECK(fault.needed() == 65535 && fault.got() == SIZE_MAX);
    CHECK(fio2070::FaultError(fault).what() == fault.text() && fio2070::FaultError(fault).fault().got() == SIZE_MAX);
}

// What tests/rows.json does not say of a poller: the fields of what it heard, and the record of several blocks.
static void hears() {
    fio2070::Poller poller(5);
    const auto taken = poller.hear(List({0xb6, 5, 1, 0x8c, 3, 0xe7, 0x0c, 0, 0, 3, 0xe8}));
    CHECK(taken.is_taken() && taken.status() == 0x0c && taken.entries() == 1 && taken.items() == 2);
    CHECK(octets(poller.poll()) == List({54, 6}) && poller.hear(List({0xb3, 0})).other_code() == 179);
    CHECK(!poller.hear(BLOCK).is_taken() && poller.hear(BLOCK).kind() == FIO2070_HEARD_STALE);
    CHECK(poller.hear(List()).kind() == FIO2070_HEARD_UNREADABLE && poller.hear(List()).fault().text() == "empty");
    CHECK(poller.hear(List({0xb6, 6, 0, 12, 0, 0, 0, 1})).is_taken() && poller.record().size() == 3);
    CHECK(poller.record() == std::vector<fio2070::RecordItem>({{1, 0, 0, {}, 0, 0}, {0, 12, 1, {}, 999, 999}, {1, 0, 0, {}, 0, 0}}));
    CHECK(poller.drain().size() == 3 && poller.record().empty() && poller.number() == 7);
    fio2070::RecordItems items;
    const auto entry = List({0xb6, 7, 1, 0x8c, 3, 0xe7, 0, 0, 0, 3, 0xe8});
    CHECK(poller.hear(entry, items).is_taken() && poller.record().empty() && poller.number() == 8);
    CHECK(octets(items) == std::vector<fio2070::RecordItem>({{0, 12, 1, {}, 999, 999}}));
    CHECK(poller.hear(entry, items).kind() == FIO2070_HEARD_STALE && items.empty());
}

// A list has room for so many items, and says if it has no more.
static void has_lists() {
    fio2070::List<int, 2> list, other;
    CHECK(list.empty() && list.push_back(7) && list != other && list.push_back(8) && !list.push_back(9));
    CHECK(octets(list) == std::vector<int>({7, 8}) && list[1] == 8 && list.capacity() == 2);
    CHECK(!list.resize(3) && list.size() == 2 && list.resize(1) && octets(list) == std::vector<int>({7}));
    CHECK(other.push_back(7) && list == other && other.push_back(7) && list != other);
    other[1] = 6;
    CHECK(octets(other) == std::vector<int>({7, 6}));
    const auto write = [](std::size_t count) { return [count](int *out, std::size_t room) { return std::fill_n(out, room, 5), count; }; };
    CHECK(octets(*list.of(write(2))) == std::vector<int>({5, 5}) && !list.of(write(3)) && list.of(write(0)) && !list.of_some(write(0)));
}

/* A copy of a module has its waiting entries. */
static void moves() {
    auto module = fio2070::Module<3>::start(2);
    const fio2070::ConfigurationItem item[] = {{0, 0, 1, 1}};
    CHECK(!module->state().watchdog_ms && octets(*module->receive(*fio2070::encode_command(configuration_of(1), item))) == List({0xb3, 0}));
    module->scan(~std::uint64_t(1));
    auto moved = module;
    module.reset();
    CHECK(octets(*moved->receive(poll(7))) == List({0xb6, 7, 1, 0, 0, 1, 0, 0, 0, 0, 1}));
    CHECK(moved->state().waiting == 0);
}

/* With the standard limits no template argument is needed. */
static void constructs_a_module() {
    fio2070::Module module(2);
    fio2070::Module<3> small(7, 1);
    CHECK(hex(*module.receive(IDENTIFY)) == "bc02" && hex(*small.receive(IDENTIFY)) == "bc07");
    bool throws = false;
    try {
        fio2070::Module refused(2, 0);
    } catch (const std::invalid_argument &) {
        throws = true;
    }
    CHECK(throws && !fio2070::Module<3>::start(2, 0));
}

static void has_parts() {
    fio2070::Counter counter;
    counter.tick(), counter.ask_load(5);
    CHECK(counter.now() == 1);
    counter.line_sync();
    CHECK(counter.now() == 5);
    fio2070::Filters filters;
    const fio2070::ConfigurationItem items[] = {{12, 0, 2, 2}}, absent[] = {{64, 0, 1, 1}};
    CHECK(filters.configure(items).kind == FIO2070_CONFIGURED_APPLIED && filters.configure(absent).kind == FIO2070_CONFIGURED_ABSENT_INPUT);
    CHECK(filters.scan(0) == 0 && filters.scan(0) == 1 << 12 && filters.raw() == 0);
    CHECK(filters.filtered() == ~(std::uint64_t(1) << 12));
}

static void has_texts() {
    CHECK(fio2070::rule_text(FIO2070_RULE_PAIR) == "pair" && fio2070::rule_text(255).empty());
    CHECK(fio2070::content_rule_text(FIO2070_CONTENT_FRESH) == "fresh" && fio2070::content_rule_text(0).empty());
    CHECK(fio2070::show({0x36, 5}) == "poll block 5\n" && fio2070::show({7}) == "unknown type 7\n");
    CHECK(fio2070::widen(0x10002, 65534) == 65534 && fio2070::widen(0x10002, 2) == 0x10002);
    fio2070_line line{};
    line.rate = 614400, line.waiting = 1024, line.per_block = 255, line.inputs = 64, line.filter = 5;
    CHECK(fio2070::plan(line)->scans == 4 && fio2070::plan(line)->late == 7);
    line.drift = 100, line.jitter = 2;
    CHECK(fio2070::plan(line)->scans == 16 && fio2070::plan(line)->late == 35);
    line.rate = 153600;
    CHECK(!fio2070::plan(line));
    CHECK(fio2070::wire_check({'1', '2', '3', '4', '5', '6', '7', '8', '9'}) == 0x906e);
}

// Each call of a module, and what it says then.
static void is_a_module() {
    fio2070::Module<3> module(2);
    CHECK(hex(*module.receive({0x32, 0, 0, 0, 9})) == "b200" && !module.receive({6}) && !module.receive({0x38}));
    module.line_sync(), module.raise(3), module.set_errors(3, 4), module.count_receive_error(), module.count_transmit_error();
    CHECK(module.state().counter == 9 && module.state().flags == 0x83 && module.state().errors == fio2070::ErrorCounts({4, 5}));
    CHECK(hex(*module.receive({0x31, 0x80})) == "b103040500000009");
    module.restart();
    CHECK(module.state().counter == 0 && module.state().flags == FIO2070_BIT_WAS_RESET && module.state().errors == fio2070::ErrorCounts());
}

// The answers of the module's maker, and why they are refused.
static void has_a_maker() {
    fio2070::Module<3> module(2);
    CHECK(module.makers_command({57, 1}) == 57 && module.makers_command({54, 0}) == 0 && module.makers_command({57}) == 57);
    CHECK(module.answer_other(59, {}).refusal() == fio2070::AnswerRefusal::other_awaited);
    CHECK(module.answer_other(57, std::vector<std::uint8_t>(773)).refusal() == fio2070::AnswerRefusal::too_long);
    auto answer = module.answer_other(57, {4});
    CHECK(answer && hex(*answer) == "b904" && !answer.refusal());
    CHECK(module.answer_other(57, {4}).refusal() == fio2070::AnswerRefusal::not_awaited);
}

// Checkers that are not started with numbers.
static void has_checkers() {
    const std::uint8_t empty[] = {182, 255, 0, 0, 0, 0, 0, 5};
    CHECK(fio2070::Checker().heard(empty) == fio2070_breach({FIO2070_RULE_PAIR, 0, 0, 0}));
    CHECK(fio2070::Checker::anywhere()->heard(empty) == fio2070_breach());
    fio2070::ContentChecker begun = fio2070::ContentChecker::begun();
    const fio2070_content_breach refused = begun.heard(List({0xb3, 1}));
    CHECK(refused == refused && refused != fio2070_content_breach());
    CHECK(fio2070::LinkJudge::begun()->heard(empty) == fio2070_judge_outcome({FIO2070_OUTCOME_BROKEN, 0, FIO2070_RULE_PAIR, 0, 0, 0, FIO2070_NO_INPUT, 0, 0}));
    CHECK(fio2070::LinkJudge::anywhere()->heard(empty).why == FIO2070_WHY_ABOVE_COMMAND && !fio2070::LinkJudge::anywhere(0));
    CHECK(fio2070::LogJudge::start()->frame(empty, false).why == FIO2070_WHY_ABOVE_COMMAND);
    fio2070::LogCounts counts;
    CHECK(!counts.frame(empty, 0) && counts->frames == 1 && counts->polls == 0);
    CHECK(fio2070::LogJudge::start(FIO2070_LOG_TAKEN_AT_CPU, FIO2070_LOG_LEAVES_OUT_LATE)->frame(empty, false).why == FIO2070_WHY_LATE);
    for (bool never_loads : {false, true}) {
        auto judge = fio2070::LogJudge::start(FIO2070_LOG_TAKEN_AUTO, FIO2070_LOG_BEGINS_ANYWHERE, 255, 1024, never_loads);
        judge->frame(List({54, 5}), true), judge->frame(List({182, 5, 0, 0, 0, 0, 3, 232}), false);
        judge->lose();
        judge->frame(List({54, 6}), true);
        CHECK(judge->frame(List({182, 6, 0, 0, 0, 0, 0, 10}), false).kind == (never_loads ? FIO2070_OUTCOME_RESTARTED : FIO2070_OUTCOME_EXCUSED));
    }
}

// What breaks a rule where a poll was sent, and the answer is another.
static void judges() {
    const List poll = {0x36, 5}, other = {0xb3, 0}, absent = {0xb6, 6, 0, 0, 0, 0, 0, 5};
    auto checker = fio2070::Checker::within(255, 64);
    CHECK(checker && !fio2070::Checker::within(255, 0) && !fio2070::Checker::anywhere(0));
    CHECK(checker->sent(poll) == fio2070_breach() && checker->heard(other) == fio2070_breach({FIO2070_RULE_PAIR, 1, 182, 179}));
    fio2070::ContentChecker content;
    content.sent({0x32, 0, 0, 0, 0});
    CHECK(content.heard({0xb2, 1}) == fio2070_content_breach({FIO2070_CONTENT_DONE, FIO2070_NO_INPUT, 0}));
    auto judge = fio2070::LinkJudge::anywhere();
    CHECK(judge->sent(poll).kind == FIO2070_OUTCOME_KEPT);
    CHECK(judge->heard(absent) == fio2070_judge_outcome({FIO2070_OUTCOME_BROKEN, 0, FIO2070_RULE_NUMBER, 1, 5, 6, FIO2070_NO_INPUT, 0, 0}));
    judge->lose();
    CHECK(judge->sent({0x34}, FIO2070_AT_MODULE).why == FIO2070_WHY_PLACE_LOST);
}

static fio2070::Octets octets(const std::string &text) { return {reinterpret_cast<const std::uint8_t *>(text.data()), text.size()}; }

static fio2070_log_batch batch;

// A log, by batches: the second answer has the number of another poll.
static void judges_a_log() {
    static fio2070::LogReader reader;
    const std::string text = "00:00:01.000 TX 36 05\n00:00:01.003 RX b6 05 00 00 00 00 00 05\n"
                             "00:00:02.000 TX 36 06\n00:00:02.001 RX b6 07 00 00 00 00 00 06\nRX b6 0";
    auto judge = fio2070::LogJudge::start();
    fio2070::LogCounts counts;
    fio2070::LogStretches stretches;
    std::vector<fio2070_judge_outcome> found;
    std::vector<fio2070_log_seam> seams;
    std::vector<std::uint64_t> taken;
    const auto take = [&] {
        const auto outcomes = judge->batch(batch);
        found.insert(found.end(), outcomes.begin(), outcomes.end());
        for (const auto one : counts.batch(batch)) taken.push_back(one);
        for (const auto &one : stretches.batch(batch, outcomes)) seams.push_back(one);
    };
    CHECK(reader.read(octets(text), batch) == text.size()), take(), reader.end();
    CHECK(reader.read({}, batch) == 0), take();
    CHECK(batch.verdict_count > 0 && batch.verdicts[batch.verdict_count - 1].line == 5);
    const auto forms = reader.forms();
    CHECK(forms.size() == 2 && forms[0].lines == 2 && forms[1].lines == 2 && forms[0].from + forms[1].from == 3);
    CHECK(found.size() == 4 && found[2].kind == FIO2070_OUTCOME_KEPT && found[3].rule == FIO2070_RULE_NUMBER && found[3].got == 7);
    CHECK(taken == std::vector<std::uint64_t>({3000, 1000}) && counts->polls == 2 && (*counts).frames == 4);
    CHECK(seams.size() == 1 && seams[0].cause == FIO2070_SEAM_MISSING && seams[0].missing == 1);
    CHECK(stretches->blocks == 2 && (*stretches).missing_blocks == 1);
}

// Of a batch the lines that a mask takes: the command that is not, between a poll and its answer, breaks no rule.
static void takes_parts() {
    static fio2070::LogReader reader(FIO2070_LOG_FRAMES);
    static fio2070_log_batch part;
    const std::string text = "3605\n3607\nb605000000000005\n3606\n";
    CHECK(reader.read(octets(text), batch) == text.size() && fio2070::take_part(batch, List({1, 0, 1, 2}), part) == 2);
    CHECK(part.verdict_count == 4 && part.verdicts[1].kind == FIO2070_LOG_BLANK && part.verdicts[3].kind == FIO2070_LOG_DAMAGED);
    const auto whole = fio2070::LogJudge::start()->batch(batch), alone = fio2070::LogJudge::start()->batch(part);
    CHECK(whole[1].rule == FIO2070_RULE_ADVANCE && alone.size() == 2 && alone[1].kind == FIO2070_OUTCOME_KEPT);
    CHECK(fio2070::take_part(batch, {}, part) == 0 && part.verdict_count == 4);
}

// A log is read by a line that is given, from its first line on.
static void is_like_a_sample() {
    static fio2070::LogReader reader;
    CHECK(reader.forms().empty() && reader.like({}) == 0 && reader.like(octets("TX 36 05\n")) == 1);
    CHECK(reader.read(octets("no octets\nTX 36 06\n"), batch) == 19 && batch.verdict_count == 2 && batch.frame_count == 1);
    CHECK(reader.forms()[0].from == 2 && reader.forms()[0].front_length == 3 && reader.like(octets("RX b3 00\n")) == 0);
}

// The same frame by frame, and the signs.
static void judges_frames() {
    static fio2070::LogReader reader(FIO2070_LOG_FRAMES);
    const List next = {0xb6, 6, 0, 0, 0, 0, 0, 5};
    auto judge = fio2070::LogJudge::start();
    CHECK(judge->frame({0x36, 5}, true).kind == FIO2070_OUTCOME_KEPT && judge->frame(next, false).rule == FIO2070_RULE_NUMBER);
    judge->frame({0x36, 5}, true, FIO2070_LOG_FROM_CPU), judge->lose();
    CHECK(judge->frame(next, false).why == FIO2070_WHY_PLACE_LOST);
    judge->frame({0x36, 5}, true), judge->miss(), judge->possible();
    CHECK(judge->frame(next, false).why == FIO2070_WHY_PLACE_LOST);
    CHECK(!fio2070::LogJudge::start(FIO2070_LOG_TAKEN_AUTO, FIO2070_LOG_BEGINS_ANYWHERE, 0));
    fio2070::LogCounts counts;
    counts.frame({0x36, 5}, 10), counts.lose(), counts.frame({0x36, 6}, 20);
    CHECK(counts.frame(next, 50) == 30 && counts->unanswered == 0);
    fio2070::LogSigns signs, by_batch;
    std::string text;
    for (const char *number : {"00", "00", "01", "01", "02", "02", "03", "03"}) {
        text += std::string("b6") + number + "000000000001\n";
        signs.frame({0xb6, std::uint8_t(number[1] - '0'), 0, 0, 0, 0, 0, 1}, false);
    }
    CHECK(fio2070::LogSigns().sign() == FIO2070_LOG_SIGN_NONE && signs.sign() == FIO2070_LOG_SIGN_TWICE);
    CHECK(reader.read(octets(text), batch) == text.size()), by_batch.batch(batch);
    CHECK(by_batch.sign() == FIO2070_LOG_SIGN_TWICE);
}

static void reads_a_line() {
    const List shared = {0x7e, 0x14, 0x83, 0x36, 1, 0xe0, 0x5d, 0x7e, 0x14, 0x83, 0x36, 2, 0x7b, 0x6f, 0x7e};
    const auto longest = *fio2070::wire_frame(List(773, 0x7d), 0x7d, 0x7e);
    fio2070::Wire wire(FIO2070_WIRE_ADDRESS, FIO2070_WIRE_CONTROL), any(FIO2070_WIRE_ANY, 0x7e);
    fio2070::Octets rest = shared, all = longest;
    auto first = wire.read(rest), second = wire.read(rest);
    CHECK(first->is_message() && octets(first->message()) == List({0x36, 1}) && octets(second->message()) == List({0x36, 2}));
    CHECK(octets(any.read(all)->message()) == List(773, 0x7d) && all.empty());
    rest = shared;
    const auto other = fio2070::Wire(0x15, FIO2070_WIRE_CONTROL).read(rest);
    CHECK(other->kind() == FIO2070_WIRE_OTHER && !other->is_message() && other->address() == 0x14);
    const std::string bits = "0111111000101000110000010110110010100000001000111101100001111110";
    fio2070::WireBits decoder(FIO2070_WIRE_ADDRESS, FIO2070_WIRE_ANY);
    rest = octets(bits);
    CHECK(octets(decoder.read(rest)->message()) == List({0x36, 5}) && rest.empty());
    rest = fio2070::Octets(shared.data(), 4), any.read(rest), any.lose(), rest = fio2070::Octets(shared.data() + 4, 4);
    CHECK(any.read(rest)->kind() == FIO2070_WIRE_DAMAGED);
    CHECK(longest.size() >= 1552 && octets(*fio2070::wire_frame({0x36, 1})) == List(shared.begin(), shared.begin() + 8) && !fio2070::wire_frame({}));
}

int main() {
    for (const auto test : {reads_and_writes, has_values, tells_values, has_the_longest_text, hears, has_lists, moves, constructs_a_module,
                            has_parts, has_texts, is_a_module, has_a_maker, has_checkers, judges, judges_a_log, takes_parts,
                            is_like_a_sample, judges_frames, reads_a_line}) test();
    return end_of_checks();
}
