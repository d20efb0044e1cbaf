/* SPDX-License-Identifier: MIT
 * Copyright (c) 2026 Wapukiro maintainers
 *
 * The field I/O transition link of the Model 2070: the header for C++17, above fio2070.h.
 *
 * Sources: 378eb2b44eae8196b7242a65df4339f4883aab14b573c8ca7bb38e7955d9593f (SHA-256; packaging/release-files --sources)
 * Kit: rattle-kit-13f logic dac8208d650f15bf
 * Proof: logic=proved functions=246 target=wasm64-unknown-unknown sum=dac8208d650f15bf native=nat,char,string
 * Made by `make release-files`: do not edit.
 *
 * Proved is the module of which fio2070.c was made, for wasm64: each call does what fio2070.h says for all octets,
 * lengths and contents of its structs. Trusted are the kit's logic and the statements of its libraries; trusted, and
 * tested, are its compiler for wasm64, the translator with the machine and the calls that it adds (tools/portable),
 * and the compiler of your processor.
 *
 * To report a fault: SECURITY.md of the repository. Send the lines above, and octets, text or program that show it.
 */
// The calls of fio2070.h for C++17: values that are always started, views of octets, optional results.
// Header only; link libfio2070.a, or compile the portable fio2070.c, beside which `make portable` puts this header. Ranges,
// errors and sources are those of fio2070.h. Nothing here throws but Read::value(), a Module whose blocks have no entry, and what a
// std::vector or a std::string throws where memory runs out: the record of a Poller, what is said of a whole batch, and texts.
#ifndef FIO2070_HPP
#define FIO2070_HPP

#include "fio2070.h"

#include <algorithm>
#include <array>
#include <cstddef>
#include <cstdint>
#include <initializer_list>
#include <optional>
#include <stdexcept>
#include <string>
#include <type_traits>
#include <utility>
#include <vector>

namespace fio2070 {

using BlockHeader = ::fio2070_block_header;
using Entry = ::fio2070_entry;
using Command = ::fio2070_command;
using ConfigurationItem = ::fio2070_configuration_item;
using Answer = ::fio2070_answer;
using RecordItem = ::fio2070_record_item;
using Outputs = ::fio2070_outputs;
using State = ::fio2070_state;
using ErrorCounts = ::fio2070_error_counts;

/// A view of objects that someone else owns, as std::span has it: they must outlive it. It is given an
/// array, a std::array, a std::vector or anything else with data() and size().
template <typename T>
class View {
public:
    constexpr View() = default;
    constexpr View(T *data, std::size_t size) : data_(data), size_(size) {}
    template <std::size_t Size>
    constexpr View(T (&array)[Size]) : data_(array), size_(Size) {}
    template <typename List, typename = std::enable_if_t<std::is_convertible_v<decltype(std::declval<List &>().data()), T *>>>
    constexpr View(List &&list) : data_(list.data()), size_(list.size()) {}
    /// A list that lasts as long as the call that it is given to.
    constexpr View(std::initializer_list<std::remove_const_t<T>> list) : data_(first_of(list)), size_(list.size()) {}

    /// Null at most where there are none.
    constexpr T *data() const { return data_; }
    constexpr std::size_t size() const { return size_; }
    constexpr bool empty() const { return size_ == 0; }
    constexpr T *begin() const { return data(); }
    constexpr T *end() const { return data() + size_; }
    constexpr T &operator[](std::size_t place) const { return data()[place]; }

private:
    static constexpr T *first_of(const std::initializer_list<std::remove_const_t<T>> &list) {
        return list.size() != 0 ? &*list.begin() : nullptr;
    }
    T *data_ = nullptr;
    std::size_t size_ = 0;
};

using Octets = View<const std::uint8_t>;

/// A list of at most `Most` items, in memory of its own: it allocates nothing. Each use of it here has room for the longest list that
/// there is.
template <typename T, std::size_t Most>
class List {
public:
    constexpr T *data() { return items_.data(); }
    constexpr const T *data() const { return items_.data(); }
    constexpr std::size_t size() const { return size_; }
    constexpr bool empty() const { return size_ == 0; }
    static constexpr std::size_t capacity() { return Most; }
    constexpr T *begin() { return data(); }
    constexpr const T *begin() const { return data(); }
    constexpr T *end() { return data() + size_; }
    constexpr const T *end() const { return data() + size_; }
    constexpr T &operator[](std::size_t place) { return items_[place]; }
    constexpr const T &operator[](std::size_t place) const { return items_[place]; }
    /// Changes the size, and no item. Returns whether the list has this room; if not, nothing changes.
    constexpr bool resize(std::size_t size) {
        if (size > Most) return false;
        size_ = size;
        return true;
    }
    /// Adds an item at the end. Returns whether there was room for it.
    constexpr bool push_back(const T &item) {
        if (size_ == Most) return false;
        items_[size_++] = item;
        return true;
    }
    friend bool operator==(const List &one, const List &other) {
        return std::equal(one.begin(), one.end(), other.begin(), other.end());
    }
    friend bool operator!=(const List &one, const List &other) { return !(one == other); }

    /// What `write(out, room)` writes, which returns how many items that is; none where it returns more than the room.
    template <typename Write>
    static std::optional<List> of(Write write) {
        std::optional<List> list(std::in_place);
        if (!list->resize(write(list->data(), Most))) list.reset();
        return list;
    }
    /// The same, and none too where there is nothing to write.
    template <typename Write>
    static std::optional<List> of_some(Write write) {
        std::optional<List> list = of(write);
        if (list && list->empty()) list.reset();
        return list;
    }

private:
    std::array<T, Most> items_{};
    std::size_t size_ = 0;
};

/// A frame, the entries of a block, the items of a configuration, what one block adds to a record, a frame as it goes over a line.
using Frame = List<std::uint8_t, FIO2070_LONGEST_FRAME>;
using Entries = List<Entry, FIO2070_MOST_ENTRIES>;
using ConfigurationItems = List<ConfigurationItem, FIO2070_MOST_ENTRIES>;
using RecordItems = List<RecordItem, FIO2070_MOST_RECORD_ITEMS>;
using WireFrame = List<std::uint8_t, FIO2070_WIRE_LONGEST>;

/// The text that `write(text, room)` writes, of those that FIO2070_LONGEST_TEXT octets are enough for.
template <typename Write>
std::string text_of(Write write) {
    std::array<char, FIO2070_LONGEST_TEXT> text{};
    std::size_t count = write(text.data(), text.size());
    return count < text.size() ? std::string(text.data(), count) : std::string();
}

/// Why octets are no message.
class Fault {
public:
    constexpr explicit Fault(::fio2070_fault fault) : fault_(fault) {}
    constexpr ::fio2070_fault_kind kind() const { return static_cast<::fio2070_fault_kind>(fault_.kind); }
    constexpr std::uint8_t code() const { return fault_.code; }
    constexpr std::uint16_t needed() const { return fault_.needed; }
    constexpr std::size_t got() const { return fault_.got; }
    /// As `fio2070 show` writes it.
    std::string text() const {
        return text_of([this](char *text, std::size_t room) { return ::fio2070_fault_text(&fault_, text, room); });
    }

private:
    ::fio2070_fault fault_;
};

/// The fault of a message that was asked for and is not there; its text is that of the fault.
class FaultError : public std::runtime_error {
public:
    explicit FaultError(const Fault &fault) : std::runtime_error(fault.text()), fault_(fault) {}
    const Fault &fault() const { return fault_; }

private:
    Fault fault_;
};

/// A message, or why there is none.
template <typename Message>
class Read {
public:
    Read(const ::fio2070_fault &fault, const Message &message)
        : fault_(fault), message_(fault.kind == FIO2070_FAULT_NONE ? std::optional<Message>(message) : std::nullopt) {}
    explicit operator bool() const { return message_.has_value(); }
    const std::optional<Message> &message() const { return message_; }
    /// The message; throws FaultError where there is none.
    const Message &value() const {
        if (!message_) throw FaultError(fault_);
        return *message_;
    }
    const Message &operator*() const { return *message_; }
    const Message *operator->() const { return &*message_; }
    /// Of kind FIO2070_FAULT_NONE where there is a message.
    const Fault &fault() const { return fault_; }

private:
    Fault fault_;
    std::optional<Message> message_;
};

inline Read<Command> decode_command(Octets octets) {
    Command command{};
    ::fio2070_fault fault = ::fio2070_decode_command(octets.data(), octets.size(), &command);
    return {fault, command};
}

inline Read<Answer> decode_answer(Octets octets) {
    Answer answer{};
    ::fio2070_fault fault = ::fio2070_decode_answer(octets.data(), octets.size(), &answer);
    return {fault, answer};
}

inline Read<BlockHeader> read_block(Octets octets) {
    BlockHeader header{};
    ::fio2070_fault fault = ::fio2070_read_block(octets.data(), octets.size(), &header);
    return {fault, header};
}

/// The entries of a block answer; none where the octets are no block answer.
inline Entries block_entries(Octets octets) {
    return Entries::of([=](Entry *out, std::size_t room) {
        return ::fio2070_block_entries(octets.data(), octets.size(), out, room);
    }).value_or(Entries());
}

/// The items of a configuration; none where the octets are no configuration.
inline ConfigurationItems command_items(Octets octets) {
    return ConfigurationItems::of([=](ConfigurationItem *out, std::size_t room) {
        return ::fio2070_command_items(octets.data(), octets.size(), out, room);
    }).value_or(ConfigurationItems());
}

/// What `fio2070 show` writes of a frame, or the words of its fault and a line feed.
inline std::string show(Octets octets) {
    std::string text(::fio2070_show(octets.data(), octets.size(), nullptr, 0) + 1, '\0');
    text.resize(::fio2070_show(octets.data(), octets.size(), text.data(), text.size()));
    return text;
}

/// The octets after the type of a message with a body.
inline Octets body(Octets octets) { return octets.empty() ? octets : Octets(octets.data() + 1, octets.size() - 1); }

/// The name of a rule, such as "advance", and of a rule on content, such as "order"; empty for what is none.
inline std::string rule_text(std::uint8_t rule) {
    return text_of([rule](char *text, std::size_t room) { return ::fio2070_rule_text(rule, text, room); });
}
inline std::string content_rule_text(std::uint8_t rule) {
    return text_of([rule](char *text, std::size_t room) { return ::fio2070_content_rule_text(rule, text, room); });
}

/// Returns the least pace at which a line can be polled, or nothing if it has none or its numbers are out of range.
inline std::optional<::fio2070_pace> plan(const ::fio2070_line &line) {
    ::fio2070_pace pace;
    if (::fio2070_plan(&line, &pace) != FIO2070_PACE_FOUND) return std::nullopt;
    return pace;
}

inline std::uint32_t widen(std::uint32_t answer_stamp, std::uint16_t stamp) {
    return ::fio2070_widen(answer_stamp, stamp);
}

/// Writes a command from what decode_command and command_items give of it, and the body of types 56, 57 and 59; none where no
/// command has all of this (see the group encode of fio2070.h).
inline std::optional<Frame> encode_command(const Command &command, View<const ConfigurationItem> items = {}, Octets body = {}) {
    return Frame::of([&](auto *out, auto room) {
        return ::fio2070_encode_command(&command, items.data(), items.size(), body.data(), body.size(), out, room);
    });
}

/// Writes an answer from what decode_answer and block_entries give of it, and the body of types 183, 184, 185, 187 and 188; none
/// where no answer has all of this.
inline std::optional<Frame> encode_answer(const Answer &answer, View<const Entry> entries = {}, Octets body = {}) {
    return Frame::of([&](auto *out, auto room) {
        return ::fio2070_encode_answer(&answer, entries.data(), entries.size(), body.data(), body.size(), out, room);
    });
}

/// What a poller heard.
class Heard {
public:
    constexpr explicit Heard(::fio2070_heard heard) : heard_(heard) {}
    constexpr ::fio2070_heard_kind kind() const { return static_cast<::fio2070_heard_kind>(heard_.kind); }
    constexpr bool is_taken() const { return heard_.kind == FIO2070_HEARD_TAKEN; }
    constexpr std::uint8_t entries() const { return heard_.entries; }
    /// How many items joined the record.
    constexpr std::uint16_t items() const { return heard_.items; }
    constexpr std::uint8_t status() const { return heard_.status; }
    /// The number and the stamp of a block, taken or not; 0 of anything else.
    constexpr std::uint8_t number() const { return heard_.number; }
    constexpr std::uint32_t stamp() const { return heard_.stamp; }
    constexpr std::uint8_t other_code() const { return heard_.code; }
    constexpr Fault fault() const { return Fault(heard_.fault); }
    /// As `fio2070 simulate` writes it.
    std::string text() const {
        return text_of([this](char *text, std::size_t room) { return ::fio2070_heard_text(&heard_, text, room); });
    }

private:
    ::fio2070_heard heard_;
};

/// The CPU's end, with its record.
class Poller {
public:
    /// The first poll asks for the block with this number (see fio2070_poller_start).
    explicit Poller(std::uint8_t number) { ::fio2070_poller_start(&poller_, number); }
    std::uint8_t number() const { return poller_.number; }
    Frame poll() const {
        return *Frame::of([this](auto *out, auto room) { return ::fio2070_poller_poll(&poller_, out, room); });
    }
    /// Where memory runs out it throws std::bad_alloc, and nothing has changed.
    Heard hear(Octets octets) {
        RecordItems items;
        record_.reserve(room_for(items.capacity()));
        Heard heard = hear(octets, items);
        record_.insert(record_.end(), items.begin(), items.end());
        return heard;
    }
    /// The same without a record: the items that would join it are those in `items`, in place of what was there. It allocates nothing.
    Heard hear(Octets octets, RecordItems &items) {
        Heard heard(::fio2070_poller_hear(&poller_, octets.data(), octets.size(), items.data(), items.capacity()));
        items.resize(heard.is_taken() ? heard.items() : 0);
        return heard;
    }
    const std::vector<RecordItem> &record() const { return record_; }
    /// The record, which is empty then, so that a long run needs no more memory.
    std::vector<RecordItem> drain() {
        std::vector<RecordItem> drained;
        drained.swap(record_);
        return drained;
    }

private:
    // Doubles, so that many blocks take few allocations.
    std::size_t room_for(std::size_t more) const {
        std::size_t needed = record_.size() + more;
        return needed <= record_.capacity() ? needed : 2 * needed;
    }
    ::fio2070_poller poller_{};
    std::vector<RecordItem> record_;
};

/// A checker of what the CPU's end sends and hears.
class Checker {
public:
    Checker() { ::fio2070_checker_start(&checker_); }
    /// A checker of a module with these limits. None where one is out of its range.
    static std::optional<Checker> within(std::uint8_t per_block, std::uint16_t waiting) {
        std::optional<Checker> checker{Checker()};
        if (::fio2070_checker_start_within(&checker->checker_, {waiting, per_block, 0}) != FIO2070_STARTED) checker.reset();
        return checker;
    }
    /// As `within`, of a log that begins anywhere: what is heard above the first frame that is sent is not judged.
    static std::optional<Checker> anywhere(std::uint8_t per_block = FIO2070_MOST_ENTRIES,
                                           std::uint16_t waiting = FIO2070_STANDARD_WAITING) {
        std::optional<Checker> checker{Checker()};
        if (::fio2070_checker_start_anywhere(&checker->checker_, {waiting, per_block, 0}) != FIO2070_STARTED) checker.reset();
        return checker;
    }
    /// The breach of a frame: its rule is 0 where the frame keeps the rules.
    ::fio2070_breach sent(Octets octets) {
        ::fio2070_breach breach;
        breach.rule = ::fio2070_checker_sent(&checker_, octets.data(), octets.size(), &breach);
        return breach;
    }
    ::fio2070_breach heard(Octets octets) {
        ::fio2070_breach breach;
        breach.rule = ::fio2070_checker_heard(&checker_, octets.data(), octets.size(), &breach);
        return breach;
    }

private:
    ::fio2070_checker checker_{};
};

/// A checker of the rules on content: it judges answers, and the entries of each block that a poller takes whose first
/// number is that of the first poll sent. The log may begin anywhere: what is heard above the first frame that is sent is
/// not judged.
class ContentChecker {
public:
    ContentChecker() { ::fio2070_content_start(&content_); }
    /// A checker of a log that begins with the start of both ends, which finds more.
    static ContentChecker begun() {
        ContentChecker content;
        ::fio2070_content_start_begun(&content.content_);
        return content;
    }
    void sent(Octets octets) { ::fio2070_content_sent(&content_, octets.data(), octets.size()); }
    /// The first rule that a frame breaks: 0 if it breaks none.
    ::fio2070_content_breach heard(Octets octets) {
        ::fio2070_content_breach breach;
        breach.rule = ::fio2070_content_heard(&content_, octets.data(), octets.size(), &breach);
        return breach;
    }

private:
    ::fio2070_content_checker content_{};
};

/// The judge of a link: both checkers of a log in which lines may be lost, of a module that may be restarted and whose counter may
/// be loaded. `at` is where a frame was logged, one of `fio2070_place`.
class LinkJudge {
public:
    /// A judge of a log that begins anywhere, of a module with these limits. None where one is out of its range.
    static std::optional<LinkJudge> anywhere(std::uint8_t per_block = FIO2070_MOST_ENTRIES,
                                             std::uint16_t waiting = FIO2070_STANDARD_WAITING) {
        return started_by(::fio2070_judge_start_anywhere, per_block, waiting);
    }
    /// The same of a log that begins with the start of both ends, of which it finds more.
    static std::optional<LinkJudge> begun(std::uint8_t per_block = FIO2070_MOST_ENTRIES,
                                          std::uint16_t waiting = FIO2070_STANDARD_WAITING) {
        return started_by(::fio2070_judge_start_begun, per_block, waiting);
    }
    /// Lines of the log are lost here, such as a damaged frame, or a part of it ends and another begins.
    void lose() { ::fio2070_judge_lose(&judge_); }
    /// What a frame is that the CPU sent.
    ::fio2070_judge_outcome sent(Octets octets, std::uint8_t at = FIO2070_AT_CPU) {
        ::fio2070_judge_outcome outcome;
        outcome.kind = ::fio2070_judge_sent(&judge_, at, octets.data(), octets.size(), &outcome);
        return outcome;
    }
    /// What a frame is that the module sent.
    ::fio2070_judge_outcome heard(Octets octets) {
        ::fio2070_judge_outcome outcome;
        outcome.kind = ::fio2070_judge_heard(&judge_, octets.data(), octets.size(), &outcome);
        return outcome;
    }

private:
    static std::optional<LinkJudge> started_by(std::uint8_t (*start)(::fio2070_judge *, ::fio2070_limits), std::uint8_t per_block,
                                               std::uint16_t waiting) {
        std::optional<LinkJudge> judge{LinkJudge()};
        if (start(&judge->judge_, {waiting, per_block, 0}) != FIO2070_STARTED) judge.reset();
        return judge;
    }
    LinkJudge() = default;
    ::fio2070_judge judge_{};
};

#ifndef FIO2070_NO_LOG
/// A reader of a log, which takes its octets in pieces of any length. It has half a megabyte: make it static or on the heap.
class LogReader {
public:
    explicit LogReader(::fio2070_log_form form = FIO2070_LOG_AUTO) {
        ::fio2070_log_start(&reader_, static_cast<std::uint8_t>(form));
    }
    /// Learns forms from sample lines, before octets of the log are read, and returns how many: 0 if they show none.
    std::uint32_t like(Octets samples) { return ::fio2070_log_like(&reader_, samples.data(), samples.size()); }
    /// Takes octets until all are taken or the batch has no room for another verdict, and returns how many it took. The batch
    /// then has the verdicts that were due. After the end, once each verdict was given, octets begin a new log of the same
    /// form, whose lines are counted from 1.
    std::size_t read(Octets octets, ::fio2070_log_batch &batch) {
        return ::fio2070_log_read(&reader_, octets.data(), octets.size(), &batch);
    }
    /// Ends the log. Read no octets then, until the batch has no verdicts.
    void end() { ::fio2070_log_end(&reader_); }
    /// By which forms the lines are read that have a verdict, in the order of the forms.
    std::vector<::fio2070_log_read_as> forms() const {
        ::fio2070_log_form_list found;
        ::fio2070_log_forms(&reader_, &found);
        return {found.forms, found.forms + found.count};
    }

private:
    ::fio2070_log_reader reader_;
};

/// Writes a part of a batch that `LogReader::read` wrote, and returns how many frames it has: the lines that `mask` has 1 for, those
/// that it has 2 for as damaged, and blank ones in place of the others. It has no places.
inline std::uint32_t take_part(const ::fio2070_log_batch &batch, Octets mask, ::fio2070_log_batch &part) {
    return ::fio2070_log_batch_part(&batch, mask.data(), mask.size(), &part);
}

/// The judge of a log: it says what each frame is that a reader finds, by what the log says of the lines between them too.
class LogJudge {
public:
    /// A judge above the first line of a log of a module with these limits. None where one is out of its range. `never_loads` says that
    /// the CPU never loads the counter.
    static std::optional<LogJudge> start(::fio2070_log_taken place = FIO2070_LOG_TAKEN_AUTO,
                                         ::fio2070_log_begins begins = FIO2070_LOG_BEGINS_ANYWHERE,
                                         std::uint8_t per_block = FIO2070_MOST_ENTRIES,
                                         std::uint16_t waiting = FIO2070_STANDARD_WAITING, bool never_loads = false) {
        std::optional<LogJudge> judge{LogJudge()};
        const int start = begins + (never_loads ? FIO2070_LOG_NEVER_LOADS : 0);
        if (::fio2070_log_judge_start(&judge->judge_, {waiting, per_block, 0}, static_cast<std::uint8_t>(place),
                                      static_cast<std::uint8_t>(start)) != FIO2070_STARTED) judge.reset();
        return judge;
    }
    /// A line may have held a frame, such as a damaged one; or below a frame another part of the log begins.
    void lose() { ::fio2070_log_judge_lose(&judge_); }
    /// A line says a message which nothing confirms: below a frame, or if the log begins with both ends, it is as for `lose`.
    void possible() { ::fio2070_log_judge_possible(&judge_); }
    /// A line without octets speaks of loss: nobody is accused of what a frame explains that is missing here.
    void miss() { ::fio2070_log_judge_miss(&judge_); }
    /// What a frame is that the CPU sent, or the module. `said` is who sent it as its line says.
    ::fio2070_judge_outcome frame(Octets octets, bool from_cpu, ::fio2070_log_side said = FIO2070_LOG_NO_SIDE) {
        ::fio2070_judge_outcome outcome;
        outcome.kind = ::fio2070_log_judge_frame(&judge_, from_cpu, static_cast<std::uint8_t>(said), octets.data(), octets.size(),
                                                 &outcome);
        return outcome;
    }
    /// Takes the lines of a batch that `LogReader::read` wrote, in order, and returns what each of its frames is. Who sent a frame is
    /// said by its type; if `as_said` by its line, if that says it.
    std::vector<::fio2070_judge_outcome> batch(const ::fio2070_log_batch &batch, bool as_said = false) {
        std::vector<::fio2070_judge_outcome> outcomes(std::size(batch.lengths));
        outcomes.resize(::fio2070_log_judge_batch(&judge_, as_said, &batch, outcomes.data()));
        return outcomes;
    }

private:
    LogJudge() = default;
    ::fio2070_log_judge judge_{};
};

/// Counts of the frames of a log, which tell whether it looks like another one than the log of one link in order. They change
/// nothing of what a judge says of a frame.
class LogSigns {
public:
    LogSigns() { ::fio2070_log_signs_start(&signs_); }
    /// Takes a frame that the CPU sent, or the module. `said` is who sent it as its line says. Give it each frame, in the order of
    /// the log.
    void frame(Octets octets, bool from_cpu, ::fio2070_log_side said = FIO2070_LOG_NO_SIDE) {
        ::fio2070_log_signs_frame(&signs_, from_cpu, static_cast<std::uint8_t>(said), octets.data(), octets.size());
    }
    /// Takes the frames of a batch that `LogReader::read` wrote, in order. `as_said` is as for `LogJudge::batch`.
    void batch(const ::fio2070_log_batch &batch, bool as_said = false) { ::fio2070_log_signs_batch(&signs_, as_said, &batch); }
    /// What kind of log it looks like by the frames down to here.
    ::fio2070_log_sign sign() const { return static_cast<::fio2070_log_sign>(::fio2070_log_signs_sign(&signs_)); }

private:
    ::fio2070_log_signs signs_{};
};

/// What is counted of the frames of a log.
class LogCounts {
public:
    LogCounts() { ::fio2070_log_counts_start(&counts_); }
    /// A frame may be lost here: whether the latest poll and command were answered is not known.
    void lose() { ::fio2070_log_counts_lose(&counts_); }
    /// Counts a frame, by its time in microseconds, if it has one. Returns how long the module took for its answer, in microseconds, if
    /// that is known.
    std::optional<std::uint64_t> frame(Octets octets, std::optional<std::uint64_t> time = std::nullopt) {
        std::uint64_t taken;
        const bool is_known = ::fio2070_log_counts_frame(&counts_, time.has_value(), time.value_or(0), octets.data(), octets.size(),
                                                         &taken) != 0;
        return is_known ? std::optional<std::uint64_t>(taken) : std::nullopt;
    }
    /// Counts the frames of a batch that `LogReader::read` wrote, in order, each by the time of its line, and takes the lines between
    /// them: a frame may be lost where `LogJudge` may lose its place. Returns how long the module took for its answers, of each of which
    /// that is known.
    std::vector<std::uint64_t> batch(const ::fio2070_log_batch &batch) {
        std::vector<std::uint64_t> taken(std::size(batch.lengths));
        taken.resize(::fio2070_log_counts_batch(&counts_, &batch, taken.data()));
        return taken;
    }
    /// The numbers.
    const ::fio2070_log_counts &operator*() const { return counts_; }
    const ::fio2070_log_counts *operator->() const { return &counts_; }

private:
    ::fio2070_log_counts counts_;
};

/// What a log records of the transitions of one module, in stretches: pieces in which each transition is there once and in order.
class LogStretches {
public:
    LogStretches() { ::fio2070_log_stretches_start(&stretches_); }
    /// Takes the frames of a batch that `LogReader::read` wrote, in order, with the outcomes that `LogJudge::batch` returned for it. Returns
    /// the places where a stretch ends or transitions are lost.
    std::vector<::fio2070_log_seam> batch(const ::fio2070_log_batch &batch, std::vector<::fio2070_judge_outcome> outcomes) {
        std::vector<::fio2070_log_seam> seams(std::size(batch.lengths));
        outcomes.resize(std::size(batch.lengths));
        seams.resize(::fio2070_log_stretches_batch(&stretches_, &batch, outcomes.data(), seams.data()));
        return seams;
    }
    /// The numbers.
    const ::fio2070_log_stretches &operator*() const { return stretches_; }
    const ::fio2070_log_stretches *operator->() const { return &stretches_; }

private:
    ::fio2070_log_stretches stretches_;
};
#endif

/// A frame as it goes over a line of octets, with both flags; none if the message does not have 1 to 773 octets.
inline std::optional<WireFrame> wire_frame(Octets message, std::uint8_t address = FIO2070_WIRE_ADDRESS,
                                           std::uint8_t control = FIO2070_WIRE_CONTROL) {
    return WireFrame::of_some([=](std::uint8_t *out, std::size_t room) {
        return ::fio2070_wire_write(address, control, message.data(), message.size(), out, room);
    });
}

/// The frame check of octets, whose low octet a frame has first.
inline std::uint16_t wire_check(Octets octets) { return ::fio2070_wire_check(octets.data(), octets.size()); }

/// What a line says at a flag: of a frame its address, its control octet and its message, in memory of its own; of damage none
/// of them.
class WireHeard {
public:
    WireHeard(std::uint8_t kind, const std::uint8_t *octets, std::size_t length) : kind_(kind) {
        if (length == 0) return;
        address_ = octets[0], control_ = octets[1];
        message_ = *Frame::of([=](auto *out, auto room) {
            std::size_t count = std::min(length, room);
            std::copy_n(octets + 2, count, out);
            return count;
        });
    }
    ::fio2070_wire_heard kind() const { return static_cast<::fio2070_wire_heard>(kind_); }
    /// Whether this is a frame with one's own address and control octet.
    bool is_message() const { return kind_ == FIO2070_WIRE_MESSAGE; }
    std::uint8_t address() const { return address_; }
    std::uint8_t control() const { return control_; }
    const Frame &message() const { return message_; }

private:
    std::uint8_t kind_, address_ = 0, control_ = 0;
    Frame message_;
};

/// What both decoders of a line do: `Line` is their struct, and the others its calls. What comes before the first flag says
/// nothing.
template <typename Line, auto &Start, auto &Read, auto &MessageLength>
class WireDecoder {
public:
    /// One's own frames have this address and this control octet; FIO2070_WIRE_ANY stands for each.
    WireDecoder(std::uint16_t address, std::uint16_t control) { Start(&line_, address, control); }
    /// Takes octets from the front of the view, up to the next frame or damage, and returns that; none if it took them all and
    /// nothing ended. So a loop reads a piece: `while (auto heard = wire.read(piece)) ..`.
    std::optional<WireHeard> read(Octets &octets) {
        std::uint8_t kind = FIO2070_WIRE_NOTHING;
        std::size_t count = Read(&line_, octets.data(), octets.size(), &kind);
        octets = Octets(octets.data() + count, octets.size() - count);
        return heard(kind);
    }

protected:
    std::optional<WireHeard> heard(std::uint8_t kind) const {
        if (kind == FIO2070_WIRE_NOTHING) return std::nullopt;
        return WireHeard(kind, line_.octets, MessageLength(&line_));
    }
    Line line_{};
};

/// A decoder of a line of octets, such as a UART's.
class Wire : public WireDecoder<::fio2070_wire, ::fio2070_wire_start, ::fio2070_wire_read, ::fio2070_wire_message_length> {
public:
    using WireDecoder::WireDecoder;
    /// An octet was lost, or came with a wrong parity or stop bit: what is under way is damaged, whatever its check says.
    /// Before the first flag nothing changes.
    void lose() { ::fio2070_wire_lose(&line_); }
};

/// A decoder of a line of bits, such as a logic analyser's with one bit a clock. Each octet is a bit, its lowest: so the octets
/// of a text of 0 and 1 serve too.
class WireBits : public WireDecoder<::fio2070_wire_bits, ::fio2070_wire_bits_start, ::fio2070_wire_bits_read,
                                    ::fio2070_wire_bits_message_length> {
public:
    using WireDecoder::WireDecoder;
};

/// The millisecond counter.
class Counter {
public:
    Counter() { ::fio2070_counter_start(&counter_); }
    void tick() { ::fio2070_counter_tick(&counter_); }
    void ask_load(std::uint32_t number) { ::fio2070_counter_ask_load(&counter_, number); }
    void line_sync() { ::fio2070_counter_line_sync(&counter_); }
    std::uint32_t now() const { return ::fio2070_counter_now(&counter_); }

private:
    ::fio2070_counter counter_{};
};

/// The filters of the 64 inputs.
class Filters {
public:
    Filters() { ::fio2070_filters_start(&filters_); }
    ::fio2070_configured configure(View<const ConfigurationItem> items) {
        return ::fio2070_filters_configure(&filters_, items.data(), items.size());
    }
    std::uint64_t scan(std::uint64_t raw) { return ::fio2070_filters_scan(&filters_, raw); }
    std::uint64_t filtered() const { return ::fio2070_filters_filtered(&filters_); }
    std::uint64_t raw() const { return ::fio2070_filters_raw(&filters_); }

private:
    ::fio2070_filters filters_{};
};

/// Why an answer of the module's maker is refused.
enum class AnswerRefusal {
    not_awaited,   ///< none is awaited: it was given, or the octets asked about last are no command of the maker
    other_awaited, ///< the answer to a command of another type is awaited
    too_long,      ///< the body has more than 772 octets
};

/// An answer of the module's maker, or why it is refused.
class MakersAnswer {
public:
    template <typename Write>
    explicit MakersAnswer(Write write) {
        frame_ = Frame::of_some([&](auto *out, auto room) {
            count_ = write(out, room);
            return count_;
        });
    }
    explicit operator bool() const { return frame_.has_value(); }
    const std::optional<Frame> &frame() const { return frame_; }
    const Frame &operator*() const { return *frame_; }
    const Frame *operator->() const { return &*frame_; }
    /// None where there is an answer.
    std::optional<AnswerRefusal> refusal() const {
        if (frame_) return std::nullopt;
        return count_ == FIO2070_NOT_AWAITED     ? AnswerRefusal::not_awaited
               : count_ == FIO2070_OTHER_AWAITED ? AnswerRefusal::other_awaited
                                                 : AnswerRefusal::too_long;
    }

private:
    std::size_t count_ = 0;
    std::optional<Frame> frame_;
};

/// The module, of which as many entries may wait as Waiting says, 1 to 8,192; it has the slots for them.
template <std::uint16_t Waiting = FIO2070_STANDARD_WAITING>
class Module {
public:
    static_assert(Waiting > 0 && Waiting <= FIO2070_MOST_WAITING, "1 to 8,192 entries may wait");
    /// Starts a module that answers `id` to command 60; its blocks have at most `per_block` entries. Throws
    /// std::invalid_argument if that is 0.
    explicit Module(std::uint8_t id, std::uint8_t per_block = FIO2070_MOST_ENTRIES) {
        if (!is_started(id, per_block)) throw std::invalid_argument("a block has 1 to 255 entries");
    }
    /// As the constructor, but none where `per_block` is 0.
    static std::optional<Module> start(std::uint8_t id, std::uint8_t per_block = FIO2070_MOST_ENTRIES) {
        std::optional<Module> module{Module()};
        if (!module->is_started(id, per_block)) module.reset();
        return module;
    }
    void restart() { ::fio2070_sized_module_restart(&module_); }
    void scan(std::uint64_t raw) { ::fio2070_sized_module_scan(&module_, FIO2070_RING(slots_), raw); }
    void line_sync() { ::fio2070_sized_module_line_sync(&module_); }
    void raise(std::uint8_t mask) { ::fio2070_sized_module_raise(&module_, mask); }
    void set_errors(std::uint8_t receive, std::uint8_t transmit) {
        ::fio2070_sized_module_set_errors(&module_, receive, transmit);
    }
    void count_receive_error() { ::fio2070_sized_module_count_receive_error(&module_); }
    void count_transmit_error() { ::fio2070_sized_module_count_transmit_error(&module_); }
    /// The answer; none where there is none, and where the octets spell no command.
    std::optional<Frame> receive(Octets octets) {
        return Frame::of_some([&](auto *out, auto room) {
            return ::fio2070_sized_module_receive(&module_, FIO2070_RING(slots_), octets.data(), octets.size(), out, room);
        });
    }
    /// The type of the command in a frame that was received, if the maker of the module answers it: 56, 57, 59 or 60, else 0. Its
    /// body is the octets after the first, and its answer is awaited from then on.
    std::uint8_t makers_command(Octets octets) {
        return ::fio2070_sized_module_makers_command(&module_, octets.data(), octets.size());
    }
    /// The octets of the maker's answer to a command of this type with this body, once for each `makers_command`; or why it is
    /// refused, and then nothing changes.
    MakersAnswer answer_other(std::uint8_t command, Octets body) {
        return MakersAnswer([&](auto *out, auto room) {
            return ::fio2070_sized_module_answer_other(&module_, command, body.data(), body.size(), out, room);
        });
    }
    /// What it is at present.
    State state() const { return ::fio2070_sized_module_state(&module_); }

private:
    Module() = default;
    bool is_started(std::uint8_t id, std::uint8_t per_block) {
        return ::fio2070_sized_module_start(&module_, id, {Waiting, per_block, 0}) == FIO2070_STARTED;
    }
    ::fio2070_sized_module module_{};
    ::fio2070_slot slots_[Waiting]{};
};

} // namespace fio2070

// Equality of values, in the namespace of their types.
inline bool operator==(const fio2070_entry &one, const fio2070_entry &other) {
    return one.input == other.input && one.state == other.state && one.stamp == other.stamp;
}
inline bool operator!=(const fio2070_entry &one, const fio2070_entry &other) { return !(one == other); }
inline bool operator==(const fio2070_configuration_item &one, const fio2070_configuration_item &other) {
    return one.input == other.input && one.ignore == other.ignore && one.leading == other.leading &&
           one.trailing == other.trailing;
}
inline bool operator!=(const fio2070_configuration_item &one, const fio2070_configuration_item &other) {
    return !(one == other);
}
inline bool operator==(const fio2070_record_item &one, const fio2070_record_item &other) {
    return one.gap == other.gap && one.input == other.input && one.state == other.state &&
           one.stamp == other.stamp && one.wide == other.wide;
}
inline bool operator!=(const fio2070_record_item &one, const fio2070_record_item &other) { return !(one == other); }
inline bool operator==(const fio2070_block_header &one, const fio2070_block_header &other) {
    return one.number == other.number && one.status == other.status && one.count == other.count &&
           one.stamp == other.stamp;
}
inline bool operator!=(const fio2070_block_header &one, const fio2070_block_header &other) { return !(one == other); }
inline bool operator==(const fio2070_outputs &one, const fio2070_outputs &other) {
    return std::equal(one.levels, one.levels + 8, other.levels) &&
           std::equal(one.controls, one.controls + 8, other.controls);
}
inline bool operator!=(const fio2070_outputs &one, const fio2070_outputs &other) { return !(one == other); }
inline bool operator==(const fio2070_error_counts &one, const fio2070_error_counts &other) {
    return one.receive == other.receive && one.transmit == other.transmit;
}
inline bool operator!=(const fio2070_error_counts &one, const fio2070_error_counts &other) { return !(one == other); }
inline bool operator==(const fio2070_breach &one, const fio2070_breach &other) {
    return one.rule == other.rule && one.has_due == other.has_due && one.due == other.due && one.got == other.got;
}
inline bool operator!=(const fio2070_breach &one, const fio2070_breach &other) { return !(one == other); }
inline bool operator==(const fio2070_content_breach &one, const fio2070_content_breach &other) {
    return one.rule == other.rule && one.input == other.input && one.items == other.items;
}
inline bool operator!=(const fio2070_content_breach &one, const fio2070_content_breach &other) { return !(one == other); }
inline bool operator==(const fio2070_judge_outcome &one, const fio2070_judge_outcome &other) {
    return one.kind == other.kind && one.why == other.why && one.rule == other.rule && one.has_due == other.has_due &&
           one.due == other.due && one.got == other.got && one.input == other.input && one.items == other.items;
}
inline bool operator!=(const fio2070_judge_outcome &one, const fio2070_judge_outcome &other) { return !(one == other); }
// Of commands and answers without what follows their fields: items, entries and bodies.
inline bool operator==(const fio2070_command &one, const fio2070_command &other) {
    return one.code == other.code && one.clear == other.clear && one.block == other.block &&
           one.timeout == other.timeout && one.count == other.count && one.body == other.body &&
           one.load == other.load && std::equal(one.levels, one.levels + 8, other.levels) &&
           std::equal(one.controls, one.controls + 8, other.controls);
}
inline bool operator!=(const fio2070_command &one, const fio2070_command &other) { return !(one == other); }
inline bool operator==(const fio2070_answer &one, const fio2070_answer &other) {
    return one.code == other.code && one.flags == other.flags && one.receive_errors == other.receive_errors &&
           one.transmit_errors == other.transmit_errors && one.status == other.status && one.block == other.block &&
           one.count == other.count && one.body == other.body && one.stamp == other.stamp && one.inputs == other.inputs;
}
inline bool operator!=(const fio2070_answer &one, const fio2070_answer &other) { return !(one == other); }
#endif
