// A whole CPU's end in C++17, without a heap. Its line of octet-stuffed frames is standard input and output; standard error has each
// transition, once and in order, and `restart` if the module restarted.
//
//     g++ -std=c++17 -I dist examples/cpp/cpu.cpp dist/fio2070.c -o cpu
//     socat /dev/ttyUSB0,rawer,b614400 EXEC:./cpu        # or TCP:192.0.2.1:2070
#include <fio2070.hpp>
#include <chrono>
#include <cstdio>
#include <poll.h>
#include <unistd.h>

using namespace fio2070;
using std::chrono::steady_clock;
enum class Step { look, clear, configure, poll };
constexpr int DEADLINE_MS = 50, PACE_MS = 10, POLLS_BEFORE_A_LOOK = 20;

// Asks whether the module restarted, clears that flag of it, configures all inputs with filters of 5 ms, or polls.
Frame command_of(Step step, const Poller &poller) {
    if (step == Step::poll) return poller.poll();
    Command command{};
    ConfigurationItems items;
    for (std::uint8_t input = 0; step == Step::configure && input < 64; input++) items.push_back({input, 0, 5, 5});
    command.code = step == Step::configure ? FIO2070_TYPE_CONFIGURE_INPUTS : FIO2070_TYPE_STATUS;
    command.clear = step == Step::clear ? FIO2070_BIT_WAS_RESET : 0;
    command.count = static_cast<std::uint8_t>(items.size());
    return *encode_command(command, items);
}

struct Cpu {
    Poller poller{0}; // Keep its number over a restart of the CPU (docs/EMBEDDING.md).
    Step step = Step::look;
    bool is_configured = false;

    // Takes a frame. Returns whether it answers the command of the present step, and then goes on to the next one.
    bool hear(const Frame &frame) {
        if (step == Step::poll) return hear_block(frame);
        const auto answer = decode_answer(frame);
        if (!answer || answer->code != command_of(step, poller)[0] + FIO2070_TYPE_ANSWER) return false;
        const bool was_reset = answer->flags & FIO2070_BIT_WAS_RESET;
        if (step == Step::clear && was_reset) return false; // a late answer to the look
        if (was_reset) std::fputs("restart\n", stderr);
        is_configured = step == Step::configure || (is_configured && !was_reset);
        step = was_reset ? Step::clear : step == Step::configure ? Step::look : is_configured ? Step::poll : Step::configure;
        return true;
    }
    bool hear_block(const Frame &frame) {
        RecordItems items;
        const bool is_taken = poller.hear(frame, items).is_taken();
        for (const RecordItem &item : items) {
            if (item.gap) std::fputs("gap\n", stderr);
            else std::fprintf(stderr, "input %u state %u at %lu ms\n", item.input, item.state, static_cast<unsigned long>(item.wide));
        }
        return is_taken;
    }
};

int main() {
    Cpu cpu;
    Wire wire(FIO2070_WIRE_ADDRESS, FIO2070_WIRE_CONTROL);
    for (unsigned turn = 1;; turn++) {
        const WireFrame frame = *wire_frame(command_of(cpu.step, cpu.poller));
        if (write(1, frame.data(), frame.size()) != static_cast<ssize_t>(frame.size())) return 1;
        const auto end = steady_clock::now() + std::chrono::milliseconds(DEADLINE_MS);
        for (bool is_answered = false; !is_answered && steady_clock::now() < end;) {
            pollfd line{0, POLLIN, 0};
            std::uint8_t read_octets[512];
            if (poll(&line, 1, DEADLINE_MS) <= 0) continue;
            const ssize_t count = read(0, read_octets, sizeof read_octets);
            if (count <= 0) return 0;
            Octets octets(read_octets, static_cast<std::size_t>(count));
            while (auto heard = wire.read(octets)) is_answered |= heard->is_message() && cpu.hear(heard->message());
        }
        usleep(1000 * PACE_MS);
        if (turn % POLLS_BEFORE_A_LOOK == 0 && cpu.step == Step::poll) cpu.step = Step::look;
    }
}
