// The commands that the header for C++ makes are those that the header for C makes, with what else is given set; and an
// error says in words what the status is.
#include <cstdio>
#include <tuple>

#include <upsched.hpp>

static int faults;

static auto fields(const upsched_command &c) {
    return std::tie(c.kind, c.modem, c.tag, c.interval, c.jitter, c.base, c.last, c.sent, c.not_before, c.ack, c.sid,
                    c.minislots, c.short_max, c.keep, c.ch, c.ucd, c.phy, c.service, c.priority, c.ranging_start,
                    c.ranging_end, c.data_start, c.data_end);
}

static void is(const char *name, const upsched_command &made, const upsched_command &wanted) {
    if (fields(made) == fields(wanted)) return;
    faults++;
    std::printf("%s makes another command\n", name);
}

static upsched_command with_last(upsched_command c, std::uint64_t last) {
    c.last = last;
    return c;
}

int main() {
    using namespace upsched;
    is("noop", noop(), upsched_noop());
    is("channel", channel(1, 7, 1000), upsched_channel(1, 7, 1000));
    upsched_command set = upsched_channel(1, 7, 1000);
    set.short_max = 8, set.phy = UPSCHED_ADVANCED;
    set.ranging_start = 1, set.ranging_end = 2, set.data_start = 4, set.data_end = 6;
    is("channel", channel(1, 7, 1000, 8, UPSCHED_ADVANCED, {1, 2}, {4, 6}), set);
    set.kind = UPSCHED_CHANGE, set.base = 0;
    is("change", change(1, 7, UPSCHED_ADVANCED, 8, {1, 2}, {4, 6}), set);
    is("change", change(1, 7, UPSCHED_TDMA, 8), upsched_change(1, 7, UPSCHED_TDMA, 8));
    is("best_effort", best_effort(1, 50, 2, 3), upsched_best_effort(1, 50, 2, 3));
    is("best_effort", best_effort(1, 50, 2, 3, 99), with_last(upsched_best_effort(1, 50, 2, 3), 99));
    is("ugs", ugs(1, 50, 2, 4, 40, 8, 1000, 99), with_last(upsched_ugs(1, 50, 2, 4, 40, 8, 1000), 99));
    is("poll", poll(1, 50, 2, 40, 8, 1000, 99), with_last(upsched_poll(1, 50, 2, 40, 8, 1000), 99));
    is("station", station(1, 50, 2, 4, 40, 8, 9, 99), with_last(upsched_station(1, 50, 2, 4, 40, 8, 9), 99));
    is("initial", initial(1, 50, 2, 4, 40, 8, 9, 99), with_last(upsched_initial(1, 50, 2, 4, 40, 8, 9), 99));
    is("drop", drop(1, 2), upsched_drop(1, 2));
    is("request", request(1, 2, 20, 990), upsched_request(1, 2, 20, 990));
    is("cut", cut(1, 100, 5, 6), upsched_cut(1, 100, 5, 6));
    is("cut_set", cut_set(1, 100, 5, 6, 8), upsched_cut_set(1, 100, 5, 6, 8));

    Machine machine;
    Output output;
    const upsched_command refused[] = {drop(1, 2), channel(1, 7, 1000), best_effort(1, 50, 1, 0, 0)};
    for (const upsched_command &command : refused) {
        machine.apply(command, output);
        if (output.kind == UPSCHED_REFUSED) std::printf("refused: %s\n", upsched_refusal_text(output.refusal));
    }
    machine.apply(best_effort(1, 50, 1), output);
    machine.apply(request(1, 1, 20, 990), output);
    const auto has = [](const auto &row) { return row ? "a row" : "none"; };
    std::printf("%s, %s, %s\n", has(machine.channel(2)), has(machine.waiting(1, 0)), has(machine.flow(1, 1)));
    if (machine.channel(1)) std::printf("next %d\n", static_cast<int>(machine.channel(1)->next_start));
    try {
        machine.apply(nullptr, 0, output);
    } catch (const Error &error) {
        std::printf("%s\n", error.what());
    }
    std::printf("faults %d\n", faults);
    return faults != 0;
}
