// A scheduler is saved as bytes and opened again, by the header for C and by that for C++. Bytes that were cut or
// changed are refused by name, or open a scheduler that is saved as the same bytes. c/saved.stdout has the lines that
// are wanted.
#include <cstdio>
#include <cstring>
#include <vector>

#include <upsched.hpp>

using Bytes = std::vector<std::uint8_t>;

static int faults;

static void is(const char *what, bool holds) {
    if (holds) return;
    faults++;
    std::printf("%s: not so\n", what);
}

// Channel 1 with unsolicited grants and a request that waits.
static void begin(upsched::Machine &machine) {
    upsched::Output output;
    const upsched_command commands[] = {
        upsched::channel(1, 7, 1000),
        upsched::ugs(1, 50, 1, 4, 40, 8, 1000),
        upsched::best_effort(1, 51, 1, 3),
        upsched::cut(1, 100, 0, 995),
        upsched::request(1, 2, 20, 1010),
    };
    for (const upsched_command &command : commands) machine.apply(command, output);
}

// The body of the next MAP.
static Bytes next_map(upsched::Machine &machine) {
    upsched::Output output;
    machine.apply(upsched::cut(1, 100, 0, 1050), output);
    return Bytes(output.body.begin(), output.body.begin() + static_cast<std::ptrdiff_t>(output.body_len));
}

static std::int32_t open_status(const Bytes &bytes, std::uint8_t *ch) {
    upsched_handle opened{};
    const std::int32_t status = upsched_machine_open_saved(&opened, bytes.data(), bytes.size(), ch);
    upsched_close(&opened);
    return status;
}

// Whether such bytes are refused by name, or open a scheduler that is saved so.
static bool is_right(const Bytes &bytes) {
    std::uint8_t ch = 77;
    const std::int32_t status = open_status(bytes, &ch);
    if (status == UPSCHED_OK) return ch == 77 && upsched::Machine::open(bytes).save() == bytes;
    if (status == UPSCHED_ROWS_NOT_FIRM) return true;
    return ch == 77 && status >= UPSCHED_ROWS_SHORT && status <= UPSCHED_ROWS_NO_REQUEST;
}

static void changed(const Bytes &saved) {
    std::uint8_t ch = 77;
    for (Bytes front = saved; !front.empty();) {
        front.pop_back();
        is("a cut one is short", open_status(front, &ch) == UPSCHED_ROWS_SHORT);
    }
    for (std::size_t at = 0; at < saved.size(); at++) {
        for (const int byte : {0, 1, 255}) {
            Bytes other = saved;
            other[at] = static_cast<std::uint8_t>(byte);
            is("a changed one", is_right(other));
        }
    }
}

// Each fault: too few bytes, one more, no channel, no service, no size, and a channel that is there twice.
static void named(const Bytes &saved) {
    Bytes rows[] = {{}, saved, saved, saved, saved, {0, 2}};
    rows[1].push_back(0);
    rows[2][2] = 2;
    rows[3][89] = 5;
    rows[4][142] = 0;
    for (int twice = 0; twice < 2; twice++) rows[5].insert(rows[5].end(), saved.begin() + 2, saved.end());
    for (const Bytes &bytes : rows) {
        std::uint8_t ch = 77;
        const std::int32_t status = open_status(bytes, &ch);
        std::printf("%d %u %s\n", static_cast<int>(status), static_cast<unsigned>(ch), upsched_status_text(status));
    }
}

// What handles and room refuse.
static void refused(upsched::Machine &machine, const Bytes &saved) {
    upsched_handle closed{};
    upsched::Modem modem(1);
    Bytes room(saved.size(), 0xa5);
    std::size_t written = 9;
    std::uint8_t ch = 77;
    const auto save = [&](upsched_handle *handle, std::size_t most) {
        return static_cast<int>(upsched_machine_save(handle, room.data(), most, &written));
    };
    std::printf("closed: %d\n", save(&closed, room.size()));
    std::printf("another kind: %d\n", save(modem.get(), room.size()));
    std::printf("nowhere: %d\n", static_cast<int>(upsched_machine_save(machine.get(), nullptr, 1, &written)));
    is("nothing is written", written == 9 && room == Bytes(saved.size(), 0xa5));
    std::printf("no room: %d", save(machine.get(), room.size() - 1));
    std::printf(" for %zu\n", written);
    is("nothing is written where there is no room", room == Bytes(saved.size(), 0xa5));
    is("there is room", save(machine.get(), room.size()) == UPSCHED_OK && room == saved);
    std::printf("open: %d\n",
                static_cast<int>(upsched_machine_open_saved(machine.get(), saved.data(), saved.size(), &ch)));
    std::printf("no channel told: %d\n",
                static_cast<int>(upsched_machine_open_saved(&closed, saved.data(), saved.size(), nullptr)));
    is("they stay as they are", machine.save() == saved && ch == 77);
}

int main() {
    upsched::Machine machine;
    std::printf("no channel: %zu bytes\n", machine.save().size());
    begin(machine);
    const Bytes saved = machine.save();
    std::printf("%zu bytes\n", saved.size());
    upsched::Machine opened = upsched::Machine::open(saved);
    is("saved again", opened.save() == saved);
    refused(machine, saved);
    is("the next MAP", next_map(machine) == next_map(opened));
    is("saved behind it", machine.save() == opened.save() && machine.save() != saved);
    named(saved);
    changed(saved);
    try {
        upsched::Machine::open(Bytes{0, 1});
    } catch (const upsched::Error &error) {
        std::printf("%s\n", error.what());
    }
    std::printf("faults %d\n", faults);
    return faults != 0;
}
