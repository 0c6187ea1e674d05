// A scheduler and a modem with a voice flow, as docs/simulators.md has them.
#include <cstdio>
#include <upsched.hpp>

int main() {
    upsched::Machine machine;
    upsched::Modem modem(50);
    upsched::Output output;
    const upsched_command commands[] = {
        upsched::channel(1, 7, 1000),           // channel 1, UCD Count 7, the first MAP from minislot 1000 on
        upsched::ugs(1, 50, 1, 4, 40, 8, 1000), // modem 50: 4 minislots every 40, up to 8 late, from 1000 on
        upsched::cut(1, 100, 0, 0),             // a MAP of 100 minislots
    };
    for (const upsched_command &command : commands) {
        machine.apply(command, output);
        modem.hear(output, 990);
    }
    int sent = 0;
    for (std::uint64_t slot = 1000; slot < 1100; slot++) {
        sent += modem.tick(1, slot, 0).kind == UPSCHED_SENDS_DATA;
    }
    std::printf("modem 50 sends data in %d minislots\n", sent);
}
