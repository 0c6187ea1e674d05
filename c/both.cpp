// Both libraries in one program: three nodes agree on the commands of first_modem.cpp, one of them releases the
// outputs, and a modem hears these. Link with -lupsched -lupsched_node.
#include <cstdio>
#include <deque>
#include <vector>

#include <upsched_node.hpp>

int main() {
    const upsched::Bytes commands[] = {
        {1, 1, 7, 0, 16, 2, 5, 3, 8, 0, 0, 0, 0, 0, 0, 3, 0xe8},
        {2, 1, 0, 0, 0, 50, 0, 0, 0, 1, 1, 0, 4, 0, 0, 0, 40, 0, 0, 0, 8, 0, 0, 0, 0, 0, 0, 3, 0xe8},
        {5, 1, 0, 100, 0, 0, 0, 0, 0, 0, 0, 0, 0, 0, 0, 0, 0, 0, 0, 0},
    };
    std::vector<upsched::Node> nodes;
    std::deque<upsched::Letter> letters;
    for (std::uint8_t id = 0; id < 3; id++) nodes.emplace_back(id, std::uint8_t{3}, std::vector<upsched_node_write>{});
    // No node crashes here, so that no write is stored.
    const auto finish = [&](std::size_t id, const upsched::Handed &handed) {
        for (std::size_t i = 0; i < handed.letters; i++) letters.push_back(nodes[id].letter(i));
    };
    const auto carry = [&] {
        for (; !letters.empty(); letters.pop_front()) {
            const upsched::Letter letter = letters.front();
            finish(letter.to(), nodes[letter.to()].receive(letter));
        }
    };
    finish(0, nodes[0].lead());
    carry();
    for (const upsched::Bytes &command : commands) {
        finish(0, nodes[0].offer(command));
        carry();
    }
    upsched::Modem modem(50);
    for (const upsched::Released &released : nodes[2].release(0)) modem.hear(released.output, 990);
    int sent = 0;
    for (std::uint64_t slot = 1000; slot < 1100; slot++) {
        sent += modem.tick(1, slot, 0).kind == UPSCHED_SENDS_DATA;
    }
    std::printf("modem 50 sends data in %d minislots\n", sent);
    return sent != 12;
}
