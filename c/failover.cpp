// Three nodes in one process, each with what is stored of it. Node 0 leads, and crashes before its second command is
// chosen. Node 1 takes over, and proposes both again. Node 0 is opened again with its stored writes, and node 1 tells
// it what it has learned. Prints what each node releases. c/failover.stdout has the lines that are wanted.
#include <cinttypes>
#include <cstdio>
#include <deque>
#include <optional>
#include <vector>

#include <upsched_node.hpp>

#include "lines.h"

namespace {

constexpr std::uint8_t kNodes = 3;

const upsched::Bytes kChannel{1, 1, 7, 0, 16, 2, 5, 3, 8, 0, 0, 0, 0, 0, 0, 3, 0xe8};
const upsched::Bytes kFlow{2, 1, 0, 0, 0, 50, 0, 0, 0, 1, 0, 0};
const upsched::Bytes kCut{5, 1, 0, 100, 0, 0, 0, 0, 0, 0, 0, 0, 0, 0, 0, 0, 0, 0, 3, 0xe3};

// A node, or what is left of it after a crash: all writes that it handed out. In a program these are in a file, and
// each is flushed to it.
struct Member {
    std::optional<upsched::Node> node;
    std::vector<upsched_node_write> stored;
};

class Cluster {
  public:
    Cluster() {
        for (std::uint8_t id = 0; id < kNodes; id++) open(id);
    }
    // Opens a number with all that is stored of it.
    void open(std::uint8_t id) { members_[id].node.emplace(id, kNodes, members_[id].stored); }
    void crash(std::uint8_t id) { members_[id].node.reset(); }
    upsched::Node &node(std::uint8_t id) { return *members_[id].node; }

    // The write of a call is stored. Only then its letters go.
    void finish(std::uint8_t id, const upsched::Handed &handed) {
        if (handed.writes()) members_[id].stored.push_back(handed.write);
        for (std::size_t i = 0; i < handed.letters; i++) letters_.push_back(node(id).letter(i));
    }
    // Carries each letter to its receiver, and those that it is answered with. Those to a node that is down are lost.
    void carry() {
        for (; !letters_.empty(); letters_.pop_front()) {
            const upsched::Letter letter = letters_.front();
            const std::uint8_t to = static_cast<std::uint8_t>(letter.to());
            if (members_[to].node) finish(to, node(to).receive(letter));
        }
    }
    void lose_letters() { letters_.clear(); }
    // The letters on their way, which their fields say again.
    void print_letters() {
        for (const upsched::Letter &letter : letters_) {
            const upsched::LetterFields f = upsched::decode(letter);
            std::printf("letter %u from %u to %u: ballot %" PRIu64 " place %" PRIu64 " votes %zu\n", f.kind, f.from,
                        f.to, f.ballot, f.place, f.votes.size());
            if (upsched::encode(f).bytes != letter.bytes) std::printf("other bytes\n");
        }
    }
    void release(std::uint8_t id) {
        const std::vector<upsched::Released> released = node(id).release(0);
        std::printf("node %u releases %zu\n", id, released.size());
        for (const upsched::Released &r : released) {
            std::printf("place %" PRIu64 " ", r.place);
            print_text(&r.output, r.output.body.data());
        }
    }
    void print_stored() {
        for (unsigned id = 0; id < kNodes; id++)
            std::printf("node %u has %zu writes stored\n", id, members_[id].stored.size());
    }

  private:
    Member members_[kNodes];
    std::deque<upsched::Letter> letters_;
};

void print_value(const char *name, const std::optional<upsched::Bytes> &value) {
    std::printf("%s ", name);
    if (!value) std::printf("nothing");
    if (value)
        for (unsigned byte : *value) std::printf("%02x", byte);
    std::printf("\n");
}

} // namespace

int main() {
    Cluster cluster;
    cluster.finish(0, cluster.node(0).lead());
    cluster.carry();
    cluster.finish(0, cluster.node(0).offer(kChannel));
    cluster.carry();
    // The letters of the second command are lost with the leader.
    cluster.finish(0, cluster.node(0).offer(kFlow));
    cluster.lose_letters();
    cluster.crash(0);
    std::printf("node 0 crashes\n");

    cluster.finish(1, cluster.node(1).lead());
    cluster.print_letters();
    cluster.carry();
    cluster.finish(1, cluster.node(1).offer(kFlow));
    cluster.finish(1, cluster.node(1).offer(kCut));
    cluster.carry();
    for (std::uint8_t id = 1; id < kNodes; id++) cluster.release(id);

    cluster.open(0);
    std::printf("node 0 is opened again\n");
    print_value("at place 1 it has learned", cluster.node(0).learned(1));
    print_value("at place 3 it has learned", cluster.node(0).learned(3));
    cluster.finish(1, cluster.node(1).tell(0, 2));
    cluster.carry();
    print_value("at place 3 it is told", cluster.node(0).learned(3));
    cluster.release(0);

    upsched::Node moved = std::move(cluster.node(0));
    try {
        moved.offer(kCut);
    } catch (const upsched::Error &error) {
        std::printf("an offer to node 0: status %d\n", static_cast<int>(error.status()));
    }
    cluster.print_stored();
    return 0;
}
