// upsched_node.hpp: upsched_node.h for C++17, header only. Nodes close themselves; a status other than OK is an
// exception. A call of a node returns its one write: store it before you send a letter of the call.
#ifndef UPSCHED_NODE_HPP
#define UPSCHED_NODE_HPP

#include <cstddef>
#include <cstdint>
#include <optional>
#include <utility>
#include <vector>

#include "upsched.hpp"
#include "upsched_node.h"

namespace upsched {

using Bytes = std::vector<std::uint8_t>;

/// A letter's bytes.
struct Letter {
    Bytes bytes;
    unsigned from() const noexcept { return bytes[1]; }
    unsigned to() const noexcept { return bytes[2]; }
};

/// A letter's fields, and the votes that it reports.
struct LetterFields : upsched_letter {
    std::vector<upsched_vote> votes;
    LetterFields() : upsched_letter{}, votes{} {}
};

inline LetterFields decode(const Letter &letter) {
    LetterFields f;
    std::size_t count = 0;
    const Bytes &bytes = letter.bytes;
    std::int32_t status = upsched_letter_decode(bytes.data(), bytes.size(), &f, nullptr, 0, &count);
    if (status == UPSCHED_NO_ROOM) {
        f.votes.resize(count);
        status = upsched_letter_decode(bytes.data(), bytes.size(), &f, f.votes.data(), count, &count);
    }
    check(status);
    return f;
}

inline Letter encode(const LetterFields &f) {
    Letter letter{Bytes(UPSCHED_LETTER_BYTES)};
    Bytes &bytes = letter.bytes;
    std::size_t len = 0;
    std::int32_t status =
        upsched_letter_encode(&f, f.votes.data(), f.votes.size(), bytes.data(), bytes.size(), &len);
    if (status == UPSCHED_NO_ROOM) {
        bytes.resize(len);
        status = upsched_letter_encode(&f, f.votes.data(), f.votes.size(), bytes.data(), bytes.size(), &len);
    }
    check(status);
    bytes.resize(len);
    return letter;
}

/// What a call of a node hands out: its one write, and how many letters it sends, which Node::letter reads.
struct Handed {
    upsched_node_write write;
    std::size_t letters;
    /// Whether there is a write, which has to be stored before a letter is sent.
    bool writes() const noexcept { return write.kind != UPSCHED_NO_WRITE; }
};

/// An output of a release, with its place in the log.
struct Released {
    std::uint64_t place;
    Output output;
};

/// A node, which is moved and never copied.
class Node {
  public:
    /// Member id, from 0, of 3 or 5, over ALL writes that its calls ever handed out, in order: none where it is new.
    Node(std::uint8_t id, std::uint8_t members, const std::vector<upsched_node_write> &writes) : node_{} {
        check(upsched_node_open(&node_, id, members, writes.data(), writes.size()));
    }
    Node(Node &&other) noexcept : node_(std::exchange(other.node_, upsched_node{})) {}
    Node &operator=(Node &&other) noexcept {
        if (this != &other) {
            upsched_node_close(&node_);
            node_ = std::exchange(other.node_, upsched_node{});
        }
        return *this;
    }
    Node(const Node &) = delete;
    Node &operator=(const Node &) = delete;
    ~Node() { upsched_node_close(&node_); }
    upsched_node *get() noexcept { return &node_; }

    Handed lead() {
        Handed all{};
        check(upsched_node_lead(&node_, &all.write, &all.letters));
        return all;
    }
    /// Offers a value of the log, a command's bytes.
    Handed offer(const Bytes &value) {
        Handed all{};
        check(upsched_node_offer(&node_, value.data(), value.size(), &all.write, &all.letters));
        return all;
    }
    Handed receive(const Letter &letter) {
        Handed all{};
        check(upsched_node_receive(&node_, letter.bytes.data(), letter.bytes.size(), &all.write, &all.letters));
        return all;
    }
    /// Tells a node what is learned, of the first 64 learned places from one on.
    Handed tell(std::uint8_t to, std::uint64_t place) {
        Handed all{};
        check(upsched_node_tell(&node_, to, place, &all.write, &all.letters));
        return all;
    }
    /// A letter of the last call, counted from 0. One that lacked memory may be read again.
    Letter letter(std::size_t i) {
        Letter letter{Bytes(UPSCHED_LETTER_BYTES)};
        std::size_t len = 0;
        std::int32_t status = upsched_node_letter(&node_, i, letter.bytes.data(), letter.bytes.size(), &len);
        if (status == UPSCHED_NO_ROOM) {
            letter.bytes.resize(len);
            status = upsched_node_letter(&node_, i, letter.bytes.data(), letter.bytes.size(), &len);
        }
        check(status);
        letter.bytes.resize(len);
        return letter;
    }
    /// The value that is learned at a place.
    std::optional<Bytes> learned(std::uint64_t place) {
        Bytes value(64);
        std::size_t len = 0;
        const std::int32_t status = upsched_node_learned(&node_, place, value.data(), value.size(), &len);
        if (status == UPSCHED_NONE) return std::nullopt;
        check(status);
        value.resize(len);
        return value;
    }
    /// The outputs that are new, but for MAPs that end at a minislot or before.
    std::vector<Released> release(std::uint64_t now) {
        std::size_t count = 0;
        check(upsched_node_release(&node_, now, &count));
        std::vector<Released> released(count);
        for (std::size_t i = 0; i < count; i++) {
            Released &r = released[i];
            check(upsched_node_output(&node_, i, &r.place, &r.output, r.output.body.data()));
        }
        return released;
    }

  private:
    upsched_node node_;
};

} // namespace upsched
#endif
