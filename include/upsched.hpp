// upsched.hpp: upsched.h for C++17, header only. Handles close themselves; a status other than OK is an exception.
#ifndef UPSCHED_HPP
#define UPSCHED_HPP

#include <array>
#include <cstdint>
#include <new>
#include <optional>
#include <stdexcept>
#include <string>
#include <utility>
#include <vector>

#include "upsched.h"

namespace upsched {

/// A call that answered another status than OK.
class Error : public std::runtime_error {
  public:
    explicit Error(std::int32_t status)
        : std::runtime_error("upsched status " + std::to_string(status) + ": " + upsched_status_text(status)),
          status_(status) {}
    std::int32_t status() const noexcept { return status_; }

  private:
    std::int32_t status_;
};

inline void check(std::int32_t status) {
    if (status == UPSCHED_OUT_OF_MEMORY) throw std::bad_alloc();
    if (status != UPSCHED_OK) throw Error(status);
}

/// A value where the call answered OK; none where it answered NONE.
template <class T> std::optional<T> found(std::int32_t status, const T &value) {
    if (status == UPSCHED_NONE) return std::nullopt;
    check(status);
    return value;
}

/// A handle that is moved and never copied.
class Handle {
  public:
    Handle(Handle &&other) noexcept : handle_(std::exchange(other.handle_, upsched_handle{})) {}
    Handle &operator=(Handle &&other) noexcept {
        if (this != &other) {
            upsched_close(&handle_);
            handle_ = std::exchange(other.handle_, upsched_handle{});
        }
        return *this;
    }
    Handle(const Handle &) = delete;
    Handle &operator=(const Handle &) = delete;
    ~Handle() { upsched_close(&handle_); }
    upsched_handle *get() noexcept { return &handle_; }

  protected:
    Handle() noexcept : handle_{} {}
    upsched_handle handle_;
};

/// An output, with the body of its MAP.
struct Output : upsched_output {
    std::array<std::uint8_t, UPSCHED_BODY_BYTES> body;
    Output() : upsched_output{}, body{} {}
};

struct Map {
    upsched_map_head head;
    std::vector<upsched_map_element> elements;
};

inline Map decode(const std::uint8_t *bytes, std::size_t len) {
    Map map{{}, std::vector<upsched_map_element>(UPSCHED_ELEMENTS)};
    std::size_t count = 0;
    check(upsched_map_decode(bytes, len, &map.head, map.elements.data(), map.elements.size(), &count));
    map.elements.resize(count);
    return map;
}

inline std::vector<std::uint8_t> encode(const Map &map) {
    std::vector<std::uint8_t> bytes(UPSCHED_BODY_BYTES);
    std::size_t written = 0;
    check(upsched_map_encode(&map.head, map.elements.data(), map.elements.size(), bytes.data(), bytes.size(),
                             &written));
    bytes.resize(written);
    return bytes;
}

/// Whose minislot x of a body is, counted from its start.
inline std::optional<upsched_map_cell> cell_at(const std::uint8_t *bytes, std::size_t len, std::uint16_t x) {
    upsched_map_cell cell{};
    return found(upsched_map_cell_at(bytes, len, x, &cell), cell);
}

/// A back-off: its start and its end, as exponents of two.
struct Backoff {
    std::uint8_t start, end;
};

/// The channel's own back-off, in a cut.
constexpr Backoff own_backoff{255, 255};

inline upsched_command noop() { return upsched_noop(); }

inline upsched_command channel(std::uint8_t ch, std::uint8_t ucd, std::uint64_t base, std::uint16_t short_max = 16,
                               std::uint8_t phy = UPSCHED_TDMA, Backoff ranging = {2, 5}, Backoff data = {3, 8}) {
    upsched_command c = upsched_channel(ch, ucd, base);
    c.short_max = short_max;
    c.phy = phy;
    c.ranging_start = ranging.start;
    c.ranging_end = ranging.end;
    c.data_start = data.start;
    c.data_end = data.end;
    return c;
}

/// Other settings of a channel, from its next MAP on.
inline upsched_command change(std::uint8_t ch, std::uint8_t ucd, std::uint8_t phy, std::uint16_t short_max,
                              Backoff ranging = {2, 5}, Backoff data = {3, 8}) {
    upsched_command c = channel(ch, ucd, 0, short_max, phy, ranging, data);
    c.kind = UPSCHED_CHANGE;
    return c;
}

/// Flows. The lease of the SID goes on up to its last minislot: without end, where none is given.
inline upsched_command best_effort(std::uint8_t ch, std::uint32_t modem, std::uint32_t tag, std::uint8_t priority = 0,
                                   std::uint64_t last = UPSCHED_LAST_TIME) {
    upsched_command c = upsched_best_effort(ch, modem, tag, priority);
    c.last = last;
    return c;
}

inline upsched_command ugs(std::uint8_t ch, std::uint32_t modem, std::uint32_t tag, std::uint16_t size,
                           std::uint32_t interval, std::uint32_t jitter, std::uint64_t base,
                           std::uint64_t last = UPSCHED_LAST_TIME) {
    upsched_command c = upsched_ugs(ch, modem, tag, size, interval, jitter, base);
    c.last = last;
    return c;
}

inline upsched_command poll(std::uint8_t ch, std::uint32_t modem, std::uint32_t tag, std::uint32_t interval,
                            std::uint32_t jitter, std::uint64_t base, std::uint64_t last = UPSCHED_LAST_TIME) {
    upsched_command c = upsched_poll(ch, modem, tag, interval, jitter, base);
    c.last = last;
    return c;
}

/// Intervals in which a modem ranges, due as unsolicited grants.
inline upsched_command station(std::uint8_t ch, std::uint32_t modem, std::uint32_t tag, std::uint16_t size,
                               std::uint32_t interval, std::uint32_t jitter, std::uint64_t base,
                               std::uint64_t last = UPSCHED_LAST_TIME) {
    upsched_command c = upsched_station(ch, modem, tag, size, interval, jitter, base);
    c.last = last;
    return c;
}

/// Openings for the first ranging of everybody, likewise.
inline upsched_command initial(std::uint8_t ch, std::uint32_t modem, std::uint32_t tag, std::uint16_t size,
                               std::uint32_t interval, std::uint32_t jitter, std::uint64_t base,
                               std::uint64_t last = UPSCHED_LAST_TIME) {
    upsched_command c = upsched_initial(ch, modem, tag, size, interval, jitter, base);
    c.last = last;
    return c;
}

inline upsched_command drop(std::uint8_t ch, std::uint16_t sid) { return upsched_drop(ch, sid); }

inline upsched_command request(std::uint8_t ch, std::uint16_t sid, std::uint16_t n, std::uint64_t sent) {
    return upsched_request(ch, sid, n, sent);
}

inline upsched_command cut(std::uint8_t ch, std::uint16_t len, std::uint64_t not_before, std::uint64_t ack) {
    return upsched_cut(ch, len, not_before, ack);
}

/// A cut whose requests leave at least `keep` minislots free, with back-offs of its own.
inline upsched_command cut_set(std::uint8_t ch, std::uint16_t len, std::uint64_t not_before, std::uint64_t ack,
                               std::uint16_t keep, Backoff ranging = own_backoff, Backoff data = own_backoff) {
    upsched_command c = upsched_cut_set(ch, len, not_before, ack, keep);
    c.ranging_start = ranging.start;
    c.ranging_end = ranging.end;
    c.data_start = data.start;
    c.data_end = data.end;
    return c;
}

class Machine : public Handle {
  public:
    Machine() { check(upsched_machine_open(&handle_)); }
    /// A scheduler that goes on as the one that was saved as these bytes.
    static Machine open(const std::uint8_t *bytes, std::size_t len) {
        Machine machine{Closed{}};
        std::uint8_t ch = 0;
        check(upsched_machine_open_saved(&machine.handle_, bytes, len, &ch));
        return machine;
    }
    static Machine open(const std::vector<std::uint8_t> &bytes) { return open(bytes.data(), bytes.size()); }
    /// All that it holds, as bytes.
    std::vector<std::uint8_t> save() {
        std::vector<std::uint8_t> bytes;
        std::size_t written = 0;
        std::int32_t status = upsched_machine_save(&handle_, nullptr, 0, &written);
        if (status == UPSCHED_NO_ROOM) {
            bytes.resize(written);
            status = upsched_machine_save(&handle_, bytes.data(), bytes.size(), &written);
        }
        check(status);
        return bytes;
    }
    void apply(const upsched_command &command, Output &output) {
        check(upsched_machine_apply(&handle_, &command, &output, output.body.data()));
    }
    void apply(const std::uint8_t *command, std::size_t len, Output &output) {
        check(upsched_machine_apply_bytes(&handle_, command, len, &output, output.body.data()));
    }
    /// Where the channel's next MAP begins, its Ack Time, and how many requests wait; none where it isn't set.
    std::optional<upsched_channel_state> channel(std::uint8_t ch) {
        upsched_channel_state channel{};
        return found(upsched_machine_channel(&handle_, ch, &channel), channel);
    }
    /// The channel's waiting request number k, by arrival, from 0.
    std::optional<upsched_waiting_request> waiting(std::uint8_t ch, std::uint32_t k) {
        upsched_waiting_request waiting{};
        return found(upsched_machine_waiting(&handle_, ch, k, &waiting), waiting);
    }
    /// The channel's flow that has a SID.
    std::optional<upsched_flow_state> flow(std::uint8_t ch, std::uint16_t sid) {
        upsched_flow_state flow{};
        return found(upsched_machine_flow(&handle_, ch, sid, &flow), flow);
    }

  private:
    struct Closed {};
    explicit Machine(Closed) noexcept {}
};

/// A MAP that is read once, and heard by many modems.
class OpenMap : public Handle {
  public:
    OpenMap(const std::uint8_t *body, std::size_t len) { check(upsched_map_open(&handle_, body, len)); }
    explicit OpenMap(const Output &o) : OpenMap(o.body.data(), o.body_len) {}
};

class Modem : public Handle {
  public:
    explicit Modem(std::uint32_t id) { check(upsched_modem_open(&handle_, id)); }
    /// Hears any output near a time, and says how.
    std::uint32_t hear(const Output &o, std::uint64_t near_time) {
        std::uint32_t heard = UPSCHED_NOT_MINE;
        if (o.kind == UPSCHED_CHANNEL_SET) {
            check(upsched_modem_hear_channel(&handle_, o.ch, o.ucd, &heard));
        } else if (o.kind == UPSCHED_ASSIGNED) {
            check(upsched_modem_hear_assigned(&handle_, o.modem, o.ch, o.sid, o.first, o.last, &heard));
        } else if (o.kind == UPSCHED_MAP) {
            check(upsched_modem_hear_map(&handle_, o.body.data(), o.body_len, near_time, &heard));
        }
        return heard;
    }
    std::uint32_t hear(OpenMap &map, std::uint64_t near_time) {
        std::uint32_t heard = UPSCHED_NOT_MINE;
        check(upsched_modem_hear_open_map(&handle_, map.get(), near_time, &heard));
        return heard;
    }
    /// Takes a want; false where one of the SID waits already.
    bool want(std::uint8_t ch, std::uint16_t sid, std::uint16_t n) {
        const std::int32_t status = upsched_modem_want(&handle_, ch, sid, n);
        if (status == UPSCHED_WANT_WAITING) return false;
        check(status);
        return true;
    }
    upsched_sending tick(std::uint8_t ch, std::uint64_t slot, std::uint64_t random) {
        upsched_sending sending{};
        check(upsched_modem_tick(&handle_, ch, slot, random, &sending));
        return sending;
    }
    /// The first minislot from one on whose tick does more than move the clock, and what it does.
    std::optional<upsched_event> next(std::uint8_t ch, std::uint64_t from) {
        upsched_event event{};
        return found(upsched_modem_next(&handle_, ch, from, &event), event);
    }
};

} // namespace upsched
#endif
