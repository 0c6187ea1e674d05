// An upstream channel with 100 modems: 20 have a voice flow (unsolicited grants), 80 a best-effort flow. A minislot is
// 12.5 us. A MAP of 160 minislots (2 ms) is cut two MAPs ahead. Packets come by a Poisson process. A modem asks in the
// minislots that are open to all, where two that send at once collide and neither is heard.
//
// Usage: sim [SECONDS] [LOAD] [ticks|events]. LOAD is what the best-effort packets would take of the channel. By ticks
// each modem hears the MAP's bytes, and ticks at each minislot. By events a MAP is read once, a grant is one event, and
// a modem ticks only where its request takes part. Both print the same. The processor time goes to standard error.
#include <algorithm>
#include <array>
#include <cinttypes>
#include <cstdio>
#include <cstdlib>
#include <ctime>
#include <deque>
#include <random>
#include <string>

#include <upsched.hpp>

namespace {

constexpr std::uint8_t kChannel = 1;
constexpr std::uint16_t kMapSlots = 160;
constexpr std::uint64_t kAhead = 2 * kMapSlots;
constexpr std::size_t kVoices = 20, kModems = 100;
constexpr double kSlotMs = 0.0125;

struct Packet {
    std::uint64_t came;
    std::uint16_t minislots;
};

// The packets of a modem, which come by a random process of its own.
class Source {
  public:
    Source(std::uint64_t seed, double mean_gap) : random_(seed), gap_(1 / mean_gap) { next_ = step(); }
    std::uint64_t next() const { return next_; }
    // Takes over what has come by a minislot.
    void fill(std::uint64_t slot, std::deque<Packet> &packets) {
        while (next_ <= slot) {
            packets.push_back({next_, static_cast<std::uint16_t>(4 + random_() % 17)});
            next_ += 1 + step();
        }
    }

  private:
    std::uint64_t step() { return static_cast<std::uint64_t>(gap_(random_)); }
    std::mt19937_64 random_;
    std::exponential_distribution<double> gap_;
    std::uint64_t next_ = 0;
};

// The number from which a modem draws its back-off at a minislot (splitmix64).
std::uint64_t drawn(std::uint64_t modem, std::uint64_t slot) {
    std::uint64_t x = (modem << 48) + slot + 0x9e3779b97f4a7c15u;
    x = (x ^ (x >> 30)) * 0xbf58476d1ce4e5b9u;
    x = (x ^ (x >> 27)) * 0x94d049bb133111ebu;
    return x ^ (x >> 31);
}

struct Station {
    upsched::Modem modem;
    Source source;
    bool asks;
    std::uint16_t sid = 0;
    std::deque<Packet> packets{};

    Station(std::uint32_t id, double mean_gap, bool asks_) : modem(id), source(id, mean_gap), asks(asks_) {}

    // Packets that have come by a minislot are wanted, one after another.
    void want(std::uint64_t slot) {
        if (!asks) return;
        source.fill(slot, packets);
        if (!packets.empty()) modem.want(kChannel, sid, packets.front().minislots);
    }
};

// What was sent in a MAP's minislots: how many modems used each for data, how many asked, and what the last one asked.
struct Sent {
    std::array<int, kMapSlots> owners{}, askers{};
    std::array<upsched_sending, kMapSlots> requests{};

    void add(std::size_t at, const upsched_sending &s) {
        if (s.kind == UPSCHED_SENDS_DATA) owners[at]++;
        if (s.kind != UPSCHED_SENDS_REQUEST) return;
        askers[at]++;
        requests[at] = s;
    }
};

void send_by_ticks(Station &station, std::uint64_t id, std::uint64_t from, Sent &sent) {
    for (std::uint64_t slot = from; slot < from + kMapSlots; slot++) {
        station.want(slot);
        sent.add(slot - from, station.modem.tick(kChannel, slot, drawn(id, slot)));
    }
}

// Up to where the minislots from each one on are open to all, by the MAPs that are ahead.
using OpenUntil = std::array<std::uint64_t, kAhead + kMapSlots>;

void send_by_events(Station &station, std::uint64_t id, std::uint64_t from, const OpenUntil &open, Sent &sent) {
    const std::uint64_t end = from + kMapSlots;
    std::uint64_t slot = from;
    station.want(slot);
    while (slot < end) {
        const std::optional<upsched_event> event = station.modem.next(kChannel, slot);
        const std::uint64_t at = event ? event->slot : end;
        const std::uint64_t comes = station.asks ? station.source.next() : end;
        slot = std::min(at, comes);
        if (slot >= end) break;
        if (comes <= at) {
            station.want(slot);
        } else if (event->kind == UPSCHED_EVENT_GRANT) {
            // Its minislots to the last one are used; what came by then is wanted behind it.
            for (; slot <= event->last && slot < end; slot++) sent.owners[slot - from]++;
            station.want(slot - 1);
        } else {
            // Its request takes part in each minislot that is open to all, until it is sent.
            const std::uint64_t until = open[slot % open.size()];
            upsched_sending sending{};
            do {
                sending = station.modem.tick(kChannel, slot, drawn(id, slot));
                sent.add(slot - from, sending);
                slot++;
            } while (sending.kind == UPSCHED_SENDS_NOTHING && slot < until && slot < end);
            station.want(slot - 1);
        }
    }
}

void print(const char *name, std::vector<double> &delays) {
    if (delays.empty()) return;
    std::sort(delays.begin(), delays.end());
    double sum = 0;
    for (double d : delays) sum += d;
    std::printf("%-12s %8zu grants, delay mean %7.3f ms, 99th percentile %7.3f ms\n", name, delays.size(),
                sum / static_cast<double>(delays.size()), delays[delays.size() * 99 / 100]);
}

struct Channel {
    upsched::Machine machine;
    std::vector<Station> stations;
    std::vector<upsched_command> waiting; // requests on their way to the headend
    std::vector<double> best_effort, voice;
    OpenUntil open{};
    std::uint64_t used = 0, collisions = 0, requests = 0, refused = 0, maps = 0, twice = 0;

    explicit Channel(double load) {
        upsched::Output set, output;
        machine.apply(upsched::channel(kChannel, 7, kAhead), set);
        const double mean_gap = static_cast<double>(kModems - kVoices) * 12 / load; // a packet has 12 in the mean
        for (std::uint32_t i = 0; i < kModems; i++) {
            const bool asks = i >= kVoices;
            machine.apply(asks ? upsched::best_effort(kChannel, i + 1, 1, static_cast<std::uint8_t>(i % 3))
                               : upsched::ugs(kChannel, i + 1, 1, 8, 1600, 80, kAhead + 80 * i),
                          output);
            stations.emplace_back(i + 1, mean_gap, asks);
            stations[i].sid = output.sid;
            stations[i].modem.hear(set, 0);
            stations[i].modem.hear(output, 0);
        }
    }

    // The headend takes the requests that reached it, and cuts the MAP that begins kAhead from now.
    void cut(std::uint64_t now, upsched::Output &output) {
        for (const upsched_command &c : waiting) {
            machine.apply(c, output);
            refused += output.kind == UPSCHED_REFUSED;
        }
        waiting.clear();
        machine.apply(upsched::cut(kChannel, kMapSlots, 0, now), output);
        maps++;
    }

    // Whose grants a MAP has, how long their packets waited, and which minislots are open to all.
    void account(const upsched::Output &output) {
        const upsched::Map map = upsched::decode(output.body.data(), output.body_len);
        for (std::size_t k = 0; k + 1 < map.elements.size() && map.elements[k].iuc != UPSCHED_IUC_NULL; k++) {
            const upsched_map_element &e = map.elements[k];
            const std::uint16_t next = map.elements[k + 1].offset;
            if (e.iuc == UPSCHED_IUC_REQUEST) {
                const std::uint64_t until = output.start + next;
                for (std::uint64_t at = output.start + e.offset; at < until; at++) open[at % open.size()] = until;
                continue;
            }
            used += next - e.offset;
            const std::uint64_t at = output.start + e.offset;
            Station &station = stations[e.sid - 1u];
            if (!station.asks) {
                voice.push_back(static_cast<double>((at - (kAhead + 80 * (e.sid - 1u))) % 1600) * kSlotMs);
            } else if (!station.packets.empty()) {
                best_effort.push_back(static_cast<double>(at - station.packets.front().came) * kSlotMs);
                station.packets.pop_front();
            }
        }
    }

    void settle(std::uint64_t from, const Sent &sent) {
        for (std::size_t at = 0; at < kMapSlots; at++) {
            twice += sent.owners[at] > 1;
            requests += static_cast<std::uint64_t>(sent.askers[at]);
            collisions += sent.askers[at] > 1;
            if (sent.askers[at] == 1) {
                const upsched_sending &s = sent.requests[at];
                waiting.push_back(upsched::request(kChannel, s.sid, s.minislots, from + at));
            }
        }
    }

    void print_all() {
        std::printf("%" PRIu64 " MAPs, %" PRIu64 " requests sent, %" PRIu64 " collisions, %" PRIu64
                    " refused, minislots with two owners %" PRIu64 "\n",
                    maps, requests, collisions, refused, twice);
        print("best effort", best_effort);
        print("voice", voice);
        std::printf("utilisation  %.3f of the minislots\n",
                    static_cast<double>(used) / static_cast<double>(maps * kMapSlots));
    }
};

} // namespace

int main(int argc, char **argv) {
    const double seconds = argc > 1 ? std::atof(argv[1]) : 2;
    const double load = argc > 2 ? std::atof(argv[2]) : 0.5;
    const bool by_events = argc <= 3 || std::string(argv[3]) != "ticks";
    const std::clock_t began = std::clock();
    Channel channel(load);
    upsched::Output output;
    const std::uint64_t end = static_cast<std::uint64_t>(seconds * 1000 / kSlotMs);
    for (std::uint64_t now = 0; now < end; now += kMapSlots) {
        channel.cut(now, output);
        if (output.kind != UPSCHED_MAP) return 1;
        channel.account(output);
        upsched::OpenMap map(output);
        Sent sent;
        for (std::size_t i = 0; i < kModems; i++) {
            Station &station = channel.stations[i];
            if (by_events) {
                station.modem.hear(map, now);
                send_by_events(station, i, now, channel.open, sent);
            } else {
                station.modem.hear(output, now);
                send_by_ticks(station, i, now, sent);
            }
        }
        channel.settle(now, sent);
    }
    channel.print_all();
    const double took = static_cast<double>(std::clock() - began) / CLOCKS_PER_SEC;
    std::fprintf(stderr, "%s: %.3f s, %.1f times real time\n", by_events ? "events" : "ticks", took, seconds / took);
    return channel.twice != 0;
}
