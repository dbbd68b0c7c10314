// The rules of Chord that chord_ns3.cpp and chord_simgrid.cpp share. chord_simpy.py has them in Python.
//
// They are those of docs/rules.md in a ring that loses nothing and that nobody joins or leaves: stabilization with
// successor lists, notify, the refresh of fingers in rotation, and iterative lookups. Each request has a timeout, which
// is not cancelled when the reply comes. A timer comes after a random time of a span, and first at any time up to its
// end.
//
// What is not here: joins, crashes, leaves, loss, silent nodes, checks and pings of predecessors, requests to the
// owner, a search of the successor list, a limit of steps, audits, a trace. The search for the closest preceding node
// ends at the first finger that fits, as in Chord 2001. chordsim compares all. Draws are those of xorshift64, not of
// ChaCha8.
#pragma once
#include <algorithm>
#include <array>
#include <cstdint>
#include <cstdio>
#include <optional>
#include <sys/resource.h>
#include <vector>

// Times are in microseconds. Identifiers have 32 bits, so whole numbers of 32 bits go around the circle as they do.
constexpr uint64_t LATENCY = 10000, TIMEOUT = 100000;
constexpr uint32_t FINGERS = 32;
constexpr size_t LIST_ENTRIES = 4;

using List = std::array<uint32_t, LIST_ENTRIES>;

struct Span {
    uint64_t least, greatest;
};

enum class Timer { Stabilize, Finger, Traffic };
constexpr Timer TIMERS[] = {Timer::Stabilize, Timer::Finger, Timer::Traffic};

// The time between two ticks.
inline Span gap(Timer timer) { return timer == Timer::Traffic ? Span{250000, 750000} : Span{900000, 1100000}; }

enum class Kind { Step, StepReply, GetState, StateReply, GetList, ListReply, Notify };

// The owner of a key, or the node to ask next.
struct Answer {
    bool is_owner = false;
    uint32_t node = 0;
};

struct Message {
    Kind kind;
    uint32_t sender;
    uint32_t call = 0;         // of a request and its reply
    uint32_t key = 0;          // of Step
    Answer answer = {};        // of StepReply
    uint32_t predecessor = 0;  // of StateReply
    List successors = {};      // of StateReply and ListReply
};

struct Lookup {
    uint32_t key;
    std::optional<uint32_t> finger;  // which finger it refreshes; a user's lookup has none
    uint32_t hops = 0;
};

// A request that is out. One of stabilization has no lookup.
struct Call {
    uint32_t number;
    std::optional<Lookup> lookup;
};

struct Counts {
    uint64_t messages = 0, timers = 0, timeouts = 0, found = 0, hops = 0;
};

inline Counts counts;
inline std::vector<uint32_t> identifiers;  // of each node

// What each program supplies: after LATENCY `Node::receive` of the receiver, and after TIMEOUT `Node::time_out`.
void post(uint32_t receiver, const Message& message);
void set_timeout(uint32_t node, uint32_t call);

// Whether x lies clockwise between a and b and is neither. If a is b, this is the whole circle without a.
inline bool between(uint32_t a, uint32_t x, uint32_t b) { return x - a - 1 < b - a - 1; }

inline bool in_half_open(uint32_t a, uint32_t x, uint32_t b) { return x == b || between(a, x, b); }

class Node {
  public:
    // The node at this place of the ring. `order` has all nodes in the order of their identifiers.
    Node(const std::vector<uint32_t>& order, size_t place)
        : me(order[place]), random(0x9E3779B97F4A7C15 * (me + 1)), predecessor(at(order, place + order.size() - 1)) {
        for (size_t entry = 0; entry < LIST_ENTRIES; entry++) successors[entry] = at(order, place + 1 + entry);
        for (uint32_t finger = 0; finger < FINGERS; finger++) fingers[finger] = first_from(order, start(finger));
        next_finger = drawn({1, FINGERS - 1});
    }

    uint64_t first_delay(Timer timer) { return drawn({1, gap(timer).greatest}); }

    uint64_t delay(Timer timer) { return drawn(gap(timer)); }

    void tick(Timer timer) {
        counts.timers++;
        switch (timer) {
        case Timer::Stabilize: return call(successors[0], {Kind::GetState, me});
        case Timer::Finger: return refresh_finger();
        case Timer::Traffic: return look_up({uint32_t(word()), {}});
        }
    }

    void receive(const Message& message) {
        counts.messages++;
        switch (message.kind) {
        case Kind::Step: return reply_step(message);
        case Kind::GetState: return reply_state(message);
        case Kind::GetList: return reply_list(message);
        case Kind::Notify: return take_notify(message.sender);
        default: return take_reply(message);
        }
    }

    // The reply has come before, so there is no such call any more.
    void time_out(uint32_t number) {
        counts.timeouts++;
        take_call(number);
    }

  private:
    uint32_t me;
    uint64_t random;  // the state of xorshift64
    uint32_t predecessor;
    List successors;
    std::array<uint32_t, FINGERS> fingers;  // the first one is the first successor, and is not refreshed
    uint32_t next_finger;
    uint32_t last_call = 0;
    std::vector<Call> calls;

    static uint32_t at(const std::vector<uint32_t>& order, size_t place) { return order[place % order.size()]; }

    // The first node at or after a place on the circle.
    static uint32_t first_from(const std::vector<uint32_t>& order, uint32_t place) {
        auto is_before = [](uint32_t node, uint32_t place) { return identifiers[node] < place; };
        return at(order, std::lower_bound(order.begin(), order.end(), place, is_before) - order.begin());
    }

    uint32_t start(uint32_t finger) const { return identifiers[me] + (uint32_t(1) << finger); }

    uint64_t word() {
        random ^= random << 13;
        random ^= random >> 7;
        random ^= random << 17;
        return random;
    }

    uint64_t drawn(Span span) { return span.least + word() % (span.greatest - span.least + 1); }

    void call(uint32_t receiver, Message request, std::optional<Lookup> lookup = {}) {
        request.call = ++last_call;
        calls.push_back({request.call, lookup});
        post(receiver, request);
        set_timeout(me, request.call);
    }

    // Removes the call of this number, if it is out.
    std::optional<Call> take_call(uint32_t number) {
        auto has_number = [number](const Call& call) { return call.number == number; };
        auto found = std::find_if(calls.begin(), calls.end(), has_number);
        if (found == calls.end()) return {};
        Call call = *found;
        calls.erase(found);
        return call;
    }

    Answer step_answer(uint32_t key) const {
        uint32_t head = successors[0];
        bool is_owner = in_half_open(identifiers[me], key, identifiers[head]);
        return {is_owner, is_owner ? head : closest_preceding(key)};
    }

    // Fingers are in order, so the last one that precedes the key is the closest.
    uint32_t closest_preceding(uint32_t key) const {
        auto precedes = [&](uint32_t finger) { return between(identifiers[me], identifiers[finger], key); };
        auto found = std::find_if(fingers.rbegin(), fingers.rend(), precedes);
        return found == fingers.rend() ? successors[0] : *found;
    }

    void look_up(const Lookup& lookup) { follow(lookup, step_answer(lookup.key)); }

    void follow(const Lookup& lookup, Answer answer) {
        if (answer.is_owner) return finish(lookup, answer.node);
        call(answer.node, {Kind::Step, me, 0, lookup.key}, lookup);
    }

    void finish(const Lookup& lookup, uint32_t owner) {
        if (lookup.finger) {
            fingers[*lookup.finger] = owner;
        } else {
            counts.found++;
            counts.hops += lookup.hops;
        }
    }

    void refresh_finger() {
        uint32_t finger = next_finger;
        next_finger = finger + 1 < FINGERS ? finger + 1 : 1;
        look_up({start(finger), finger});
    }

    void reply_step(const Message& request) {
        Message reply = {Kind::StepReply, me, request.call};
        reply.answer = step_answer(request.key);
        post(request.sender, reply);
    }

    void reply_state(const Message& request) {
        Message reply = {Kind::StateReply, me, request.call};
        reply.predecessor = predecessor;
        reply.successors = successors;
        post(request.sender, reply);
    }

    void reply_list(const Message& request) {
        Message reply = {Kind::ListReply, me, request.call};
        reply.successors = successors;
        post(request.sender, reply);
    }

    void take_reply(const Message& reply) {
        std::optional<Call> call = take_call(reply.call);
        if (!call) return;
        switch (reply.kind) {
        case Kind::StepReply: return take_step(*call->lookup, reply.answer);
        case Kind::StateReply: return take_state(reply);
        default: return take_list(reply);
        }
    }

    void take_step(Lookup& lookup, Answer answer) {
        lookup.hops++;
        follow(lookup, answer);
    }

    void take_state(const Message& reply) {
        renew_list(reply);
        if (between(identifiers[me], identifiers[reply.predecessor], identifiers[reply.sender]))
            call(reply.predecessor, {Kind::GetList, me});
        else
            post(successors[0], {Kind::Notify, me});
    }

    void take_list(const Message& reply) {
        renew_list(reply);
        post(successors[0], {Kind::Notify, me});
    }

    // The list is then the sender, and the first entries of its own list.
    void renew_list(const Message& reply) {
        successors[0] = reply.sender;
        std::copy_n(reply.successors.begin(), LIST_ENTRIES - 1, successors.begin() + 1);
    }

    void take_notify(uint32_t sender) {
        if (between(identifiers[predecessor], identifiers[sender], identifiers[me])) predecessor = sender;
    }
};

// Mixes the bits of a number. Different numbers give different results. (It is the end of MurmurHash3.)
inline uint32_t mixed(uint32_t number) {
    number = (number ^ number >> 16) * 0x85EBCA6B;
    number = (number ^ number >> 13) * 0xC2B2AE35;
    return number ^ number >> 16;
}

// A ring whose nodes know each other, in the order of their numbers. It has more nodes than a list has entries.
inline std::vector<Node> make_ring(uint32_t nodes) {
    std::vector<uint32_t> order, places(nodes);
    for (uint32_t node = 0; node < nodes; node++) {
        identifiers.push_back(mixed(node + 1));
        order.push_back(node);
    }
    std::sort(order.begin(), order.end(), [](uint32_t a, uint32_t b) { return identifiers[a] < identifiers[b]; });
    for (uint32_t place = 0; place < nodes; place++) places[order[place]] = place;
    std::vector<Node> ring;
    ring.reserve(nodes);
    for (uint32_t node = 0; node < nodes; node++) ring.emplace_back(order, places[node]);
    return ring;
}

inline rusage usage() {
    rusage used;
    getrusage(RUSAGE_SELF, &used);
    return used;
}

inline double seconds(timeval time) { return time.tv_sec + time.tv_usec / 1e6; }

// Processor seconds of this program until now.
inline double processor_seconds() { return seconds(usage().ru_utime) + seconds(usage().ru_stime); }

// `start` is what the start took, in processor seconds.
inline void print_report(uint64_t duration, double start) {
    double run = processor_seconds() - start;
    printf("nodes %zu\nsimulated-seconds %g\n", identifiers.size(), duration / 1e6);
    printf("events %lu\n", counts.messages + counts.timers + counts.timeouts);
    printf("messages %lu\ntimers %lu\ntimeouts %lu\n", counts.messages, counts.timers, counts.timeouts);
    printf("found %lu\nmean-hops %.4f\n", counts.found, counts.found ? double(counts.hops) / counts.found : 0);
    printf("run-seconds %.3f\nstart-seconds %.3f\nmemory-mb %.1f\n", run, start, usage().ru_maxrss / 1024.0);
}
