// Chord by SimGrid (s4u): an actor and a mailbox for each node. The rules are those of chord_node.hpp.
//
//   chord_simgrid NODES SECONDS
//
// An actor waits for a message until its next timer or timeout is due. Each is on a host of its own, in a star whose
// links have half of the latency each, and no other effect. (SimGrid's constant network makes the same events. It takes
// the same time with 512 nodes, and more than twice as long with 4,096.)
//
// A second of SimGrid stands for a microsecond, so all times are whole numbers, which a double holds exactly.
#include <cmath>
#include <cstdlib>
#include <deque>
#include <memory>
#include <string>
#include "chord_node.hpp"
#include <simgrid/s4u.hpp>

namespace sg = simgrid::s4u;

// Bytes in a microsecond. A message has one.
constexpr double BANDWIDTH = 1e12;

struct Timeout {
    uint64_t time;
    uint32_t call;
};

// When a node is due to act next.
struct Alarms {
    std::array<uint64_t, std::size(TIMERS)> timers;
    std::deque<Timeout> timeouts;  // the earliest first, as all come equally long after their calls

    uint64_t& of(Timer timer) { return timers[size_t(timer)]; }

    uint64_t next() const {
        uint64_t timer = *std::min_element(timers.begin(), timers.end());
        return timeouts.empty() ? timer : std::min(timer, timeouts.front().time);
    }
};

static uint64_t duration;
static std::vector<Node> ring;
static std::vector<Alarms> alarms;
static std::vector<sg::Mailbox*> mailboxes;

static uint64_t now() { return std::llround(sg::Engine::get_clock()); }

static void discard(void* message) { delete static_cast<Message*>(message); }

void post(uint32_t receiver, const Message& message) {
    mailboxes[receiver]->put_init(new Message(message), 1)->detach(discard);
}

void set_timeout(uint32_t node, uint32_t call) { alarms[node].timeouts.push_back({now() + TIMEOUT, call}); }

static void tick(uint32_t node, Timer timer) {
    alarms[node].of(timer) += ring[node].delay(timer);
    ring[node].tick(timer);
}

static void time_out(uint32_t node) {
    uint32_t call = alarms[node].timeouts.front().call;
    alarms[node].timeouts.pop_front();
    ring[node].time_out(call);
}

static void act_on_alarms(uint32_t node) {
    for (Timer timer : TIMERS)
        if (alarms[node].of(timer) <= now()) tick(node, timer);
    while (!alarms[node].timeouts.empty() && alarms[node].timeouts.front().time <= now()) time_out(node);
}

// What the actor of a node does.
static void live(uint32_t node) {
    Message* message = nullptr;
    std::vector<sg::CommPtr> receipt = {mailboxes[node]->get_async<Message>(&message)};
    while (now() < duration) {
        act_on_alarms(node);
        double wait = std::min(alarms[node].next(), duration) - now();
        if (sg::Comm::wait_any_for(receipt, wait) < 0) continue;
        std::unique_ptr<Message> received(message);
        ring[node].receive(*received);
        receipt[0] = mailboxes[node]->get_async<Message>(&message);
    }
    receipt[0]->cancel();
}

static void add_actor(uint32_t node, sg::NetZone* star) {
    std::string name = std::to_string(node);
    sg::Host* host = star->create_host(name, 1.0);
    sg::Link* link = star->create_link(name, BANDWIDTH)->set_latency(LATENCY / 2.0);
    link->set_sharing_policy(sg::Link::SharingPolicy::FATPIPE)->seal();
    star->add_route(host->get_netpoint(), nullptr, nullptr, nullptr, {sg::LinkInRoute(link)}, true);
    mailboxes.push_back(sg::Mailbox::by_name(name));
    mailboxes[node]->set_receiver(sg::Actor::create(name, host, live, node));
}

// The simplest network that has links, and small stacks without guard pages: each of these would take two of the 65,530
// maps that Linux gives a process.
static void configure() {
    sg::Engine::set_config("network/model", std::string("CM02"));
    sg::Engine::set_config("network/TCP-gamma", 0.0);
    sg::Engine::set_config("network/crosstraffic", false);
    sg::Engine::set_config("contexts/stack-size", 16);
    sg::Engine::set_config("contexts/guard-size", 0);
}

int main(int argc, char** argv) {
    sg::Engine engine(&argc, argv);
    uint32_t nodes = argc > 1 ? atoi(argv[1]) : 512;
    duration = (argc > 2 ? atof(argv[2]) : 20) * 1000000;
    configure();
    sg::NetZone* star = sg::create_star_zone("star");
    ring = make_ring(nodes);
    alarms.resize(nodes);
    for (uint32_t node = 0; node < nodes; node++) {
        for (Timer timer : TIMERS) alarms[node].of(timer) = ring[node].first_delay(timer);
        add_actor(node, star);
    }
    star->seal();
    double start = processor_seconds();
    engine.run();
    print_report(duration, start);
}
