// Chord on the bare event core of ns-3: Simulator::Schedule, no packets. The rules are those of chord_node.hpp.
//
//   chord_ns3 NODES SECONDS [SCHEDULER]     SCHEDULER is a class of ns-3, PriorityQueueScheduler if it is not given
//
// A message, a tick of a timer and a timeout are one event of ns-3 each.
#include <cstdlib>
#include <string>
#include "chord_node.hpp"
#include "ns3/core-module.h"

using ns3::MicroSeconds;
using ns3::Simulator;

static std::vector<Node> ring;

void post(uint32_t receiver, const Message& message) {
    Simulator::Schedule(MicroSeconds(LATENCY), &Node::receive, &ring[receiver], message);
}

void set_timeout(uint32_t node, uint32_t call) {
    Simulator::Schedule(MicroSeconds(TIMEOUT), &Node::time_out, &ring[node], call);
}

static void tick(Node* node, Timer timer) {
    Simulator::Schedule(MicroSeconds(node->delay(timer)), &tick, node, timer);
    node->tick(timer);
}

static void set_scheduler(const std::string& name) {
    ns3::ObjectFactory factory;
    factory.SetTypeId("ns3::" + name);
    Simulator::SetScheduler(factory);
}

int main(int argc, char** argv) {
    uint32_t nodes = argc > 1 ? atoi(argv[1]) : 512;
    uint64_t duration = (argc > 2 ? atof(argv[2]) : 20) * 1000000;
    set_scheduler(argc > 3 ? argv[3] : "PriorityQueueScheduler");
    ring = make_ring(nodes);
    for (Node& node : ring)
        for (Timer timer : TIMERS) Simulator::Schedule(MicroSeconds(node.first_delay(timer)), &tick, &node, timer);
    // Events at the end of the run are not taken.
    Simulator::Stop(ns3::NanoSeconds(duration * 1000 - 1));
    double start = processor_seconds();
    Simulator::Run();
    print_report(duration, start);
}
