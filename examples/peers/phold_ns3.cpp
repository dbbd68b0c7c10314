// PHOLD on the bare event core of ns-3: Simulator::Schedule, no packets. It prints the report of `phold`.
#include <cstdio>
#include <cstdlib>
#include <string>
#include <vector>
#include "draws.hpp"
#include "ns3/core-module.h"

static Settings p;
static std::vector<uint64_t> made;
static uint64_t events = 0, remote = 0;
static unsigned __int128 time_sum = 0;

static void hop(uint32_t node) {
    uint64_t now = ns3::Simulator::Now().GetMicroSeconds();
    Draw next = draw(p, node, ++made[node]);
    events++;
    remote += next.receiver != node;
    time_sum += now;
    ns3::Simulator::Schedule(ns3::MicroSeconds(next.delay), &hop, next.receiver);
}

int main(int argc, char** argv) {
    if (argc > 1) p.nodes = atoi(argv[1]);
    if (argc > 2) p.jobs = atoi(argv[2]);
    if (argc > 3) p.remote = atoi(argv[3]);
    if (argc > 4) p.duration = atoll(argv[4]);
    if (argc > 5) {
        ns3::ObjectFactory factory;
        factory.SetTypeId(std::string("ns3::") + argv[5]);
        ns3::Simulator::SetScheduler(factory);
    }
    made.assign(p.nodes, p.jobs);
    for (uint32_t node = 0; node < p.nodes; node++)
        for (uint64_t job = 1; job <= p.jobs; job++)
            ns3::Simulator::Schedule(ns3::MicroSeconds(draw(p, node, job).delay), &hop, node);
    // Events at the end of the run are not taken.
    ns3::Simulator::Stop(ns3::NanoSeconds(p.duration * 1000 - 1));
    ns3::Simulator::Run();
    printf("events %lu\nremote %lu\ntime-sum %lu\n", events, remote, (unsigned long)time_sum);
}
