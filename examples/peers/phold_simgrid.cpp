// PHOLD by SimGrid (s4u): an actor for each job, which sleeps from hop to hop. It prints the report of `phold`.
// With `timers` as fifth argument it takes the timers of SimGrid's engine: bare events, which are no part of s4u.
//
// A second of SimGrid stands for a microsecond: so all times are whole numbers, which a double holds exactly.
// SimGrid has an order of its own for jobs of one time. No report shows it: which number an event gets depends on the
// node, and on how many were there before, not on the job. So two jobs that come to a node at once can change places.
#include <cstdio>
#include <cstdlib>
#include <fstream>
#include <string>
#include <vector>
#include "draws.hpp"
#include <simgrid/kernel/Timer.hpp>
#include <simgrid/s4u.hpp>

namespace sg = simgrid::s4u;

static Settings p;
static std::vector<uint64_t> made;
static uint64_t events = 0, remote = 0;
static unsigned __int128 time_sum = 0;

static Draw hop(uint32_t node) {
    uint64_t now = sg::Engine::get_clock();
    Draw next = draw(p, node, ++made[node]);
    events++;
    remote += next.receiver != node;
    time_sum += now;
    return next;
}

// Events at the end of the run are not taken.
static bool in_run(Draw next) { return sg::Engine::get_clock() + next.delay < p.duration; }

static void wander(Draw next) {
    while (in_run(next)) {
        sg::this_actor::sleep_for(next.delay);
        next = hop(next.receiver);
    }
}

static void set_timer(Draw next) {
    if (in_run(next))
        simgrid::kernel::timer::Timer::set(sg::Engine::get_clock() + next.delay,
                                           [node = next.receiver] { set_timer(hop(node)); });
}

// How many actors fit in three quarters of the memory that is free now. Each takes 10 KB, with its stack.
static uint64_t room() {
    std::ifstream file("/proc/meminfo");
    std::string word;
    uint64_t kilobytes = 0;
    while (file >> word && word != "MemAvailable:") {}
    file >> kilobytes;
    return kilobytes * 3 / 4 / 10;
}

int main(int argc, char** argv) {
    sg::Engine engine(&argc, argv);
    if (argc > 1) p.nodes = atoi(argv[1]);
    if (argc > 2) p.jobs = atoi(argv[2]);
    if (argc > 3) p.remote = atoi(argv[3]);
    if (argc > 4) p.duration = atoll(argv[4]);
    bool timers = argc > 5 && argv[5] == std::string("timers");
    if (!timers && uint64_t(p.nodes) * p.jobs > room()) {
        fprintf(stderr, "SimGrid: no memory for %lu actors\n", uint64_t(p.nodes) * p.jobs);
        return 2;
    }
    // Stacks of 8 KB, and no guard pages: each would take two of the 65,530 maps that Linux gives a process.
    sg::Engine::set_config("contexts/stack-size", 8);
    sg::Engine::set_config("contexts/guard-size", 0);
    sg::NetZone* world = sg::create_empty_zone("world");
    sg::Host* host = world->create_host("host", 1.0);
    world->seal();
    made.assign(p.nodes, p.jobs);
    for (uint32_t node = 0; node < p.nodes; node++)
        for (uint64_t number = 1; number <= p.jobs; number++) {
            Draw first = {draw(p, node, number).delay, node};
            if (timers) set_timer(first);
            else sg::Actor::create("job", host, wander, first);
        }
    // The engine runs only as long as there is an actor.
    if (timers) sg::Actor::create("clock", host, [] { sg::this_actor::sleep_for(p.duration); });
    engine.run();
    printf("events %lu\nremote %lu\ntime-sum %lu\n", events, remote, (unsigned long)time_sum);
}
