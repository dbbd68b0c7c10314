// The draws of PHOLD (docs/kernel.md): group `number` of the ChaCha8 stream of a node.
#pragma once
#include <cstdint>

struct Settings {
    uint32_t nodes = 1024, jobs = 1, remote = 500000;
    uint64_t lookahead = 1000, mean = 9000, seed = 1, duration = 1000000;
};

struct Draw {
    uint64_t delay;
    uint32_t receiver;
};

inline uint32_t turn(uint32_t word, int places) { return word << places | word >> (32 - places); }

inline void quarter_round(uint32_t* s, int a, int b, int c, int d) {
    s[a] += s[b]; s[d] = turn(s[d] ^ s[a], 16);
    s[c] += s[d]; s[b] = turn(s[b] ^ s[c], 12);
    s[a] += s[b]; s[d] = turn(s[d] ^ s[a], 8);
    s[c] += s[d]; s[b] = turn(s[b] ^ s[c], 7);
}

// A number below the bound, made of two words.
inline uint64_t scaled(uint32_t high, uint32_t low, uint64_t bound) {
    uint64_t fraction = uint64_t(high) << 32 | low;
    return uint64_t((unsigned __int128)fraction * bound >> 64);
}

// The delay and the receiver of the event of this number that a node makes.
inline Draw draw(const Settings& p, uint32_t node, uint64_t number) {
    uint64_t counter = number / 4;
    const uint32_t start[16] = {
        0x61707865, 0x3320646e, 0x79622d32, 0x6b206574,
        uint32_t(p.seed), uint32_t(p.seed >> 32), 0, 0, 0, 0, 0, 0,
        uint32_t(counter), uint32_t(counter >> 32), node, 0};
    uint32_t s[16];
    for (int i = 0; i < 16; i++) s[i] = start[i];
    for (int round = 0; round < 4; round++) {
        quarter_round(s, 0, 4, 8, 12); quarter_round(s, 1, 5, 9, 13);
        quarter_round(s, 2, 6, 10, 14); quarter_round(s, 3, 7, 11, 15);
        quarter_round(s, 0, 5, 10, 15); quarter_round(s, 1, 6, 11, 12);
        quarter_round(s, 2, 7, 8, 13); quarter_round(s, 3, 4, 9, 14);
    }
    uint32_t w[4];
    for (int i = 0; i < 4; i++) w[i] = s[4 * (number % 4) + i] + start[4 * (number % 4) + i];
    uint64_t others = p.nodes - 1, way = scaled(w[2], w[3], 1000000 * others);
    uint64_t beyond = scaled(w[0], w[1], 2 * p.mean + 1);
    bool leaves = way / others < p.remote;
    return {p.lookahead + beyond, uint32_t(leaves ? (node + 1 + way % others) % p.nodes : node)};
}
