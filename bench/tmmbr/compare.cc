// libtmmbr beside the heuristic of RFC 5104 on the same random sets: how often the heuristic's set isn't faithful (permits more
// than the requests together do) or isn't smallest, and what both take.
//
//     compare [SETS [SEED]]     so many sets of each kind and size, 10000 if nothing else is said; of larger ones fewer
#include <algorithm>
#include <chrono>
#include <cstdio>
#include <cstdlib>
#include <random>
#include <set>
#include <vector>

#include "heuristic.hpp"
#include "region.hpp"
#include "tmmbr.h"

using Requests = std::vector<tmmbr_request>;
using Places = std::vector<std::size_t>;
using Random = std::mt19937_64;

static std::uint32_t below(Random &random, std::uint32_t limit)
{
    return std::uniform_int_distribution<std::uint32_t>(0, limit - 1)(random);
}

// A request of the least word that spells the rate, rounded down to 17 bits.
static tmmbr_request request_of(std::uint64_t rate, std::uint32_t overhead)
{
    std::uint32_t exponent = 0;

    while (rate >> exponent > 0x1ffff)
        exponent++;
    return {0, exponent, static_cast<std::uint32_t>(rate >> exponent), overhead};
}

enum class Kind { Usual, Stepped, Any, Zeros, Parabola, Bundle, Close };
static const Kind kinds[] = {Kind::Usual, Kind::Stepped, Kind::Any, Kind::Zeros, Kind::Parabola, Kind::Bundle, Kind::Close};

static const char *name_of(Kind kind)
{
    switch (kind) {
    case Kind::Usual: return "usual";
    case Kind::Stepped: return "stepped";
    case Kind::Any: return "any";
    case Kind::Zeros: return "zeros";
    case Kind::Parabola: return "parabola";
    case Kind::Bundle: return "bundle";
    case Kind::Close: return "close";
    }
    return "";
}

static tmmbr_request request_of(Random &random, Kind kind)
{
    switch (kind) {
    case Kind::Usual: // 30 kbit/s to 4 Mbit/s, 28 to 91 bytes of header
        return request_of(30000 + below(random, 3970000), 28 + below(random, 64));
    case Kind::Stepped: // rates in steps of 64 kbit/s, headers in steps of 4 bytes: lines meet in one point
        return request_of(64000 * (1 + std::uint64_t{below(random, 32)}), 28 + 4 * below(random, 16));
    case Kind::Any: // any words
        return {0, below(random, 64), below(random, 131072), below(random, 512)};
    case Kind::Zeros: // one in sixteen asks for no media at all, or for nothing at all
        return request_of(below(random, 16) ? 30000 + below(random, 3970000) : 0, below(random, 2) * (28 + below(random, 64)));
    case Kind::Parabola: { // rates that rise with the square of the overhead: many lines are needed
        std::uint64_t overhead = below(random, 512);
        return request_of(65500 + overhead * overhead + below(random, 3), static_cast<std::uint32_t>(overhead));
    }
    case Kind::Bundle: { // lines that all but meet in one point, where there is media yet
        std::uint32_t overhead = below(random, 512);
        return {0, 0, 20000 + 199 * overhead + below(random, 2), overhead};
    }
    case Kind::Close: // of those the others are made that bound nothing beside a close pair
        return request_of(std::uint64_t{1} << 40, 1 + below(random, 511));
    }
    return {};
}

// Two requests whose lines end all but at one packet rate: the two differ by less than one part in eight million.
static Requests close_pair(Random &random)
{
    for (;;) {
        std::uint32_t low = 1 + below(random, 255), high = low + 1 + below(random, 256);
        std::uint64_t rate = 65536 + below(random, 65536);
        tmmbr_request first = request_of(rate, low), second = request_of(rate * high / low + below(random, 2), high);
        __int128 here = rate_of(first) * high, there = rate_of(second) * low;
        __int128 apart = here < there ? there - here : here - there;

        if (apart != 0 && apart * (1 << 23) < here)
            return {first, second};
    }
}

static Requests set_of(Random &random, Kind kind, std::size_t count)
{
    std::set<std::uint32_t> ssrcs;
    Requests asked = kind == Kind::Close ? close_pair(random) : Requests{};

    for (tmmbr_request &request : asked) {
        request.ssrc = static_cast<std::uint32_t>(ssrcs.size());
        ssrcs.insert(request.ssrc);
    }

    while (asked.size() < count) {
        tmmbr_request request = request_of(random, kind);

        request.ssrc = static_cast<std::uint32_t>(random());
        if (ssrcs.insert(request.ssrc).second)
            asked.push_back(request);
    }
    return asked;
}

static tmmbr_kept kept[TMMBR_MAX_REQUESTS];
static tmmbr_implied implied[TMMBR_MAX_REQUESTS];

static Places announced(const Requests &asked)
{
    tmmbr_answer answer =
        tmmbr_announced(asked.data(), asked.size(), kept, TMMBR_MAX_REQUESTS, implied, TMMBR_MAX_REQUESTS);
    Places places;

    if (answer.fault)
        std::exit(1);
    for (std::uint32_t at = 0; at < answer.kept; at++)
        places.push_back(kept[at].place);
    return places;
}

// How many sets were unfaithful, and how many of the others weren't smallest.
struct Count {
    long unfaithful = 0, larger = 0;

    void add(const Requests &asked, const Places &places, std::size_t least)
    {
        if (!is_faithful(asked, places))
            unfaithful++;
        else if (places.size() > least)
            larger++;
    }
};

// The lists that a set was found for, beside a place for what was found, so that nothing is left out.
static volatile std::size_t sink;

// Nanoseconds of a call, the least of some, averaged over the sets.
template <class Call> static double time_of(const std::vector<Requests> &sets, Call call)
{
    double whole = 0;

    for (const Requests &asked : sets) {
        double least = 0;

        for (int run = 0; run < 20; run++) {
            auto begin = std::chrono::steady_clock::now();
            sink = call(asked).size();
            auto end = std::chrono::steady_clock::now();
            double time = std::chrono::duration<double, std::nano>(end - begin).count();
            if (run == 0 || time < least)
                least = time;
        }
        whole += least;
    }
    return whole / static_cast<double>(sets.size());
}

int main(int argc, char **argv)
{
    const long most = argc > 1 ? std::atol(argv[1]) : 10000;
    Random random(argc > 2 ? std::strtoull(argv[2], nullptr, 10) : 1);

    std::printf("| Sets | Owners | Sets made | Announced | float: unfaithful, larger | double | exact |"
                " libtmmbr, ns | float, ns |\n|---|---|---|---|---|---|---|---|---|\n");
    for (Kind kind : kinds)
        for (std::size_t count : {4, 16, 64, 256}) {
            const long sets = std::max(most / (static_cast<long>(count) / 4), 1L);
            Count singles, doubles, exacts;
            std::vector<Requests> some;
            double announced_count = 0;

            for (long at = 0; at < sets; at++) {
                Requests asked = set_of(random, kind, count);
                Places places = announced(asked);
                std::size_t least = region_of(asked).lines;

                if (places.size() != least || !is_faithful(asked, places)) {
                    std::fprintf(stderr, "the library's own set is wrong\n");
                    return 1;
                }
                announced_count += static_cast<double>(places.size());
                singles.add(asked, bounding_set<Rounded<float>>(asked), least);
                doubles.add(asked, bounding_set<Rounded<double>>(asked), least);
                exacts.add(asked, bounding_set<Exact>(asked), least);
                if (some.size() < 100)
                    some.push_back(asked);
            }
            std::printf("| %s | %zu | %ld | %.1f | %ld, %ld | %ld, %ld | %ld, %ld | %.0f | %.0f |\n", name_of(kind), count, sets,
                        announced_count / static_cast<double>(sets), singles.unfaithful, singles.larger, doubles.unfaithful,
                        doubles.larger, exacts.unfaithful, exacts.larger, time_of(some, announced),
                        time_of(some, bounding_set<Rounded<float>>));
            std::fflush(stdout);
        }
}
