// The bounding set of TMMBRs as RFC 5104, section 3.5.4.2, proposes to find it, step by step, in a number type of the caller's.
// Steps are numbered as there. Of rates of 0 the RFC says nothing: they take part like any other.
#pragma once
#include <algorithm>
#include <cstddef>
#include <cstdint>
#include <limits>
#include <vector>

#include "tmmbr.h"

// A packet rate as a fraction, compared without rounding; `below` 0 is beyond every rate.
struct Exact {
    __int128 above, below;

    static Exact ratio(__int128 above, int below) { return {above, below}; }
    static Exact none() { return {0, 1}; }
    static Exact endless() { return {1, 0}; }
    friend bool operator<(Exact a, Exact b) { return a.above * b.below < b.above * a.below; }
    friend bool operator<=(Exact a, Exact b) { return !(b < a); }
};

// The same in floating point.
template <class Number> struct Rounded {
    Number at;

    static Rounded ratio(__int128 above, int below) { return {static_cast<Number>(above) / static_cast<Number>(below)}; }
    static Rounded none() { return {0}; }
    static Rounded endless() { return {std::numeric_limits<Number>::max()}; }
    friend bool operator<(Rounded a, Rounded b) { return a.at < b.at; }
    friend bool operator<=(Rounded a, Rounded b) { return a.at <= b.at; }
};

// The rate in bits per second.
inline __int128 rate_of(const tmmbr_request &r) { return static_cast<__int128>(r.mantissa) << r.exponent; }

// The places of the tuples that it selects, by rising overhead. Bits per second over bytes per packet: eight times a packet rate.
template <class PacketRate> std::vector<std::size_t> bounding_set(const std::vector<tmmbr_request> &asked)
{
    struct Tuple {
        __int128 rate;
        int overhead;
        std::size_t place;
    };
    struct Selected {
        Tuple tuple;
        PacketRate from; // where it crosses the one before it
        PacketRate to;   // where its net media rate is 0
    };
    auto ends = [](const Tuple &t) { return t.overhead ? PacketRate::ratio(t.rate, t.overhead) : PacketRate::endless(); };

    // 1. By rising overhead. 2. Of one overhead the tuple of the lowest rate.
    std::vector<Tuple> candidates;
    for (std::size_t place = 0; place < asked.size(); place++)
        candidates.push_back({rate_of(asked[place]), static_cast<int>(asked[place].overhead), place});
    std::sort(candidates.begin(), candidates.end(), [](const Tuple &a, const Tuple &b) {
        return a.overhead != b.overhead ? a.overhead < b.overhead : a.rate < b.rate;
    });
    auto same = [](const Tuple &a, const Tuple &b) { return a.overhead == b.overhead; };
    candidates.erase(std::unique(candidates.begin(), candidates.end(), same), candidates.end());
    if (candidates.empty())
        return {};

    // 3. The lowest rate is selected first; of several the one of the highest overhead. 4. Those of lower overhead go.
    auto first = candidates.begin();
    for (auto tuple = candidates.begin(); tuple != candidates.end(); ++tuple)
        if (tuple->rate <= first->rate)
            first = tuple;
    std::vector<Selected> selected{{*first, PacketRate::none(), ends(*first)}};

    // 5. Each tuple after it, in turn. 6. Where does it cross the last one selected?
    for (auto tuple = first + 1; tuple != candidates.end(); ++tuple)
        for (;;) {
            const Selected &last = selected.back();
            PacketRate crossing = PacketRate::ratio(tuple->rate - last.tuple.rate, tuple->overhead - last.tuple.overhead);
            // 7. No further than the last one begins: that one goes, and this one is looked at again.
            if (crossing <= last.from && selected.size() > 1) {
                selected.pop_back();
                continue;
            }
            // 8. Before the last one ends: it is selected. 9. Then the next.
            if (crossing < last.to)
                selected.push_back({*tuple, crossing, ends(*tuple)});
            break;
        }
    std::vector<std::size_t> places;
    for (const Selected &s : selected)
        places.push_back(s.tuple.place);
    return places;
}
