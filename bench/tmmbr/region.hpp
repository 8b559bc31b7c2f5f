// What some requests permit together, as a polygon in whole numbers: packets per second across, bits of media per second up.
// Found by walking along its upper edge from the left: no sort, no list of candidates.
#pragma once
#include <cstddef>
#include <vector>

#include "heuristic.hpp"

// A corner: `packets` per `seconds`, and `bits` per `seconds`.
struct Corner {
    __int128 packets, bits;
    int seconds;
};

struct Region {
    std::vector<Corner> corners; // of the upper edge, from packet rate 0 on
    std::size_t lines = 0;       // how many requests its upper edge takes
    bool endless = false;        // it has no end to the right
};

inline __int128 overhead_of(const tmmbr_request &r) { return 8 * static_cast<int>(r.overhead); }

// What the request leaves for media at a corner's packet rate, times its seconds.
inline __int128 left_of(const tmmbr_request &r, const Corner &at)
{
    return rate_of(r) * at.seconds - overhead_of(r) * at.packets;
}

inline Region region_of(const std::vector<tmmbr_request> &requests)
{
    Region region;
    const tmmbr_request *line = nullptr;

    for (const tmmbr_request &r : requests)
        if (!line || rate_of(r) < rate_of(*line) || (rate_of(r) == rate_of(*line) && r.overhead > line->overhead))
            line = &r;
    if (!line)
        return region;
    region.corners.push_back({0, rate_of(*line), 1});
    for (;;) {
        const tmmbr_request *next = nullptr;
        Exact nearest = Exact::endless();

        region.lines++;
        // The steeper line that crosses this one first; of several the steepest.
        for (const tmmbr_request &r : requests) {
            if (r.overhead <= line->overhead)
                continue;
            Exact crossing = Exact::ratio(rate_of(r) - rate_of(*line), static_cast<int>(overhead_of(r) - overhead_of(*line)));
            if (!next || crossing < nearest || (crossing <= nearest && r.overhead > next->overhead)) {
                next = &r;
                nearest = crossing;
            }
        }
        Exact end = line->overhead ? Exact::ratio(rate_of(*line), static_cast<int>(overhead_of(*line))) : Exact::endless();
        if (!next || !(nearest < end)) {
            region.endless = !line->overhead;
            if (!region.endless)
                region.corners.push_back({end.above, 0, static_cast<int>(end.below)});
            return region;
        }
        Corner corner{nearest.above, 0, static_cast<int>(nearest.below)};
        corner.bits = left_of(*line, corner);
        region.corners.push_back(corner);
        line = next;
    }
}

// Whether the request permits all of the region. Both are convex, and what is permitted at a corner is below it, too.
inline bool permits_all(const tmmbr_request &r, const Region &region)
{
    if (region.corners.empty() || (region.endless && r.overhead))
        return false;
    for (const Corner &corner : region.corners)
        if (left_of(r, corner) < corner.bits)
            return false;
    return true;
}

// Whether a choice of the requests permits what all of them permit.
inline bool is_faithful(const std::vector<tmmbr_request> &asked, const std::vector<std::size_t> &places)
{
    std::vector<tmmbr_request> choice;

    for (std::size_t place : places)
        choice.push_back(asked[place]);
    Region region = region_of(choice);
    for (const tmmbr_request &r : asked)
        if (!permits_all(r, region))
            return false;
    return true;
}
