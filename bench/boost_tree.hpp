// Boost's R-tree as it is compared: quadratic split, at most 100 entries a node and at least 40. Boxes are of the plane, or,
// with -DDIMENSIONS=3, of space.
#include <boost/geometry.hpp>
#include <boost/geometry/index/rtree.hpp>
#include <cstdint>
#include <iterator>
#include <utility>
#include <vector>

#ifndef DIMENSIONS
#define DIMENSIONS 2
#endif

namespace rtrees = boost::geometry::index;
using Point = boost::geometry::model::point<std::int32_t, DIMENSIONS, boost::geometry::cs::cartesian>;
using Box = boost::geometry::model::box<Point>;
using Pair = std::pair<Box, std::uint64_t>;
using Tree = rtrees::rtree<Pair, rtrees::quadratic<100, 40>>;
