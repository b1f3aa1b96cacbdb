// The calls from C++: constants, also in an object, and a list in a vector.
#include "const_oid_names.h"
#include "see.h"

#include <algorithm>
#include <type_traits>
#include <vector>

#include "page.cpp.inc" // the blocks of the page, ../README.md

static_assert(const_oid_octets(bake).len == 8 && const_oid_octets(bake).octets[7] == 0x42, "1.2.112.0.2.0.34.101.66");
static_assert(!std::is_convertible<known_octets<9>, const_oid_octets>::value, "the octets of a temporary do not last");

// Each item of a list is found where it is, also from below it, and after it the next one.
static void find_each(const std::vector<const_oid_octets> &items) {
    const const_oid_octets *sorted = items.data();
    const size_t count = items.size();
    for (size_t i = 0; i < count; i++) {
        const uint8_t *octets = items[i].octets;
        const size_t len = items[i].len;
        uint8_t below[16];
        const_oid_range range = {0, 0};
        const_oid_status child = const_oid_push_arc(octets, len, UINT32_MAX, below, sizeof below);
        const_oid_status next = const_oid_next(octets, len, sorted, count);
        SEE(const_oid_subtree_range(octets, len, sorted, count, &range).code == CONST_OID_OK, i);
        SEE(range.start == i && range.end == i + 1, i);
        SEE(const_oid_find(octets, len, sorted, count).len == i, i);
        SEE(const_oid_nearest(below, child.len, sorted, count).len == i, i);
        SEE(next.len == i + 1 && (next.code == CONST_OID_NONE) == (i + 1 == count), i);
    }
}

// The lengths of those of 50 constants, with 1 to 50 octets, that octets are.
#define IS(constant) CONST_OID_IS(octets.data(), octets.size(), constant)
#define TEN(first) \
    IS(first "\x2A"), IS(first "\x2A\0"), IS(first "\x2A\0\3"), IS(first "\x2A\0\3\x7F"), IS(first "\x2A\0\3\x7F\5"), \
        IS(first "\x2A\0\3\x7F\5\1"), IS(first "\x2A\0\3\x7F\5\1\0"), IS(first "\x2A\0\3\x7F\5\1\0\2"), \
        IS(first "\x2A\0\3\x7F\5\1\0\2\6"), IS(first ALL)
#define ALL "\x2A\0\3\x7F\5\1\0\2\6\7"
static std::vector<size_t> constants_of(const std::vector<uint8_t> &octets) {
    const int are[] = {TEN(""), TEN(ALL), TEN(ALL ALL), TEN(ALL ALL ALL), TEN(ALL ALL ALL ALL)};
    std::vector<size_t> lens;
    for (size_t i = 0; i < 50; i++)
        if (are[i])
            lens.push_back(i + 1);
    return lens;
}

// Octets are one constant, unless there are none or one of them is another.
static void compare_with_constants(size_t len) {
    static const char all[] = ALL ALL ALL ALL ALL;
    const std::vector<uint8_t> octets(all, all + len);
    SEE(constants_of(octets) == std::vector<size_t>(len > 0, len), len);
    for (size_t i = 0; i < len; i++)
        for (uint8_t other : {0x00, 0x80, 0x7F, 0xFF}) {
            std::vector<uint8_t> changed = octets;
            changed[i] = other;
            SEE(constants_of(changed) == std::vector<size_t>(changed == octets, len), len);
        }
}

static bool is_invalid(const const_oid_octets &item) {
    return const_oid_check(item.octets, item.len).code != CONST_OID_OK;
}

// Sorts 3,000 items, a third of them invalid. Then the invalid ones are removed, and the others are a list.
int main() {
    std::vector<std::vector<uint8_t>> all;
    std::vector<const_oid_octets> items;
    for (unsigned i = 0; i < 3000; i++) {
        const unsigned number = i * 607 % 3000;
        all.push_back({0x2B, static_cast<uint8_t>(0x81 + number / 128), static_cast<uint8_t>(number % 128), 0x05});
        if (i % 3 == 0)
            all[i] = {0x2B, all[i][1], static_cast<uint8_t>(0x80 + number % 128)};
        items.push_back({all[i].data(), all[i].size()});
    }
    std::sort(items.begin(), items.end(), comes_before);
    SEE(std::is_sorted(items.begin(), items.end(), comes_before), 0);
    for (size_t i = 1; i < items.size(); i++)
        SEE(comes_before(items[i - 1], items[i]), i);
    items.erase(std::remove_if(items.begin(), items.end(), is_invalid), items.end());
    SEE(items.size() == 2000, items.size());
    SEE(const_oid_check_sorted(items.data(), items.size()).code == CONST_OID_OK, 0);
    find_each(items);
    for (size_t len = 0; len <= 50; len++)
        compare_with_constants(len);
}
