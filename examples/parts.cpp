// Writes the segments of a text between its breaks, as breaks.cpp does, but finds them in parts of some 4 KB: each
// could be found by another thread or machine.
//
//     parts [PROFILE] < TEXT
#include <lbk.hpp>

#include <algorithm>
#include <iostream>
#include <iterator>
#include <string>

/// Writes the segments of the part from one byte to another.
static void write_part(std::string_view text, std::size_t from, std::size_t to, lbk::profile rules)
{
    static const char *const kinds[] = {"No", "May", "Must"};
    const lbk::follows after = to < text.size() ? lbk::follows::more : lbk::follows::nothing;
    std::size_t start = from;
    for (lbk_break found : lbk::breaks(text.substr(from, to - from), rules, after)) {
        std::size_t at = from + found.at;
        std::cout << "S " << start << ' ' << at << ' ' << kinds[found.kind] << ' ' << lbk::label(found.rule) << '\n';
        start = at;
    }
}

int main(int words, char **word)
{
    constexpr std::size_t least = 4096;
    std::ios::sync_with_stdio(false);
    std::string text{std::istreambuf_iterator<char>(std::cin), {}};
    bool is_second = words > 1 && word[1][0] == '2';
    for (std::size_t from = 0, to; from < text.size(); from = to) {
        to = lbk::cut(text, std::min(text.size(), from + least));
        write_part(text, from, to, is_second ? lbk::profile::second : lbk::profile::first);
    }
    return std::cout.flush() ? 0 : 1;
}
