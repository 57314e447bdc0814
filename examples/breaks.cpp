// Writes the segments of a text between its breaks, as `lbk segment` does: `S start end kind rule` for each.
//
//     breaks [PROFILE] < TEXT
#include <lbk.hpp>

#include <iostream>
#include <iterator>
#include <string>

static void write_segments(std::string_view text, lbk::profile rules)
{
    static const char *const kinds[] = {"No", "May", "Must"};
    std::size_t start = 0;
    for (lbk_break found : lbk::breaks(text, rules)) {
        std::cout << "S " << start << ' ' << found.at << ' ' << kinds[found.kind] << ' ' << lbk::label(found.rule)
            << '\n';
        start = found.at;
    }
}

int main(int words, char **word)
{
    std::ios::sync_with_stdio(false);
    std::string text{std::istreambuf_iterator<char>(std::cin), {}};
    bool is_second = words > 1 && word[1][0] == '2';
    write_segments(text, is_second ? lbk::profile::second : lbk::profile::first);
    return std::cout.flush() ? 0 : 1;
}
