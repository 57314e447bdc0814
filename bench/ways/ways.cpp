// Breaks by the range of lbk.hpp, as ways.c has them.
#include <lbk.hpp>

extern "C" std::size_t cpp_texts(const lbk_table *table, const char *text, std::size_t size, std::size_t piece, std::size_t *total)
{
    std::size_t found = 0, sum = 0;
    for (std::string_view rest(text, size); !rest.empty(); rest.remove_prefix(std::min(piece, rest.size())))
        for (lbk_break one : lbk::breaks(*table, rest.substr(0, piece))) {
            sum += one.at + one.kind;
            found++;
        }
    *total += sum;
    return found;
}

extern "C" std::size_t cpp_words(const lbk_table *, const char *text, std::size_t size, std::size_t, std::size_t *total)
{
    std::size_t found = 0;
    for (lbk_word one : lbk::words(std::string_view(text, size))) {
        *total += one.end;
        found++;
    }
    return found;
}

extern "C" std::size_t cpp_passages(const lbk_table *table, const char *text, std::size_t size, std::size_t,
    std::size_t *total)
{
    std::size_t found = 0;
    for (const lbk::passage &one : lbk::passages(*table, std::string_view(text, size)))
        for (lbk::segment part : one) {
            *total += part.start + part.text.size();
            found++;
        }
    return found;
}

extern "C" std::size_t cpp_chunks(const lbk_table *table, const char *text, std::size_t size, std::size_t overlap, std::size_t *total)
{
    std::size_t found = 0;
    lbk::limits limits;
    limits.overlap = overlap;
    for (const lbk_chunk &one : lbk::chunks(*table, std::string_view(text, size), limits)) {
        *total += one.end;
        found++;
    }
    return found;
}
