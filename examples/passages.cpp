/* Tests passages and chunks of lbk.hpp, and its messages about files. It prints what failed.
 *
 *     passages FOLDER     an empty folder, for files of its own
 *
 * The last line is `N passed, M failed`.
 */
#include "harness.hpp"

#include <cstring>
#include <iterator>
#include <stdexcept>
#include <type_traits>
#include <utility>

#include <sys/stat.h>

static_assert(!std::is_constructible_v<lbk::passages, lbk::table, std::string_view>);
static_assert(!std::is_constructible_v<lbk::passages, lbk::table &, std::string>);
static_assert(std::is_constructible_v<lbk::chunks, lbk::table &, std::string &, lbk::limits, lbk::profile>);
static_assert(!std::is_constructible_v<lbk::chunks, lbk::table, std::string_view>);
static_assert(!std::is_constructible_v<lbk::chunks, lbk::table &, std::string>);

#if defined(__cpp_lib_ranges)
static_assert(std::ranges::view<lbk::passages> && std::ranges::forward_range<lbk::passages>);
static_assert(std::ranges::view<lbk::chunks> && std::ranges::forward_range<lbk::chunks>);
#endif

static void try_passages(const lbk_table &table)
{
    const std::string text = "ab c\n\nde \nf";
    std::string joined, segments;
    these starts, words;
    for (lbk::passage one : lbk::passages(table, text)) {
        starts.push_back(one.start);
        joined += one.text;
        for (lbk::segment part : one) {
            segments += part.text;
            segments += '|';
        }
        for (lbk_word word : one.words())
            words.push_back(one.start + word.start);
    }
    report("passages begin behind the ends of lines", starts == these{0, 5, 6, 10});
    report("passages are the text", joined == text);
    report("segments of passages", segments == "ab |c\n|\n|de \n|f|");
    report("words of passages", words == these{0, 3, 6, 10});
    report("no passage of no text", lbk::passages(table, "").begin() == lbk::passages(table, "").end());
    lbk::passages twice(table, text);
    report("passages are gone through again", std::distance(twice.begin(), twice.end()) == std::distance(twice.begin(),
        twice.end()));
}

static void try_chunks(const lbk_table &table)
{
    const std::string text = "one two. three\nfour five six";
    auto shown = [&](const lbk::limits &within) {
        std::string all;
        for (lbk_chunk it : lbk::chunks(table, text, within))
            all += text.substr(it.start, it.end - it.start) + '|';
        return all;
    };
    lbk::limits within;
    within.most = 12;
    report("half of most is the least", shown(within) == "one two. |three\n|four five |six|");
    within.least = 12;
    report("the chunks of a text", shown(within) == "one two. |three\nfour |five six|");
    within.overlap = 5;
    report("chunks with an overlap", shown(within) == "one two. |three\nfour |four five |five six|");
    std::string many, joined;
    for (int k = 0; k < 1000; k++)
        many += "a b ";
    const lbk::chunks range(table, many, within);
    std::size_t at = 0;
    bool is_on = true;
    for (lbk_chunk it : range) {
        is_on = is_on && it.start <= at && at < it.end;
        at = it.end;
    }
    report("more chunks than an iterator holds", is_on && at == many.size());
    report("a chunk that stands alone", lbk::chunks(table, "abcdefghijklmnop", within).begin()->alone);
    report("no chunk of no text", lbk::chunks(table, "").begin() == lbk::chunks(table, "").end());
}

/// The message names the limit that is out of range.
static void try_limits(const lbk_table &table)
{
    lbk::limits none, least, overlap;
    none.most = 0;
    least.least = 501;
    overlap.overlap = 251;
    report("limits in range", lbk::limits().wrong().empty());
    report("no most", none.wrong() == "most must be 1 or more, not 0");
    report("too much least", least.wrong() == "least must be from 0 to most (500), not 501");
    report("too much overlap", overlap.wrong() == "overlap must be from 0 to half of most (500), not 251");
    for (const lbk::limits &one : {none, least, overlap}) {
#if defined(__cpp_exceptions)
        try {
            lbk::chunks(table, "a b", one);
            report("wrong limits are thrown", false);
        } catch (const std::invalid_argument &thrown) {
            report("wrong limits are thrown", thrown.what() == one.wrong());
        }
#else
        report("wrong limits give no chunk", lbk::chunks(table, "a b", one).begin() == lbk::chunks(table, "a b",
            one).end());
#endif
    }
}

/// What a file of another version, or of no version, claims.
static void try_claims(const std::string &folder)
{
    const std::string names[] = {"LineBreak.txt", "EastAsianWidth.txt", "DerivedGeneralCategory.txt", "emoji-data.txt"};
    const std::pair<const char *, const char *> claims[] = {
        {"# LineBreak-14.0.0.txt\n", "this is Unicode 14.0.0, and lbk needs 15.0.0"},
        {"# LineBreak-15.1.txt\n", "this is Unicode 15.1.0, and lbk needs 15.0.0"},
        {"# LineBreak-15.0.0.txt\n",
            "the file was changed or truncated: it differs from Unicode 15.0.0's LineBreak.txt"},
        {"# LineBreak-", "this is not LineBreak.txt of the Unicode Character Database"},
        {"0061;AL\n# LineBreak-14.0.0", "this is not LineBreak.txt of the Unicode Character Database"},
    };
    ::mkdir((folder + "/claims").c_str(), 0700);
    for (const std::string &name : names)
        write(folder + "/claims/" + name, "");
    for (const auto &[first, said] : claims) {
        lbk::error why;
        write(folder + "/claims/LineBreak.txt", first);
        report(said, !lbk::table::try_load(folder + "/claims", why) && why.message() == std::string("LineBreak.txt: ")
            + said);
    }
    const std::pair<const char *, const char *> emoji[] = {
        {"# emoji-data.txt\n# Used with Emoji Version 14.0 and", "this is Emoji 14.0, and lbk needs 15.0"},
        {"# emoji-data\n# Used with Emoji Version 5.0.1", "this is Emoji 5.0.1, and lbk needs 15.0.0"},
        {"# emoji-data-15.0\n", "this is not emoji-data.txt of the Unicode Character Database"},
    };
    for (const auto &[first, said] : emoji) {
        report(said, lbk_claim_text(LBK_EMOJI, first, std::strlen(first)).text == std::string(said));
    }
#if defined(__cpp_exceptions)
    try {
        lbk::table::load(folder + "/claims");
        report("a claim is thrown", false);
    } catch (const lbk::table_error &thrown) {
        report("a claim is thrown", std::string(thrown.what()).find(folder + "/claims/LineBreak.txt: this is not") == 0
                                      && std::strstr(thrown.what(), "15.0.0/ucd/UCD.zip") != nullptr);
    }
#endif
}

int main(int words, char **word)
{
    if (words != 2) {
        std::fprintf(stderr, "usage: passages FOLDER\n");
        return 2;
    }
    std::optional<lbk::table> table = small_table();
    report("the small files have no fault", table.has_value());
    if (table) {
        try_passages(*table);
        try_chunks(*table);
        try_limits(*table);
        try_claims(word[1]);
    }
    return report_all();
}
