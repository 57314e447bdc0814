// What the programs that test lbk.hpp share: reports of cases, small files, and a table of them.
#ifndef LBK_HARNESS_HPP
#define LBK_HARNESS_HPP

#include <lbk.hpp>

#include <cstdio>
#include <optional>
#include <string>
#include <string_view>
#include <vector>

static unsigned passed, failed;

static void report(const char *what, bool holds)
{
    if (holds) {
        passed++;
    } else {
        failed++;
        std::printf("FAILED  %s\n", what);
    }
}

/* Small files: a to z are letters, and U+FFFD is an ideograph. */
static const char LINE_BREAKS[] = "000A;LF\n0020;SP\n0061..007A;AL\n00AB;QU\n00BB;QU\n4E00;ID\nFFFD;ID\n";
static const char CATEGORIES[] = "00AB;Pi\n00BB;Pf\n";

static std::optional<lbk::table> small_table()
{
    lbk::error why;
    return lbk::table::try_read(LINE_BREAKS, "", CATEGORIES, "", why);
}

static bool write(const std::string &name, std::string_view bytes)
{
    std::FILE *file = std::fopen(name.c_str(), "wb");
    bool is_written = file != nullptr && std::fwrite(bytes.data(), 1, bytes.size(), file) == bytes.size();
    return file != nullptr && std::fclose(file) == 0 && is_written;
}

using these = std::vector<std::size_t>;

/* Prints the number of cases. Returns the status of the program. */
static int report_all()
{
    std::printf("%u passed, %u failed\n", passed, failed);
    return failed == 0 ? 0 : 1;
}

#endif
