// lbk.hpp: the breaks of a text as a range. C++17 and later, with exceptions or without (the calls named try_..); lbk.h
// says what the library does, and lists the preconditions.
//
//     for (lbk_break found : lbk::breaks(text))
//         .. found.at, found.kind, found.rule ..
//
// Each range and function decides by the properties of Unicode 15.0, which are in the library, or by a table that it is
// given first: lbk::breaks(table, text).
//
// A kind and a rule are numbers of 8 bits, which std::cout takes for characters: write +found.kind (1 may, 2 must) and
// lbk::label(found.rule).
//
// A range refers to its table and its text, as a std::string_view does, and copies neither: both have to outlive it. So
// a temporary table or std::string does not compile.
#ifndef LBK_HPP
#define LBK_HPP

#if (defined(_MSVC_LANG) ? _MSVC_LANG : __cplusplus) < 201703L
#error "lbk.hpp needs C++17"
#endif

#include <cerrno>
#include <cstddef>
#include <cstdint>
#include <cstdio>
#include <cstdlib>
#include <cstring>
#include <iterator>
#include <memory>
#include <new>
#include <optional>
#include <stdexcept>
#include <string>
#include <string_view>
#include <system_error>
#include <type_traits>
#include <utility>
#include <vector>

#if __has_include(<version>)
#include <version>
#endif
#if defined(__cpp_lib_ranges)
#include <ranges>
#endif

#include <fcntl.h>
#include <sys/mman.h>
#include <sys/stat.h>
#include <unistd.h>

#include "lbk.h"

namespace lbk {

/// The rules for quotation marks.
enum class profile : std::uint8_t { first = LBK_FIRST, second = LBK_SECOND };

/// What follows the given text: nothing, or more of a longer text.
enum class follows : std::uint8_t { nothing = 0, more = LBK_GOES_ON };

/// Why there is no table. It converts to false if there is no error.
struct error {
    enum class reason : std::uint8_t {
        none,
        refused,      ///< the four files have a fault; `fault` is the first one
        unreadable,   ///< a file cannot be read: `fault.file` is its number (0: a saved table), `system` the errno
        not_a_table,  ///< the bytes are not an intact table of this version
        out_of_memory ///< an allocation failed
    };

    reason why = reason::none;
    int system = 0;
    lbk_fault fault = {LBK_NO_FILE, 0, LBK_CAUSE_NONE};
    /// What a file is that is not the published one: "this is Unicode 14.0.0, and lbk needs 15.0.0"; else empty.
    lbk_text claim = {};

    explicit operator bool() const noexcept { return why != reason::none; }

    /// What went wrong, in English. `table` is the name of the file of a saved table, if that is what was read.
    std::string message(const std::string &table = {}) const
    {
        std::string file = fault.file != LBK_NO_FILE || why != reason::unreadable ? lbk_file_name(fault.file).text
            : table.empty() ? "table" : table;
        switch (why) {
        case reason::none:
            return "no error";
        case reason::refused:
            if (fault.line != 0)
                file += ':' + std::to_string(fault.line);
            if (fault.cause >= LBK_CAUSE_NOT_PACKED && fault.cause <= LBK_CAUSE_DAMAGED)
                return lbk_cause_text(fault.cause).text;
            return file + ": " + (claim.text[0] != 0 ? claim : lbk_cause_text(fault.cause)).text;
        case reason::unreadable:
            return file + ": " + std::generic_category().message(system);
        case reason::not_a_table:
            return (table.empty() ? table : table + ": ") + "not an intact table of version " LBK_VERSION;
        case reason::out_of_memory:
            return "out of memory";
        }
        return {};
    }
};

/// Thrown if there is no table; the error says why.
class table_error : public std::runtime_error {
public:
    /// The text is `before` (for example a folder's name), the error's message, and `after`.
    explicit table_error(const lbk::error &why, const std::string &before = {}, const std::string &after = {})
        : std::runtime_error(before + why.message() + after), why_(why)
    {
    }

    const lbk::error &error() const noexcept { return why_; }

private:
    friend class table;

    lbk::error why_;

    /// The text is the error's message of the table with this name.
    table_error(const std::string &table, const lbk::error &why) : std::runtime_error(why.message(table)), why_(why) {}
};

namespace detail {

/// The path FOLDER/BELOW NAME; empty if it is too long.
struct file_path {
    char text[4096];

    file_path(const char *folder, const char *below, const char *name) noexcept
    {
        int length = std::snprintf(text, sizeof text, "%s/%s%s", folder, below, name);
        if (length < 0 || static_cast<std::size_t>(length) >= sizeof text)
            text[0] = 0;
    }
};

/// The bytes of a file.
class file_bytes {
public:
    /// Reads a whole file. Returns 0, or the errno of what failed.
    int read(const file_path &path) noexcept
    {
        if (path.text[0] == 0)
            return ENAMETOOLONG;
        std::FILE *file = std::fopen(path.text, "rb");
        if (file == nullptr)
            return errno;
        int status = read_all(file);
        std::fclose(file);
        return status;
    }

    std::string_view view() const noexcept { return {at_.get(), size_}; }

private:
    struct freed {
        void operator()(char *at) const noexcept { std::free(at); }
    };

    std::unique_ptr<char, freed> at_;
    std::size_t size_ = 0;

    int read_all(std::FILE *file) noexcept
    {
        for (std::size_t room = 0, count = 1; count != 0; size_ += count) {
            if (size_ == room) {
                room = 2 * room + 65536;
                char *more = static_cast<char *>(std::realloc(at_.get(), room));
                if (more == nullptr)
                    return ENOMEM;
                (void)at_.release();
                at_.reset(more);
            }
            errno = 0;
            count = std::fread(at_.get() + size_, 1, room - size_, file);
        }
        return std::ferror(file) != 0 ? errno : 0;
    }
};

} // namespace detail

/// Returns these bytes as a table, without a copy; null if they are not an intact table of this version, or not aligned
/// as one. Use it for a table inside the program, or in other memory.
inline const lbk_table *table_in(std::string_view bytes) noexcept
{
    if (bytes.size() != sizeof(lbk_table) || reinterpret_cast<std::uintptr_t>(bytes.data()) % alignof(lbk_table) != 0)
        return nullptr;
    const lbk_table *made = reinterpret_cast<const lbk_table *>(bytes.data());
    return lbk_check(made) ? made : nullptr;
}

/// A table. It can be moved, not copied; any number of threads may call its const functions. Each other way to make one
/// than unicode() throws std::bad_alloc or table_error; its form try_.. returns no value and sets an error instead.
class table {
public:
    /// Returns the built-in table, of Unicode LBK_UNICODE_VERSION. A process has one, in static memory, which the first
    /// call fills.
    static const table &unicode() noexcept
    {
        static lbk_table filled;
        // (never destroyed, so that threads may use it while the process ends)
        alignas(table) static unsigned char room[sizeof(table)];
        static const table &made = *new (room) table((lbk_unicode(&filled), &filled), kept);
        return made;
    }

    /// Makes a table of the bytes of any four files. If `is_strict`, it refuses a truncated file (LBK_CAUSE_CUT): its
    /// first line claims a name that Unicode published, such as `# LineBreak-15.0.0.txt`, and its last is not `# EOF`.
    static std::optional<table> try_read(std::string_view line_break, std::string_view east_asian,
        std::string_view category, std::string_view emoji, error &why, bool is_strict = true) noexcept
    {
        const std::string_view files[] = {line_break, east_asian, category, emoji};
        for (std::uint32_t k = 0; is_strict && k < 4; k++)
            if (lbk_is_cut(files[k].data(), files[k].size()))
                return none(why, error::reason::refused, 0, {k + 1, 0, LBK_CAUSE_CUT});
        return read_by(lbk_read, line_break, east_asian, category, emoji, why);
    }

    /// Makes a table of a folder of the Unicode Character Database: of its LineBreak.txt, EastAsianWidth.txt,
    /// extracted/DerivedGeneralCategory.txt and emoji/emoji-data.txt. The last two may also be in the folder itself. The
    /// files have to be those that Unicode published for LBK_UNICODE_VERSION.
    static std::optional<table> try_load(const std::string &folder, error &why) noexcept
    {
        static const char *const names[] = {"LineBreak.txt", "EastAsianWidth.txt", "DerivedGeneralCategory.txt",
            "emoji-data.txt"};
        static const char *const below[] = {"", "", "extracted/", "emoji/"};
        detail::file_bytes files[4];
        for (std::uint32_t k = 0; k < 4; k++) {
            int status = files[k].read({folder.c_str(), below[k], names[k]});
            if (status == ENOENT)
                status = files[k].read({folder.c_str(), "", names[k]});
            if (status == ENOMEM)
                return none(why, error::reason::out_of_memory);
            if (status != 0)
                return none(why, error::reason::unreadable, status, {k + 1, 0, LBK_CAUSE_NONE});
        }
        std::optional<table> made =
            read_by(lbk_read_published, files[0].view(), files[1].view(), files[2].view(), files[3].view(), why);
        if (why.fault.cause == LBK_CAUSE_NOT_PUBLISHED)
            why.claim = lbk_claim_text(why.fault.file, files[why.fault.file - 1].view().data(),
                files[why.fault.file - 1].view().size());
        return made;
    }

    /// Copies the bytes of a table, as bytes() returned them.
    static std::optional<table> try_copy(std::string_view bytes, error &why) noexcept
    {
        if (bytes.size() != sizeof(lbk_table))
            return none(why, error::reason::not_a_table);
        lbk_table *made = new (std::nothrow) lbk_table;
        if (made == nullptr)
            return none(why, error::reason::out_of_memory);
        table held(made, freed);
        std::memcpy(made, bytes.data(), sizeof(lbk_table));
        if (!lbk_check(made))
            return none(why, error::reason::not_a_table);
        why = {};
        return held;
    }

    /// Unpacks the bytes that pack() returned. For other bytes `why` has the reason `refused` and the cause.
    static std::optional<table> try_unpack(std::string_view bytes, error &why) noexcept
    {
        lbk_table *made = new (std::nothrow) lbk_table;
        if (made == nullptr)
            return none(why, error::reason::out_of_memory);
        table held(made, freed);
        const std::uint32_t cause = lbk_unpack(made, bytes.data(), bytes.size());
        if (cause != LBK_CAUSE_NONE)
            return none(why, error::reason::refused, 0, {LBK_NO_FILE, 0, cause});
        why = {};
        return held;
    }

    /// Maps a file with the bytes of a table: all processes that map it share its memory.
    static std::optional<table> try_map(const std::string &name, error &why) noexcept
    {
        int file = ::open(name.c_str(), O_RDONLY | O_CLOEXEC);
        if (file < 0)
            return none(why, error::reason::unreadable, errno);
        struct ::stat status;
        bool is_long = ::fstat(file, &status) == 0 && status.st_size == static_cast<::off_t>(sizeof(lbk_table));
        void *mapped = is_long ? ::mmap(nullptr, sizeof(lbk_table), PROT_READ, MAP_SHARED, file, 0) : MAP_FAILED;
        int number = errno;
        ::close(file);
        if (!is_long)
            return none(why, error::reason::not_a_table);
        if (mapped == MAP_FAILED)
            return none(why, error::reason::unreadable, number);
        table held(static_cast<const lbk_table *>(mapped), unmapped);
        if (!lbk_check(&held.get()))
            return none(why, error::reason::not_a_table);
        why = {};
        return held;
    }

#if defined(__cpp_exceptions)
    static table read(std::string_view line_break, std::string_view east_asian, std::string_view category,
        std::string_view emoji, bool is_strict = true)
    {
        error why;
        return or_throw(try_read(line_break, east_asian, category, emoji, why, is_strict), why);
    }

    static table load(const std::string &folder)
    {
        error why;
        std::optional<table> made = try_load(folder, why);
        if (why.why == error::reason::out_of_memory || made)
            return or_throw(std::move(made), why);
        throw table_error(why, folder + '/', why.claim.text[0] != 0 ? std::string("; ") + lbk_remedy_text().text : "");
    }

    static table copy(std::string_view bytes)
    {
        error why;
        return or_throw(try_copy(bytes, why), why);
    }

    static table unpack(std::string_view bytes)
    {
        error why;
        return or_throw(try_unpack(bytes, why), why);
    }

    static table map(const std::string &name)
    {
        error why;
        return or_throw(try_map(name, why), why, name);
    }
#endif

    const lbk_table &get() const & noexcept { return *held_; }
    const lbk_table &get() const && = delete;
    operator const lbk_table &() const & noexcept { return *held_; }
    operator const lbk_table &() const && = delete;

    /// The bytes of the table, to save it to a file. They depend on the machine's byte order.
    std::string_view bytes() const & noexcept { return {reinterpret_cast<const char *>(held_.get()), sizeof(lbk_table)};
        }
    std::string_view bytes() const && = delete;

    /// The table in a packed form of a few kilobytes, for unpack().
    std::string pack() const
    {
        std::string packed(lbk_pack(held_.get(), nullptr, 0), '\0');
        lbk_pack(held_.get(), packed.data(), packed.size());
        return packed;
    }

private:
    using release = void (*)(const lbk_table *);

    std::unique_ptr<const lbk_table, release> held_;

    table(const lbk_table *at, release how) noexcept : held_(at, how) {}

    /// Makes the table of four files by `call`, lbk_read or lbk_read_published.
    static std::optional<table> read_by(decltype(&lbk_read) call, std::string_view line_break,
        std::string_view east_asian, std::string_view category, std::string_view emoji, error &why) noexcept
    {
        lbk_table *made = new (std::nothrow) lbk_table;
        if (made == nullptr)
            return none(why, error::reason::out_of_memory);
        table held(made, freed);
        lbk_fault fault = call(made, line_break.data(), line_break.size(), east_asian.data(), east_asian.size(),
            category.data(), category.size(), emoji.data(), emoji.size());
        if (fault.cause == LBK_CAUSE_OUT_OF_MEMORY)
            return none(why, error::reason::out_of_memory);
        if (fault.cause != LBK_CAUSE_NONE)
            return none(why, error::reason::refused, 0, fault);
        why = {};
        return held;
    }

    static void kept(const lbk_table *) {}
    static void freed(const lbk_table *at) { delete at; }
    static void unmapped(const lbk_table *at) { ::munmap(const_cast<lbk_table *>(at), sizeof(lbk_table)); }

    static std::nullopt_t none(error &why, error::reason reason, int system = 0, lbk_fault fault = {}) noexcept
    {
        why = {};
        why.why = reason;
        why.system = system;
        why.fault = fault;
        return std::nullopt;
    }

#if defined(__cpp_exceptions)
    static table or_throw(std::optional<table> made, const error &why, const std::string &name = {})
    {
        if (made)
            return std::move(*made);
        if (why.why == error::reason::out_of_memory)
            throw std::bad_alloc();
        throw table_error(name, why);
    }
#endif
};

namespace detail {

/// Whether a type is a string that owns its units.
template <typename Text>
struct is_string : std::false_type {};
template <typename Unit, typename Allocator>
struct is_string<std::basic_string<Unit, std::char_traits<Unit>, Allocator>> : std::true_type {};

/// For the parameter `Text &&` of a deleted function, which refuses temporary strings.
template <typename Text>
using if_temporary = std::enable_if_t<is_string<std::remove_const_t<Text>>::value>;

/// An iterator over the results of a library call, which it fetches a block at a time. Copies are independent. It holds
/// a block in the packed form of `Call`, and returns results by value. If not all of a block can be packed, it holds
/// the first `Call::fitting`, at least one.
template <typename Call>
class iterator {
public:
    using value_type = typename Call::value_type;

    /// The result of `it->`.
    class arrow {
    public:
        const value_type *operator->() const noexcept { return &found_; }

    private:
        friend class iterator;

        value_type found_;

        explicit arrow(value_type found) noexcept : found_(found) {}
    };

    using iterator_concept = std::forward_iterator_tag;
    using iterator_category = std::input_iterator_tag;
    using difference_type = std::ptrdiff_t;
    using pointer = arrow;
    using reference = value_type;

    /// The end of any range.
    iterator() noexcept = default;

    explicit iterator(Call call) noexcept : call_(call) { fill(); }

    value_type operator*() const noexcept { return Call::unpacked(block_[next_], base_); }
    arrow operator->() const noexcept { return arrow(**this); }

    iterator &operator++() noexcept
    {
        if (++next_ == count_)
            fill();
        return *this;
    }

    iterator operator++(int) noexcept
    {
        iterator before = *this;
        ++*this;
        return before;
    }

    /// Compares two iterators of one range: the same position, or both the end.
    friend bool operator==(const iterator &a, const iterator &b) noexcept
    {
        if (a.count_ == 0 || b.count_ == 0)
            return a.count_ == b.count_;
        return Call::place(*a) == Call::place(*b);
    }

    friend bool operator!=(const iterator &a, const iterator &b) noexcept { return !(a == b); }

private:
    static constexpr std::size_t room = Call::most;

    Call call_;
    std::size_t base_ = 0;
    std::uint32_t next_ = 0, count_ = 0;
    typename Call::packed block_[room];

    void fill() noexcept
    {
        value_type found[room];
        typename Call::state_type after;
        std::size_t count = call_(found, room, after), fitting = Call::fitting(found, count);
        if (fitting < count)
            count = call_(found, fitting, after);
        call_.go_on(after);
        next_ = 0;
        count_ = static_cast<std::uint32_t>(count);
        base_ = count == 0 ? 0 : Call::place(found[0]);
        for (std::size_t k = 0; k < count; k++)
            block_[k] = Call::pack(found[k], base_);
    }
};

/// The state of lbk_breaks or lbk_positions. It is copied field by field, as it was written: a wider load would stall
/// on the narrower stores. The library gets a copy, so that a loop keeps the rest of an iterator in registers.
class break_state {
public:
    using state_type = lbk_state;

    explicit break_state(int profile = LBK_FIRST) noexcept : now_{0, 0, static_cast<std::uint8_t>(profile), 0} {}

    lbk_state now() const noexcept { return {now_.at, now_.row, now_.profile, now_.ended}; }

    void go_on(const lbk_state &after) noexcept
    {
        now_.at = after.at;
        now_.row = after.row;
        now_.ended = after.ended;
    }

private:
    lbk_state now_;
};

/// The type of lbk_breaks and lbk_positions.
using break_call = decltype(&lbk_breaks);

/// A multi-pass view of what one of these calls returns for a text, in the text's order.
template <break_call Next>
class break_view {
    struct call : break_state {
        using value_type = lbk_break;

        /// `after` is the distance from the first break of the block.
        struct packed {
            std::uint16_t after;
            std::uint8_t kind, rule;
        };

        static constexpr std::size_t most = 48;

        const lbk_table *table = nullptr;
        const char *text = nullptr;
        std::size_t size = 0;

        call() noexcept = default;

        call(const lbk_table &by, std::string_view of, int profile) noexcept
            : break_state(profile), table(&by), text(of.data()), size(of.size())
        {
        }

        std::size_t operator()(lbk_break *block, std::size_t room, lbk_state &after) const noexcept
        {
            after = now();
            return Next(table, &after, text, size, block, room);
        }

        static std::size_t place(lbk_break one) noexcept { return one.at; }
        static std::size_t fitting(const lbk_break *found, std::size_t count) noexcept
        {
            while (count > 1 && found[count - 1].at - found[0].at > UINT16_MAX)
                count--;
            return count;
        }
        static packed pack(lbk_break one, std::size_t base) noexcept
        {
            return {static_cast<std::uint16_t>(one.at - base), one.kind, one.rule};
        }
        static lbk_break unpacked(packed one, std::size_t base) noexcept { return {base + one.after, one.kind,
            one.rule}; }
    };

public:
    using iterator = detail::iterator<call>;
    using const_iterator = iterator;
    using value_type = lbk_break;

    break_view(const lbk_table &by, std::string_view text, profile rules = profile::first) noexcept
        : start_(by, text, static_cast<int>(rules))
    {
    }

    /// The breaks of a part of a text (lbk_positions has no parts).
    template <break_call Of = Next, typename = std::enable_if_t<Of == &lbk_breaks>>
    break_view(const lbk_table &by, std::string_view part, profile rules, follows after) noexcept
        : start_(by, part, static_cast<int>(rules) + static_cast<int>(after))
    {
    }

    /// By the built-in table.
    explicit break_view(std::string_view text, profile rules = profile::first) noexcept
        : break_view(table::unicode(), text, rules)
    {
    }

    template <break_call Of = Next, typename = std::enable_if_t<Of == &lbk_breaks>>
    break_view(std::string_view part, profile rules, follows after) noexcept
        : break_view(table::unicode(), part, rules, after)
    {
    }

    /// A temporary would be destroyed before the range is used.
    break_view(const lbk_table &&, std::string_view, profile = profile::first, follows = follows::nothing) = delete;
    break_view(const table &&, std::string_view, profile = profile::first, follows = follows::nothing) = delete;
    template <typename Text, typename = if_temporary<Text>>
    break_view(const lbk_table &, Text &&, profile = profile::first, follows = follows::nothing) = delete;
    template <typename Text, typename = if_temporary<Text>>
    explicit break_view(Text &&, profile = profile::first, follows = follows::nothing) = delete;

    iterator begin() const noexcept { return iterator(start_); }
    iterator end() const noexcept { return iterator(); }

private:
    call start_;
};

} // namespace detail

/// The breaks of a text in order, as a multi-pass view.
using breaks = detail::break_view<&lbk_breaks>;

/// All positions of a text in order, each with its kind and rule: one before each scalar, and one at the end. Those
/// without a break have the kind LBK_NO.
using positions = detail::break_view<&lbk_positions>;

/// A part of a text between two breaks.
struct segment {
    std::size_t start;
    std::string_view text;
    std::uint8_t kind, rule; ///< of the break at its end
};

/// The segments of a text in order, as a multi-pass view. Joined, they are the text.
class segments {
public:
    class iterator {
    public:
        using value_type = segment;
        using iterator_concept = std::forward_iterator_tag;
        using iterator_category = std::input_iterator_tag;
        using difference_type = std::ptrdiff_t;
        using pointer = void;
        using reference = segment;

        /// The end of any range.
        iterator() noexcept = default;

        iterator(std::string_view text, breaks::iterator next) noexcept : text_(text), next_(next) {}

        segment operator*() const noexcept
        {
            const lbk_break end = *next_;
            return {start_, text_.substr(start_, end.at - start_), end.kind, end.rule};
        }

        iterator &operator++() noexcept
        {
            start_ = (*next_).at;
            ++next_;
            return *this;
        }

        iterator operator++(int) noexcept
        {
            iterator before = *this;
            ++*this;
            return before;
        }

        friend bool operator==(const iterator &a, const iterator &b) noexcept { return a.next_ == b.next_; }
        friend bool operator!=(const iterator &a, const iterator &b) noexcept { return a.next_ != b.next_; }

    private:
        std::string_view text_;
        std::size_t start_ = 0;
        breaks::iterator next_;
    };

    using const_iterator = iterator;
    using value_type = segment;

    segments(const lbk_table &by, std::string_view text, profile rules = profile::first) noexcept
        : text_(text), breaks_(by, text, rules)
    {
    }

    /// By the built-in table.
    explicit segments(std::string_view text, profile rules = profile::first) noexcept
        : segments(table::unicode(), text, rules)
    {
    }

    /// A temporary would be destroyed before the range is used.
    segments(const lbk_table &&, std::string_view, profile = profile::first) = delete;
    segments(const table &&, std::string_view, profile = profile::first) = delete;
    template <typename Text, typename = detail::if_temporary<Text>>
    segments(const lbk_table &, Text &&, profile = profile::first) = delete;
    template <typename Text, typename = detail::if_temporary<Text>>
    explicit segments(Text &&, profile = profile::first) = delete;

    iterator begin() const noexcept { return iterator(text_, breaks_.begin()); }
    iterator end() const noexcept { return iterator(); }

private:
    std::string_view text_;
    breaks breaks_;
};

/// A bit for each byte of a text and one for its end, in 64-bit words with the lowest bit first: set where there is a
/// break.
inline std::vector<std::uint64_t> marks(const lbk_table &by, std::string_view text, profile rules = profile::first,
                                        follows after = follows::nothing)
{
    std::vector<std::uint64_t> words(text.size() / 64 + 1);
    lbk_state state = {0, 0, static_cast<std::uint8_t>(static_cast<int>(rules) + static_cast<int>(after)), 0};
    lbk_marks(&by, &state, text.data(), text.size(), words.data(), words.size());
    return words;
}

inline std::vector<std::uint64_t> marks(std::string_view text, profile rules = profile::first,
                                        follows after = follows::nothing)
{
    return marks(table::unicode(), text, rules, after);
}

/// The first offset at or after `at` where a part of the text may begin: one with a required break, or the text's size
/// if there is none. The parts have the breaks of the text: pass `follows::more` for each except the last, and add the
/// number of bytes before the part to its offsets.
inline std::size_t cut(const lbk_table &by, std::string_view text, std::size_t at) noexcept
{
    return lbk_cut(&by, text.data(), text.size(), at);
}

inline std::size_t cut(std::string_view text, std::size_t at) noexcept { return cut(table::unicode(), text, at); }

/// The last such offset at or before `at`: no break after it depends on the bytes before it.
inline std::size_t cut_before(const lbk_table &by, std::string_view text, std::size_t at) noexcept
{
    return lbk_cut_before(&by, text.data(), text.size(), at);
}

inline std::size_t cut_before(std::string_view text, std::size_t at) noexcept
{
    return cut_before(table::unicode(), text, at);
}

/// The last break before the end of a text, or 0 if there is none (lbk_safe_break). The breaks after it are those of the
/// text that begins there. It reads the last paragraph of the text.
inline std::size_t safe_break(const lbk_table &by, std::string_view text, profile rules = profile::first) noexcept
{
    return lbk_safe_break(&by, static_cast<std::uint8_t>(rules), text.data(), text.size());
}

inline std::size_t safe_break(std::string_view text, profile rules = profile::first) noexcept
{
    return safe_break(table::unicode(), text, rules);
}

/// The words of a text in order, each as its start and end, as a multi-pass view. It needs no table.
class words {
    struct call {
        using value_type = lbk_word;

        using packed = lbk_word;

        static constexpr std::size_t most = 12;

        const char *text = nullptr;
        std::size_t size = 0;
        lbk_word_state state = {0};

        using state_type = lbk_word_state;

        std::size_t operator()(lbk_word *block, std::size_t room, lbk_word_state &after) const noexcept
        {
            after = state;
            return lbk_words(&after, text, size, block, room);
        }

        void go_on(lbk_word_state after) noexcept { state = after; }

        static std::size_t place(lbk_word one) noexcept { return one.start; }
        static std::size_t fitting(const lbk_word *, std::size_t count) noexcept { return count; }
        static lbk_word pack(lbk_word one, std::size_t) noexcept { return one; }
        static lbk_word unpacked(lbk_word one, std::size_t) noexcept { return one; }
    };

public:
    using iterator = detail::iterator<call>;
    using const_iterator = iterator;
    using value_type = lbk_word;

    explicit words(std::string_view text) noexcept : start_{text.data(), text.size(), {0}} {}

    /// A temporary would be destroyed before the range is used.
    template <typename Text, typename = detail::if_temporary<Text>>
    explicit words(Text &&) = delete;

    iterator begin() const noexcept { return iterator(start_); }
    iterator end() const noexcept { return iterator(); }

private:
    call start_;
};

/// A paragraph with its line end: a part of a text up to a required break, as a range of its segments.
class passage {
public:
    std::size_t start;
    std::string_view text;

    passage(std::size_t at, std::string_view of, segments::iterator first, segments::iterator past) noexcept
        : start(at), text(of), first_(first), past_(past)
    {
    }

    segments::iterator begin() const noexcept { return first_; }
    segments::iterator end() const noexcept { return past_; }

    /// Its words, with offsets in `text`.
    lbk::words words() const noexcept { return lbk::words(text); }

private:
    segments::iterator first_, past_;
};

/// The passages of a text in order, as a multi-pass view. Joined, they are the text.
class passages {
public:
    class iterator {
    public:
        using value_type = passage;
        using iterator_concept = std::forward_iterator_tag;
        using iterator_category = std::input_iterator_tag;
        using difference_type = std::ptrdiff_t;
        using pointer = void;
        using reference = passage;

        /// The end of any range.
        iterator() noexcept = default;

        iterator(std::string_view text, segments::iterator first) noexcept : text_(text), first_(first) { find(); }

        passage operator*() const noexcept { return {start_, text_.substr(start_, size_), first_, past_}; }

        iterator &operator++() noexcept
        {
            start_ += size_;
            first_ = past_;
            find();
            return *this;
        }

        iterator operator++(int) noexcept
        {
            iterator before = *this;
            ++*this;
            return before;
        }

        friend bool operator==(const iterator &a, const iterator &b) noexcept { return a.first_ == b.first_; }
        friend bool operator!=(const iterator &a, const iterator &b) noexcept { return !(a == b); }

    private:
        std::string_view text_;
        std::size_t start_ = 0, size_ = 0;
        segments::iterator first_, past_;

        /// Advances from the first segment past the one that ends the passage.
        void find() noexcept
        {
            std::uint8_t kind = LBK_NO;
            for (size_ = 0, past_ = first_; kind != LBK_MUST && past_ != segments::iterator(); ++past_) {
                const segment one = *past_;
                size_ += one.text.size();
                kind = one.kind;
            }
        }
    };

    using const_iterator = iterator;
    using value_type = passage;

    passages(const lbk_table &by, std::string_view text, profile rules = profile::first) noexcept
        : text_(text), segments_(by, text, rules)
    {
    }

    /// By the built-in table.
    explicit passages(std::string_view text, profile rules = profile::first) noexcept
        : passages(table::unicode(), text, rules)
    {
    }

    /// A temporary would be destroyed before the range is used.
    passages(const lbk_table &&, std::string_view, profile = profile::first) = delete;
    passages(const table &&, std::string_view, profile = profile::first) = delete;
    template <typename Text, typename = detail::if_temporary<Text>>
    passages(const lbk_table &, Text &&, profile = profile::first) = delete;
    template <typename Text, typename = detail::if_temporary<Text>>
    explicit passages(Text &&, profile = profile::first) = delete;

    iterator begin() const noexcept { return iterator(text_, segments_.begin()); }
    iterator end() const noexcept { return iterator(); }

private:
    std::string_view text_;
    segments segments_;
};

/// The limits of a chunk.
struct limits {
    std::size_t most = 500;           ///< the most bytes, 1 or more
    std::size_t words = 0;            ///< the most words; 0: any number
    /// a chunk may end early, at a required break, once this many of its bytes are in no earlier one; default: half of
    /// most
    std::size_t least = SIZE_MAX;
    std::size_t overlap = 0;
        ///< the next chunk repeats at most this many bytes of this one, and at most half of it

    lbk_limits get() const noexcept { return {most, words, least == SIZE_MAX ? most / 2 : least, overlap}; }

    /// Says which limit is out of range, in English; empty if none is.
    std::string wrong() const
    {
        const lbk_limits it = get();
        if (it.most == 0)
            return "most must be 1 or more, not 0";
        if (it.least > it.most)
            return "least must be from 0 to most (" + std::to_string(it.most) + "), not " + std::to_string(it.least);
        if (it.overlap > it.most / 2)
            return "overlap must be from 0 to half of most (" + std::to_string(it.most) + "), not "
                + std::to_string(it.overlap);
        return {};
    }
};

/// The chunks of a text for search and retrieval, in order, each as its start and end, as a multi-pass view. Each ends
/// at a break outside words (lbk_chunks). Limits that are out of range throw a std::invalid_argument that says which;
/// without exceptions there are no chunks then.
class chunks {
    struct call {
        using value_type = lbk_chunk;
        using packed = lbk_chunk;
        using state_type = lbk_chunk_state;

        static constexpr std::size_t most = 8;

        const lbk_table *table = nullptr;
        const char *text = nullptr;
        std::size_t size = 0;
        lbk_limits limits = {};
        lbk_chunk_state state = {};

        std::size_t operator()(lbk_chunk *block, std::size_t room, lbk_chunk_state &after) const noexcept
        {
            after = state;
            return lbk_chunks(table, &limits, &after, text, size, block, room);
        }

        void go_on(const lbk_chunk_state &after) noexcept { state = after; }

        static std::size_t place(const lbk_chunk &one) noexcept { return one.start; }
        static std::size_t fitting(const lbk_chunk *, std::size_t count) noexcept { return count; }
        static lbk_chunk pack(const lbk_chunk &one, std::size_t) noexcept { return one; }
        static lbk_chunk unpacked(const lbk_chunk &one, std::size_t) noexcept { return one; }
    };

public:
    using iterator = detail::iterator<call>;
    using const_iterator = iterator;
    using value_type = lbk_chunk;

    chunks(const lbk_table &by, std::string_view text, const limits &within = {}, profile rules = profile::first)
    {
#if defined(__cpp_exceptions)
        if (const std::string wrong = within.wrong(); !wrong.empty())
            throw std::invalid_argument(wrong);
#endif
        start_.table = &by;
        start_.text = text.data();
        start_.size = text.size();
        start_.limits = within.get();
        start_.state.breaks.profile = static_cast<std::uint8_t>(rules);
    }

    /// By the built-in table.
    explicit chunks(std::string_view text, const limits &within = {}, profile rules = profile::first)
        : chunks(table::unicode(), text, within, rules)
    {
    }

    /// A temporary would be destroyed before the range is used.
    chunks(const lbk_table &&, std::string_view, const limits & = {}, profile = profile::first) = delete;
    chunks(const table &&, std::string_view, const limits & = {}, profile = profile::first) = delete;
    template <typename Text, typename = detail::if_temporary<Text>>
    chunks(const lbk_table &, Text &&, const limits & = {}, profile = profile::first) = delete;
    template <typename Text, typename = detail::if_temporary<Text>>
    explicit chunks(Text &&, const limits & = {}, profile = profile::first) = delete;

    iterator begin() const noexcept { return iterator(start_); }
    iterator end() const noexcept { return iterator(); }

private:
    call start_;
};

namespace detail {

/// The breaks of a text of units that arrives in pieces. A unit is a Number to C.
template <typename Unit, typename Number, auto Feed>
class unit_stream {
    static_assert(sizeof(Unit) == sizeof(Number) && alignof(Unit) == alignof(Number));

public:
    explicit unit_stream(const lbk_table &by, profile rules = profile::first) noexcept : table_(&by)
    {
        state_.profile = static_cast<std::uint8_t>(rules);
    }

    /// By the built-in table.
    explicit unit_stream(profile rules = profile::first) noexcept : unit_stream(table::unicode(), rules) {}

    explicit unit_stream(const lbk_table &&, profile = profile::first) = delete;
    explicit unit_stream(const table &&, profile = profile::first) = delete;

    /// Takes the next piece, and calls `found` with each break that it settles. Offsets count from the start of the
    /// text.
    template <typename Found>
    void feed(std::basic_string_view<Unit> piece, Found &&found)
    {
        take(piece, false, found);
    }

    /// Ends the text, and calls `found` with each break that is left. Later calls find nothing.
    template <typename Found>
    void finish(Found &&found)
    {
        take({}, true, found);
    }

private:
    const lbk_table *table_;
    lbk_stream state_ = {};

    template <typename Found>
    void take(std::basic_string_view<Unit> piece, bool last, Found &found)
    {
        constexpr std::size_t room = 64;
        lbk_break block[room];
        lbk_fed fed;
        do {
            fed = Feed(table_, &state_, reinterpret_cast<const Number *>(piece.data()), piece.size(), last, block,
                room);
            piece.remove_prefix(fed.taken);
            for (std::size_t k = 0; k < fed.count; k++)
                found(block[k]);
        } while (fed.count == room);
    }
};

} // namespace detail

/// The breaks of a text that arrives in pieces, cut anywhere. It refers to its table; the table must outlive it. Copies
/// are independent.
using stream = detail::unit_stream<char, char, lbk_feed>;

/// The same for a text in UTF-16, which may also be cut inside a surrogate pair. Offsets are in units.
using stream_utf16 = detail::unit_stream<char16_t, std::uint16_t, lbk_feed_utf16>;

/// The name of a rule without `LB`, such as "8a"; empty for a number that no rule has.
inline std::string label(std::uint8_t rule) { return lbk_label(rule).text; }

/// What a rule says, in one line of English; empty for a number that no rule has.
inline std::string rule_text(std::uint8_t rule) { return lbk_rule_text(rule).text; }

/// The name of a scalar's line breaking class as rule LB1 resolves it, such as "AL"; empty for what is no scalar.
inline std::string class_of(const lbk_table &by, char32_t scalar) { return lbk_class(&by, scalar).text; }

inline std::string class_of(char32_t scalar) { return class_of(table::unicode(), scalar); }

namespace detail {

/// A break_view of UTF-16 or UTF-32. Offsets count units; a Number is a unit's type in C.
template <typename Unit, typename Number, auto Next>
class unit_view {
    static_assert(sizeof(Unit) == sizeof(Number) && alignof(Unit) == alignof(Number));

    struct call : break_state {
        using value_type = lbk_break;

        using packed = lbk_break;

        static constexpr std::size_t most = 12;

        const lbk_table *table = nullptr;
        const Unit *text = nullptr;
        std::size_t size = 0;

        call() noexcept = default;

        call(const lbk_table &by, std::basic_string_view<Unit> of, int profile) noexcept
            : break_state(profile), table(&by), text(of.data()), size(of.size())
        {
        }

        std::size_t operator()(lbk_break *block, std::size_t room, lbk_state &after) const noexcept
        {
            after = now();
            return Next(table, &after, reinterpret_cast<const Number *>(text), size, block, room);
        }

        static std::size_t place(lbk_break one) noexcept { return one.at; }
        static std::size_t fitting(const lbk_break *, std::size_t count) noexcept { return count; }
        static lbk_break pack(lbk_break one, std::size_t) noexcept { return one; }
        static lbk_break unpacked(lbk_break one, std::size_t) noexcept { return one; }
    };

public:
    using iterator = detail::iterator<call>;
    using const_iterator = iterator;
    using value_type = lbk_break;

    unit_view(const lbk_table &by, std::basic_string_view<Unit> text, profile rules = profile::first) noexcept
        : start_(by, text, static_cast<int>(rules))
    {
    }

    /// By the built-in table.
    explicit unit_view(std::basic_string_view<Unit> text, profile rules = profile::first) noexcept
        : unit_view(table::unicode(), text, rules)
    {
    }

    /// A temporary would be destroyed before the range is used.
    unit_view(const lbk_table &&, std::basic_string_view<Unit>, profile = profile::first) = delete;
    unit_view(const table &&, std::basic_string_view<Unit>, profile = profile::first) = delete;
    template <typename Text, typename = if_temporary<Text>>
    unit_view(const lbk_table &, Text &&, profile = profile::first) = delete;
    template <typename Text, typename = if_temporary<Text>>
    explicit unit_view(Text &&, profile = profile::first) = delete;

    iterator begin() const noexcept { return iterator(start_); }
    iterator end() const noexcept { return iterator(); }

private:
    call start_;
};

} // namespace detail

/// The breaks of a text in UTF-16, in order. A lone surrogate is read as U+FFFD.
using breaks_utf16 = detail::unit_view<char16_t, std::uint16_t, &lbk_breaks_utf16>;

/// The breaks of a text in UTF-32, in order. A unit that is not a scalar value is read as U+FFFD.
using breaks_utf32 = detail::unit_view<char32_t, std::uint32_t, &lbk_breaks_utf32>;

/// The same for wide characters, which have 32 bits on all platforms of the library.
using breaks_wide = detail::unit_view<wchar_t, std::uint32_t, &lbk_breaks_utf32>;

/// All positions of a text in UTF-16, UTF-32 or wide characters, like lbk::positions for UTF-8.
using positions_utf16 = detail::unit_view<char16_t, std::uint16_t, &lbk_positions_utf16>;
using positions_utf32 = detail::unit_view<char32_t, std::uint32_t, &lbk_positions_utf32>;
using positions_wide = detail::unit_view<wchar_t, std::uint32_t, &lbk_positions_utf32>;

} // namespace lbk

#if defined(__cpp_lib_ranges)
template <lbk::detail::break_call Next>
inline constexpr bool std::ranges::enable_view<lbk::detail::break_view<Next>> = true;
template <lbk::detail::break_call Next>
inline constexpr bool std::ranges::enable_borrowed_range<lbk::detail::break_view<Next>> = true;
template <>
inline constexpr bool std::ranges::enable_view<lbk::segments> = true;
template <>
inline constexpr bool std::ranges::enable_borrowed_range<lbk::segments> = true;
template <>
inline constexpr bool std::ranges::enable_view<lbk::words> = true;
template <>
inline constexpr bool std::ranges::enable_borrowed_range<lbk::words> = true;
template <>
inline constexpr bool std::ranges::enable_view<lbk::passages> = true;
template <>
inline constexpr bool std::ranges::enable_borrowed_range<lbk::passages> = true;
template <>
inline constexpr bool std::ranges::enable_view<lbk::chunks> = true;
template <>
inline constexpr bool std::ranges::enable_borrowed_range<lbk::chunks> = true;
template <typename Unit, typename Number, auto Next>
inline constexpr bool std::ranges::enable_view<lbk::detail::unit_view<Unit, Number, Next>> = true;
template <typename Unit, typename Number, auto Next>
inline constexpr bool std::ranges::enable_borrowed_range<lbk::detail::unit_view<Unit, Number, Next>> = true;
#endif

#endif
