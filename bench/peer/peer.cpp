// A peer of `gist serve`: the same lines and the same answers over Boost.Geometry's R-tree, so that both can be measured
// on one input.
//
//     c++ -std=c++17 -O2 -march=x86-64-v2 -DNDEBUG -DBOOST_ALLOW_DEPRECATED_HEADERS -fwrapv -o peer peer.cpp
//     peer [--class interval|box] <lines
//
// It knows these lines. Any other ends it with a message and status 2.
//
//     insert KEY TAG        committed N
//     delete ROW            committed N, refused 14 NoSuchRow, or refused 15 AlreadyDeleted
//     move ROW KEY          as delete
//     find RELATION KEY     found K, and K lines `row R KEY TAG` by rising number
//     sweep                 swept K
//
// RELATION is overlaps, within, holds or same. A row that ends leaves the tree at once, so `sweep` only tells how many
// did since the last one. There are no versions, and so no cursors.

#include <algorithm>
#include <cerrno>
#include <charconv>
#include <cstddef>
#include <cstdint>
#include <cstring>
#include <deque>
#include <exception>
#include <iostream>
#include <iterator>
#include <limits>
#include <optional>
#include <stdexcept>
#include <string>
#include <string_view>
#include <system_error>
#include <vector>

#include <boost/geometry/algorithms/covered_by.hpp>
#include <boost/geometry/core/cs.hpp>
#include <boost/geometry/geometries/box.hpp>
#include <boost/geometry/geometries/point.hpp>
#include <boost/geometry/index/rtree.hpp>

#include <unistd.h>

namespace {

namespace geometry = boost::geometry;
namespace spatial = boost::geometry::index;

/// How many bytes are read and written at once.
constexpr std::size_t block_size = 1 << 16;

/// Words or a line that the peer doesn't know.
class Unknown : public std::runtime_error {
public:
    using std::runtime_error::runtime_error;
};

[[noreturn]] void fail(const char* what)
{
    throw std::system_error(errno, std::generic_category(), what);
}

/// Standard input, cut into lines.
class Input {
public:
    /// Reads more after what is in the buffer; false at the end of the input.
    bool fill()
    {
        std::memmove(block_.data(), block_.data() + start_, end_ - start_);
        end_ -= start_;
        start_ = 0;
        if (end_ == block_.size())
            throw Unknown("a line is longer than any that is known");
        const std::size_t count = read_some(block_.data() + end_, block_.size() - end_);
        end_ += count;
        return count > 0;
    }

    /// The next whole line, without its line feed.
    std::optional<std::string_view> line()
    {
        const std::string_view held = rest();
        const std::size_t length = held.find('\n');
        if (length == std::string_view::npos)
            return std::nullopt;
        start_ += length + 1;
        return held.substr(0, length);
    }

    /// What is in the buffer after the last line that was given.
    std::string_view rest() const { return {block_.data() + start_, end_ - start_}; }

private:
    static std::size_t read_some(char* to, std::size_t most)
    {
        for (;;) {
            const ssize_t count = ::read(STDIN_FILENO, to, most);
            if (count >= 0)
                return static_cast<std::size_t>(count);
            if (errno != EINTR)
                fail("read failed");
        }
    }

    std::vector<char> block_ = std::vector<char>(block_size);
    std::size_t start_ = 0;
    std::size_t end_ = 0;
};

/// Standard output. What is put here is written once the block is full, or when it is flushed.
class Output {
public:
    /// Puts a literal, whose size is known when it is compiled.
    template <std::size_t size>
    Output& text(const char (&literal)[size])
    {
        constexpr std::size_t length = size - 1;
        make_room(length);
        std::memcpy(block_.data() + held_, literal, length);
        held_ += length;
        return *this;
    }

    template <typename Number>
    Output& number(Number value)
    {
        make_room(std::numeric_limits<Number>::digits10 + 2);
        char* const start = block_.data();
        held_ = static_cast<std::size_t>(std::to_chars(start + held_, start + block_.size(), value).ptr - start);
        return *this;
    }

    void flush()
    {
        for (std::size_t written = 0; written < held_;)
            written += write_some(block_.data() + written, held_ - written);
        held_ = 0;
    }

private:
    void make_room(std::size_t count)
    {
        if (block_.size() - held_ < count)
            flush();
    }

    static std::size_t write_some(const char* from, std::size_t most)
    {
        for (;;) {
            const ssize_t count = ::write(STDOUT_FILENO, from, most);
            if (count >= 0)
                return static_cast<std::size_t>(count);
            if (errno != EINTR)
                fail("write failed");
        }
    }

    std::vector<char> block_ = std::vector<char>(block_size);
    std::size_t held_ = 0;
};

bool is_letter(char c) { return 'a' <= c && c <= 'z'; }

bool is_digit(char c) { return '0' <= c && c <= '9'; }

/// A line that is read token by token. Spaces may stand between tokens, and must between words and numbers.
class Line {
public:
    explicit Line(std::string_view text) : text_(text), next_(text.data()), end_(text.data() + text.size()) {}

    std::string_view word()
    {
        skip_spaces();
        const char* const start = next_;
        while (next_ != end_ && is_letter(*next_))
            ++next_;
        check_gap();
        return {start, static_cast<std::size_t>(next_ - start)};
    }

    template <typename Number>
    Number number()
    {
        skip_spaces();
        Number value{};
        const auto [behind, fault] = std::from_chars(next_, end_, value);
        check(fault == std::errc{});
        next_ = behind;
        check_gap();
        return value;
    }

    void bracket(char expected)
    {
        skip_spaces();
        check(next_ != end_ && *next_ == expected);
        ++next_;
    }

    void end()
    {
        skip_spaces();
        check(next_ == end_);
    }

    void check(bool is_known) const
    {
        if (!is_known)
            throw Unknown("this line isn't known: " + std::string(text_));
    }

private:
    void skip_spaces()
    {
        while (next_ != end_ && *next_ == ' ')
            ++next_;
    }

    void check_gap() const { check(next_ == end_ || !(is_letter(*next_) || is_digit(*next_) || *next_ == '-')); }

    std::string_view text_;
    const char* next_;
    const char* end_;
};

/// Intervals `(lo hi)`, both ends inside: boxes of one dimension.
struct Intervals {
    using Point = geometry::model::point<std::int64_t, 1, geometry::cs::cartesian>;
    using Key = geometry::model::box<Point>;

    static Key read(Line& line)
    {
        line.bracket('(');
        const auto low = line.number<std::int64_t>();
        const auto high = line.number<std::int64_t>();
        line.bracket(')');
        line.check(low <= high);
        return {Point(low), Point(high)};
    }

    static void write(const Key& key, Output& output)
    {
        output.text("(").number(key.min_corner().get<0>());
        output.text(" ").number(key.max_corner().get<0>()).text(")");
    }
};

/// Boxes `(x1 y1 x2 y2)`, the sides inside.
struct Boxes {
    using Point = geometry::model::point<std::int32_t, 2, geometry::cs::cartesian>;
    using Key = geometry::model::box<Point>;

    static Key read(Line& line)
    {
        line.bracket('(');
        const auto left = line.number<std::int32_t>();
        const auto low = line.number<std::int32_t>();
        const auto right = line.number<std::int32_t>();
        const auto high = line.number<std::int32_t>();
        line.bracket(')');
        line.check(left <= right && low <= high);
        return {Point(left, low), Point(right, high)};
    }

    static void write(const Key& key, Output& output)
    {
        output.text("(").number(key.min_corner().get<0>());
        output.text(" ").number(key.min_corner().get<1>());
        output.text(" ").number(key.max_corner().get<0>());
        output.text(" ").number(key.max_corner().get<1>()).text(")");
    }
};

/// Rows with keys of a class, and the commits that made them.
template <typename KeyClass>
class Session {
public:
    explicit Session(Output& output) : output_(output) {}

    void answer(Line line)
    {
        const std::string_view verb = line.word();
        if (verb == "insert")
            insert(line);
        else if (verb == "find")
            find(line);
        else if (verb == "delete")
            delete_row(line);
        else if (verb == "move")
            move_row(line);
        else if (verb == "sweep")
            sweep(line);
        else
            line.check(false);
    }

private:
    using Key = typename KeyClass::Key;
    using Tag = std::uint64_t;

    /// A row's number, that of the commit that began it.
    using Row = std::uint32_t;

    /// What the tree holds of a row: all that a find tells of it.
    struct Entry {
        Key key;
        Tag tag;
        Row row;
    };

    struct KeyOfEntry {
        using result_type = const Key&;
        result_type operator()(const Entry& entry) const { return entry.key; }
    };

    struct IsSameRow {
        bool operator()(const Entry& one, const Entry& other) const { return one.row == other.row; }
    };

    /// What the row that a commit began has become.
    enum class State : std::uint8_t { none_began, lives, ended };

    /// The row that a commit began, if it did.
    struct Commit {
        Key key;
        Tag tag;
        State state;
    };

    void insert(Line& line)
    {
        const Key key = KeyClass::read(line);
        const Tag tag = line.number<Tag>();
        line.end();
        begin_row(key, tag);
    }

    void delete_row(Line& line)
    {
        const auto row = line.number<std::uint64_t>();
        line.end();
        if (!check_living(row))
            return;
        end_row(row);
        commit({Key{}, 0, State::none_began});
    }

    void move_row(Line& line)
    {
        const auto row = line.number<std::uint64_t>();
        const Key key = KeyClass::read(line);
        line.end();
        if (!check_living(row))
            return;
        end_row(row);
        begin_row(key, commits_[row - 1].tag);
    }

    void find(Line& line)
    {
        const std::string_view relation = line.word();
        const Key key = KeyClass::read(line);
        line.end();
        found_.clear();
        line.check(search(relation, key));
        std::sort(found_.begin(), found_.end(), [](const Entry& a, const Entry& b) { return a.row < b.row; });
        write_found();
    }

    void sweep(Line& line)
    {
        line.end();
        output_.text("swept ").number(ended_).text("\n");
        ended_ = 0;
    }

    /// Whether a row lives. If it doesn't, the refusal is answered.
    bool check_living(std::uint64_t row)
    {
        if (row == 0 || row > commits_.size() || commits_[row - 1].state == State::none_began) {
            output_.text("refused 14 NoSuchRow\n");
            return false;
        }
        if (commits_[row - 1].state == State::ended) {
            output_.text("refused 15 AlreadyDeleted\n");
            return false;
        }
        return true;
    }

    void begin_row(const Key& key, Tag tag)
    {
        const Row row = commit({key, tag, State::lives});
        tree_.insert({key, tag, row});
    }

    void end_row(std::uint64_t row)
    {
        Commit& begun = commits_[row - 1];
        if (tree_.remove({begun.key, begun.tag, static_cast<Row>(row)}) != 1)
            throw std::logic_error("a living row isn't in the tree");
        begun.state = State::ended;
        ++ended_;
    }

    /// Appends a commit, answers its number, and gives it.
    Row commit(const Commit& made)
    {
        if (commits_.size() == std::numeric_limits<Row>::max())
            throw std::length_error("there are too many commits");
        commits_.push_back(made);
        output_.text("committed ").number(commits_.size()).text("\n");
        return static_cast<Row>(commits_.size());
    }

    /// Adds the rows with a relation to a key to those found; false if no relation has the name.
    bool search(std::string_view relation, const Key& key)
    {
        const auto found = std::back_inserter(found_);
        if (relation == "overlaps")
            tree_.query(spatial::intersects(key), found);
        else if (relation == "within")
            tree_.query(spatial::covered_by(key), found);
        else if (relation == "holds")
            tree_.query(spatial::covers(key), found);
        else if (relation == "same")
            tree_.query(spatial::covers(key) && spatial::covered_by(key), found);
        else
            return false;
        return true;
    }

    void write_found()
    {
        output_.text("found ").number(found_.size()).text("\n");
        for (const Entry& entry : found_) {
            output_.text("row ").number(entry.row).text(" ");
            KeyClass::write(entry.key, output_);
            output_.text(" ").number(entry.tag).text("\n");
        }
    }

    /// The content of a box, by which the tree chooses ways and splits, is a product in `long double`. Each side of it is
    /// first subtracted in the coordinates' own type, and `-fwrapv` lets that wrap where two ends are too far apart. A
    /// wrapped content can make the tree a worse one, but no answer wrong: searches and removals compare ends alone.
    using Tree = spatial::rtree<Entry, spatial::quadratic<16>, KeyOfEntry, IsSameRow>;

    Output& output_;
    Tree tree_;

    /// Commit N stands at N - 1. A deque moves no element when it grows.
    std::deque<Commit> commits_;

    /// How many rows ended since the last sweep.
    std::uint64_t ended_ = 0;

    /// What a search found, kept for the memory that it has.
    std::vector<Entry> found_;
};

/// Answers the lines of standard input. All answers are written before more is read, so a client may wait for them.
template <typename KeyClass>
void answer_lines(Output& output)
{
    Input input;
    Session<KeyClass> session(output);
    while (input.fill()) {
        while (const auto line = input.line())
            session.answer(Line(*line));
        output.flush();
    }
    if (!input.rest().empty())
        session.answer(Line(input.rest()));
}

/// Answers lines up to the first that isn't known.
template <typename KeyClass>
void serve()
{
    Output output;
    try {
        answer_lines<KeyClass>(output);
    } catch (const Unknown&) {
        output.flush();
        throw;
    }
    output.flush();
}

void run(const std::vector<std::string_view>& words)
{
    using Words = std::vector<std::string_view>;
    if (words.empty() || words == Words{"--class", "interval"})
        serve<Intervals>();
    else if (words == Words{"--class", "box"})
        serve<Boxes>();
    else
        throw Unknown("usage: peer [--class interval|box]");
}

}  // namespace

int main(int count, char** words)
{
    try {
        run({words + 1, words + count});
        return 0;
    } catch (const Unknown& why) {
        std::cerr << "peer: " << why.what() << "\n";
        return 2;
    } catch (const std::exception& why) {
        std::cerr << "peer: " << why.what() << "\n";
        return 1;
    }
}
