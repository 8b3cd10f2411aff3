// Tallowmarch for C++17: runs PostScript Level 2 programs in the process of its host. One header over tallowmarch.h.
//
//     tallowmarch::Report report = tallowmarch::Run("1 2 add =").space(4096).run();
//     std::cout << report.printed;
//
// A run also stands between calls, which make slices of it:
//
//     tallowmarch::Standing script = tallowmarch::Run(text).start();
//     while (script.advance(1000) == tallowmarch::Outcome::steps_out) std::cout << script.take();
//     if (const auto error = script.error_name()) std::cout << error->bytes;
//
// Nothing is shared between calls: any number of threads may run programs at once. All memory is the objects' own, and goes with them. A call
// blocks its thread until the program ended or its budget of steps is used up.
#ifndef TALLOWMARCH_HPP
#define TALLOWMARCH_HPP

#include "tallowmarch.h"

#include <algorithm>
#include <atomic>
#include <cstddef>
#include <cstdint>
#include <optional>
#include <random>
#include <stdexcept>
#include <string>
#include <utility>
#include <vector>

namespace tallowmarch {

// How a run ended.
enum class Outcome {
    finished = TALLOWMARCH_FINISHED,        // each context finished, and no error was reported
    faulted = TALLOWMARCH_FAULTED,          // each context finished, and at least one line of an error was printed
    all_waiting = TALLOWMARCH_ALL_WAITING,  // a context is left, and all that are left wait
    steps_out = TALLOWMARCH_STEPS_OUT,      // a context is ready, and the steps are used up
    memory = TALLOWMARCH_MEMORY             // memory was refused, or more was to be printed or scheduled than may be; the report has what was made so far
};

// Why there is no run: `code` is TALLOWMARCH_OUT_OF_RANGE, TALLOWMARCH_NO_ROOM, TALLOWMARCH_OTHER_SCHEDULE, TALLOWMARCH_BAD_ENTRY or
// TALLOWMARCH_CLOSED, and 0 where the library is of another version. TALLOWMARCH_NO_CONTEXT: a context isn't there that is asked for a value.
// TALLOWMARCH_TOO_LARGE: the run is too large to be made again, where the place of an error is asked for.
class Error : public std::runtime_error {
public:
    explicit Error(std::uint32_t code)
        : std::runtime_error(std::string("tallowmarch: ") + (code ? tallowmarch_code_text(code) : "the library is of another version")), code_(code) {}

    std::uint32_t code() const noexcept { return code_; }

private:
    std::uint32_t code_;
};

// Neighbouring steps of one context, and which context made each step of a run: the fields are those of tallowmarch.h.
using Entry = tallowmarch_entry;
using Schedule = std::vector<Entry>;

// How much a run came to so far.
struct Counts {
    std::uint64_t bytes = 0;    // the bytes that it printed
    std::uint64_t entries = 0;  // the entries of its schedule
    std::uint64_t steps = 0;    // its steps
    std::uint64_t flips = 0;    // the collector's cycles
    std::uint64_t taken = 0;    // the stores that the collector had to follow
};

// What a value is.
enum class Kind {
    integer = TALLOWMARCH_INTEGER,
    boolean = TALLOWMARCH_BOOLEAN,
    null = TALLOWMARCH_NULL,
    mark = TALLOWMARCH_MARK,
    name = TALLOWMARCH_NAME,
    operator_ = TALLOWMARCH_OPERATOR,
    array = TALLOWMARCH_ARRAY,  // an executable one is a procedure
    string = TALLOWMARCH_STRING,
    dictionary = TALLOWMARCH_DICTIONARY,
    lock = TALLOWMARCH_LOCK,
    condition = TALLOWMARCH_CONDITION
};

// A value that a run has.
struct Value {
    Kind kind;
    bool executable = false;
    std::int64_t number = 0;   // an integer; of a boolean 1 or 0; of any other value 0
    std::uint64_t length = 0;  // the bytes of a string, name or operator's name; the elements of an array; the pairs of a dictionary; else 0
    std::string bytes;         // of a string, name or operator's name; else empty
};

// Where an error was raised.
struct ErrorPlace {
    std::uint64_t step;        // the number of the step in the run's schedule, from 1
    std::uint64_t line = 0;    // the line and the column in the program, from 1; a column is a byte. Both are 0 where what raised it doesn't stand there
    std::uint64_t column = 0;
    std::uint64_t offset = 0;  // the byte of the program, from 0; 0 too where it doesn't stand there
};

// What a run came to.
struct Report {
    std::string printed;       // the bytes that the program printed
    Schedule schedule;         // which context made each step
    Outcome outcome;           // how it ended
    std::uint64_t steps = 0;   // how many steps were made
    std::uint64_t flips = 0;   // the collector's cycles
    std::uint64_t taken = 0;   // the stores that the collector had to follow
};

namespace detail {

// Throws where the library is of another version than this header.
inline void fit() {
    if (!tallowmarch_fits(tallowmarch_version())) throw Error(0);
}

inline const std::uint8_t *bytes_of(const std::string &text) { return reinterpret_cast<const std::uint8_t *>(text.data()); }

// The rooms that a call is given first, in items.
struct Rooms {
    std::size_t bytes = 16384, entries = 1024;
};

// Calls with rooms of which each is large enough: where one wasn't, the call is made again, which comes to the same run.
template <class Call> Report with_rooms(Rooms first, Call call) {
    fit();
    Report report;
    report.printed.resize(first.bytes);
    report.schedule.resize(std::max<std::size_t>(first.entries, 1));
    for (;;) {
        tallowmarch_counts counts{};
        auto *room = reinterpret_cast<std::uint8_t *>(report.printed.data());
        const std::uint32_t code = call(room, report.printed.size(), report.schedule.data(), report.schedule.size(), counts);
        if (code >= TALLOWMARCH_OUT_OF_RANGE) throw Error(code);
        if (counts.bytes <= report.printed.size() && counts.entries <= report.schedule.size()) {
            report.printed.resize(counts.bytes);
            report.schedule.resize(counts.entries);
            report.outcome = static_cast<Outcome>(code);
            report.steps = counts.steps;
            report.flips = counts.flips;
            report.taken = counts.taken;
            return report;
        }
        report.printed.resize(std::max<std::size_t>(counts.bytes, report.printed.size()));
        report.schedule.resize(std::max<std::size_t>(counts.entries, report.schedule.size()));
    }
}

// Keys that nobody knows.
inline tallowmarch_keys random_keys() {
    std::random_device device;
    const auto number = [&device] { return std::uint64_t{device()} << 32 | device(); };
    const std::uint64_t first = number();
    return {first, number()};
}

}  // namespace detail

namespace detail {

// Calls with a room that is large enough for the text.
template <class Call> std::string defined(std::size_t likely, Call call) {
    fit();
    std::string text(likely, '\0');
    std::uint64_t size = 0;
    for (;;) {
        const std::uint32_t code = call(reinterpret_cast<std::uint8_t *>(text.data()), text.size(), size);
        if (code) throw Error(code);
        const bool whole = size <= text.size();
        text.resize(size);
        if (whole) return text;
    }
}

}  // namespace detail

// The text that defines a name as this value, to be put before a program: `/NAME VALUE def` and a line feed, a string being hexadecimal digits. Throws
// Error where the name is none that a program can have (TALLOWMARCH_BAD_NAME), or the string has more than 65,535 bytes (TALLOWMARCH_LONG_STRING).
inline std::string definition(const std::string &name, std::int32_t number) {
    return detail::defined(160, [&](std::uint8_t *room, std::size_t count, std::uint64_t &size) {
        return tallowmarch_define_integer(detail::bytes_of(name), name.size(), number, room, count, &size);
    });
}

inline std::string definition(const std::string &name, bool truth) {
    return detail::defined(160, [&](std::uint8_t *room, std::size_t count, std::uint64_t &size) {
        return tallowmarch_define_boolean(detail::bytes_of(name), name.size(), truth, room, count, &size);
    });
}

inline std::string definition(const std::string &name, const std::string &bytes) {
    return detail::defined(160 + 2 * bytes.size(), [&](std::uint8_t *room, std::size_t count, std::uint64_t &size) {
        return tallowmarch_define_string(detail::bytes_of(name), name.size(), detail::bytes_of(bytes), bytes.size(), room, count, &size);
    });
}

inline std::string definition(const std::string &name, const char *bytes) { return definition(name, std::string(bytes)); }

// A run that stands between calls: `advance` makes a slice of it, `take` gives what was printed since. It is moved and not copied, belongs to
// one call at a time from whatever thread, and gives all its memory back where it ends. `Run::start` starts one.
class Standing {
public:
    Standing(Standing &&other) noexcept : run_(std::exchange(other.run_, {})), taken_(std::exchange(other.taken_, 0)) {}

    Standing &operator=(Standing &&other) noexcept {
        if (this != &other) {
            close();
            run_ = std::exchange(other.run_, {});
            taken_ = std::exchange(other.taken_, 0);
        }
        return *this;
    }

    ~Standing() { close(); }

    // Makes at most so many steps more, up to 4,294,967,295 in all, and tells how the run would have ended here: with steps_out it may go on, and
    // with memory it tries again. Where slices lie can't be seen in what is printed or in the schedule. Throws Error where no step is asked for,
    // and where no run stands.
    Outcome advance(std::uint32_t steps) {
        const std::uint32_t code = tallowmarch_advance(&run_, steps);
        if (code >= TALLOWMARCH_OUT_OF_RANGE) throw Error(code);
        return static_cast<Outcome>(code);
    }

    // Makes slices of `slice` steps until so many are made in all, until it comes to another end, or until `stop` is true behind one of them, as
    // another thread may set it at any time; one slice is made in any case. A run that was stopped tells steps_out, and may go on. Throws as above.
    Outcome advance_until(std::uint32_t steps, std::uint32_t slice, const std::atomic<bool> &stop) {
        for (;;) {
            const std::uint32_t now = std::min(steps, slice);
            const Outcome outcome = advance(now);
            steps -= now;
            if (outcome != Outcome::steps_out || steps == 0 || stop.load(std::memory_order_relaxed)) return outcome;
        }
    }

    // What was printed since it was taken last; nothing where no run stands.
    std::string take() {
        std::string printed;
        const std::size_t all = tallowmarch_printed(&run_, taken_, nothing(), 0);
        if (all <= taken_) return printed;
        printed.resize(all - taken_);
        tallowmarch_printed(&run_, taken_, reinterpret_cast<std::uint8_t *>(printed.data()), printed.size());
        taken_ = all;
        return printed;
    }

    // The entries of the schedule so far, from one of them on: the next slice may add steps to the last.
    Schedule entries(std::size_t from = 0) {
        Entry none{};
        const std::size_t all = tallowmarch_entries(&run_, 0, &none, 0);
        Schedule schedule(all > from ? all - from : 0);
        if (!schedule.empty()) tallowmarch_entries(&run_, from, schedule.data(), schedule.size());
        return schedule;
    }

    // How much it came to so far. Throws Error where no run stands.
    Counts counts() {
        tallowmarch_counts counts{};
        const std::uint32_t code = tallowmarch_counts_of(&run_, TALLOWMARCH_NUMBERS(counts));
        if (code) throw Error(code);
        return {counts.bytes, counts.entries, counts.steps, counts.flips, counts.taken};
    }

    // The operand of a context below so many others; nothing where it has so few. Throws Error where no context has the identifier, and where no
    // run stands, as the others do that tell values.
    std::optional<Value> operand(std::size_t depth, std::uint32_t context = 1) {
        return told([=](tallowmarch_value &value, std::uint8_t *room, std::size_t count) {
            return tallowmarch_operand(&run_, context, depth, &value, room, count);
        });
    }

    // What `userdict` has under a name, where a program's definitions go; nothing where it has none. All contexts share it.
    std::optional<Value> definition(const std::string &name, std::uint32_t context = 1) {
        return told([&](tallowmarch_value &value, std::uint8_t *room, std::size_t count) {
            return tallowmarch_definition(&run_, context, detail::bytes_of(name), name.size(), &value, room, count);
        });
    }

    // The name of the last error of a context, also of one that was caught, as its `$error` has it: null before the first one.
    std::optional<Value> error_name(std::uint32_t context = 1) {
        return told([=](tallowmarch_value &value, std::uint8_t *room, std::size_t count) {
            return tallowmarch_error_name(&run_, context, &value, room, count);
        });
    }

    // What raised it: null before the first one.
    std::optional<Value> error_command(std::uint32_t context = 1) {
        return told([=](tallowmarch_value &value, std::uint8_t *room, std::size_t count) {
            return tallowmarch_error_command(&run_, context, &value, room, count);
        });
    }

    // Gives the run's memory back. Nothing stands then; a second call does nothing.
    void close() noexcept { tallowmarch_close(&run_); }

private:
    friend class Run;

    Standing(const std::string &program, const tallowmarch_settings &settings) {
        detail::fit();
        const std::uint32_t code = tallowmarch_start(detail::bytes_of(program), program.size(), TALLOWMARCH_NUMBERS(settings), &run_);
        if (code) throw Error(code);
    }

    // Calls with a room that is large enough for the value's bytes.
    template <class Call> static std::optional<Value> told(Call call) {
        tallowmarch_value value{};
        std::string bytes(128, '\0');
        for (;;) {
            const std::uint32_t code = call(value, reinterpret_cast<std::uint8_t *>(bytes.data()), bytes.size());
            if (code == TALLOWMARCH_NO_VALUE) return std::nullopt;
            if (code != 0 && code != TALLOWMARCH_SMALL_ROOM) throw Error(code);
            const bool has_bytes = value.kind == TALLOWMARCH_STRING || value.kind == TALLOWMARCH_NAME || value.kind == TALLOWMARCH_OPERATOR;
            bytes.resize(has_bytes ? value.length : 0);
            if (code == 0) return Value{static_cast<Kind>(value.kind), value.executable != 0, value.number, value.length, std::move(bytes)};
        }
    }

    // Somewhere to point to.
    std::uint8_t *nothing() noexcept { return reinterpret_cast<std::uint8_t *>(&taken_); }

    tallowmarch_standing run_{};
    std::size_t taken_ = 0;
};

// A program with the settings of its run.
class Run {
public:
    // A run in a collected space of 65,536 words, by turns of 100 steps, for 4,294,967,295 steps at most.
    explicit Run(std::string program) : program_(std::move(program)) { settings_.keys = detail::random_keys(); }

    // The words, of 8 bytes, that the program's objects may take: 4,096 to 1,048,576.
    Run &space(std::uint32_t words) { settings_.space = words; return *this; }

    // The most steps of a context's turn: 1 to 65,535.
    Run &quantum(std::uint32_t steps) { settings_.quantum = steps; return *this; }

    // The most steps of the run, at least 1.
    Run &steps(std::uint32_t most) { settings_.steps = most; return *this; }

    // The most bytes that the run may print; 0 is no bound. A step that would print past it ends the run, with Outcome::memory.
    Run &output(std::uint64_t most) { settings_.output = most; return *this; }

    // The most entries that the run's schedule may have; 0 is no bound. A step that wants one more ends the run, with Outcome::memory.
    Run &entries(std::uint64_t most) { settings_.entries = most; return *this; }

    // The bytes and entries that there is room for at first: 16,384 and 1,024, where nothing is said. A run that comes to more is made again, with
    // room for all.
    Run &rooms(std::size_t bytes, std::size_t entries) { rooms_ = {bytes, entries}; return *this; }

    // Memory that grows and is never collected, in place of a collected space.
    Run &plain() { settings_.plain = 1; return *this; }

    // Makes the run. Throws Error where there is none, and std::bad_alloc where the report finds no memory.
    Report run() const {
        return detail::with_rooms(rooms_, [this](std::uint8_t *printed, std::size_t printed_room, Entry *schedule, std::size_t schedule_room,
                                                 tallowmarch_counts &counts) {
            return tallowmarch_run(detail::bytes_of(program_), program_.size(), TALLOWMARCH_NUMBERS(settings_), printed, printed_room, schedule,
                                   schedule_room, TALLOWMARCH_NUMBERS(counts));
        });
    }

    // Goes on from a schedule that a run of this program by these settings was handed, for at most so many steps more as the settings say. The
    // report is of the whole run, from its start, and begins with the given steps and what they printed; but with Outcome::memory it may end
    // before. Throws Error where the schedule is another run's or has an entry that is none, and as run does.
    Report go_on(const Schedule &given) const { return from(tallowmarch_go_on, given); }

    // Follows a schedule of a run of this program, by whatever settings, over memory that grows and is never collected. It prints what that run
    // printed. Of these settings the bound on the output alone counts. With Outcome::memory the report has the schedule as far as it was followed.
    // Throws Error where the schedule has an entry that is none, and as run does.
    Report replay(const Schedule &given) const { return from(tallowmarch_replay, given); }

    // Where a context raised its last error under the steps of a schedule of a run of this program, by whatever settings; also an error that was
    // caught. Nothing where it raised none, or isn't left behind the steps. The steps are made again, which takes some ten times as long as the
    // run. Throws Error where an entry is none, where there is no memory, and with TALLOWMARCH_TOO_LARGE where the run is too large for that.
    std::optional<ErrorPlace> error_place(const Schedule &given, std::uint32_t context = 1) const {
        detail::fit();
        const Entry none{};
        const Entry *entries = given.empty() ? &none : given.data();
        tallowmarch_place place{};
        const std::uint32_t code = tallowmarch_error_place(detail::bytes_of(program_), program_.size(), TALLOWMARCH_NUMBERS(settings_), entries,
                                                           given.size(), context, &place);
        if (code == TALLOWMARCH_NO_VALUE) return std::nullopt;
        if (code) throw Error(code);
        return ErrorPlace{place.step, place.line, place.column, place.offset};
    }

    // Starts a run that stands between calls, before its first step; it has a copy of the program. Its space is collected, and the steps of these
    // settings don't count, since each slice has its own. Throws Error where there is none.
    Standing start() const { return Standing(program_, settings_); }

private:
    Report from(decltype(tallowmarch_replay) *call, const Schedule &given) const {
        const Entry none{};
        const Entry *entries = given.empty() ? &none : given.data();
        return detail::with_rooms(rooms_, [&](std::uint8_t *printed, std::size_t printed_room, Entry *schedule, std::size_t schedule_room,
                                              tallowmarch_counts &counts) {
            return call(detail::bytes_of(program_), program_.size(), TALLOWMARCH_NUMBERS(settings_), entries, given.size(), printed, printed_room,
                        schedule, schedule_room, TALLOWMARCH_NUMBERS(counts));
        });
    }

    std::string program_;
    tallowmarch_settings settings_ = TALLOWMARCH_SETTINGS;
    detail::Rooms rooms_;
};

}  // namespace tallowmarch

#endif
