// Tries the header for C++; tools/embedded builds and runs it. It tells what differs; the last line is 'N passed, M failed'.
#include "tallowmarch.hpp"

#include <iostream>
#include <thread>

namespace {

int passed = 0, failed = 0;

void count(bool so, const char *what) {
    ++(so ? passed : failed);
    if (!so) std::cout << what << '\n';
}

std::uint32_t code_of(const tallowmarch::Run &run) {
    try {
        run.run();
    } catch (const tallowmarch::Error &error) {
        return error.code();
    }
    return 0;
}

const char *const contexts = "mark {100 {(a) print} repeat} fork mark {100 {(b) print} repeat} fork join cleartomark join cleartomark";

}  // namespace

int main() {
    using tallowmarch::Outcome;
    using tallowmarch::Run;
    const auto sum = Run("1 2 add =").run();
    count(sum.printed == "3\n" && sum.outcome == Outcome::finished && sum.steps == 5 && sum.schedule.size() == 1, "a sum");
    count(Run("").plain().run().printed.empty(), "no program");
    const auto much = Run("10000 {(0123456789) print} repeat").space(4096).run();
    count(much.printed.size() == 100000 && much.printed.substr(99995) == "56789", "output beyond the first room");
    count(Run("10000 {(0123456789) print} repeat").space(4096).rooms(100, 1).run().printed == much.printed, "output beyond a small room");
    count(Run("10000 {(0123456789) print} repeat").space(4096).rooms(100000, 1).run().printed == much.printed, "output that fills its room");
    const auto tight = Run("10 {(0123456789) print} repeat").rooms(0, 0).run();
    count(tight.printed.size() == 100 && tight.schedule.size() == 1, "rooms of nothing");
    const auto made = Run(contexts).quantum(1).run();
    count(made.schedule.size() > 256 && made.printed.size() == 200, "many entries");
    count(Run(contexts).quantum(1).rooms(1, 1).run().schedule.size() == made.schedule.size(), "entries beyond a small room");
    const auto again = Run(contexts).replay(made.schedule);
    count(again.printed == made.printed && again.steps == made.steps && again.schedule.size() == made.schedule.size(), "a replay");
    count(Run("1 =").replay({}).outcome == Outcome::steps_out, "a replay of no step");
    const Run faulty("1 0\n  idiv");
    const auto place = faulty.error_place(faulty.run().schedule);
    count(place && place->step == 3 && place->line == 2 && place->column == 3 && place->offset == 6, "the place of an error");
    count(!Run("1 =").error_place(Run("1 =").run().schedule) && !faulty.error_place({}) && !faulty.error_place({}, 2), "the place of no error");
    const Run built("[(x) 0 /idiv cvx] cvx exec");
    const auto nowhere = built.error_place(built.run().schedule);
    count(nowhere && nowhere->step > 1 && nowhere->line == 1, "the place of what calls an array that was built");
    count(code_of(Run("").space(1)) == TALLOWMARCH_OUT_OF_RANGE && code_of(Run("").quantum(0)) == TALLOWMARCH_OUT_OF_RANGE, "a range");
    const auto cut = Run(contexts).quantum(3).steps(150).run(), whole = Run(contexts).quantum(3).run();
    const auto further = Run(contexts).quantum(3).go_on(cut.schedule);
    count(cut.outcome == Outcome::steps_out && further.outcome == Outcome::finished && further.printed == whole.printed &&
              further.steps == whole.steps && further.schedule.size() == whole.schedule.size(), "a run that goes on");
    count(Run("1 =").go_on({}).printed == "1\n", "a run that goes on from its start");
    try {
        Run("1 =").steps(1000).go_on(cut.schedule);
        count(false, "another schedule");
    } catch (const tallowmarch::Error &error) {
        count(error.code() == TALLOWMARCH_OTHER_SCHEDULE, "another schedule");
    }
    try {
        Run("1 =").replay({{0, 1, 0, 0, 0, 0}});
        count(false, "an entry that is none");
    } catch (const tallowmarch::Error &error) {
        count(error.code() == TALLOWMARCH_BAD_ENTRY, "an entry that is none");
    }
    const auto flood = Run("{(flood) =} loop").output(13).run();
    count(flood.outcome == Outcome::memory && flood.printed == "flood\nflood\n", "a bound on the output");
    count(Run("{} loop").steps(1000).run().outcome == Outcome::steps_out, "steps");
    auto first = Run(contexts).quantum(3).start();
    std::string pieces;
    auto ended = Outcome::steps_out;
    while (ended == Outcome::steps_out) {
        ended = first.advance(7);
        auto second = std::move(first);
        pieces += second.take();
        first = std::move(second);
    }
    const auto slices = first.counts();
    count(ended == Outcome::finished && pieces == whole.printed && slices.steps == whole.steps && slices.bytes == pieces.size(), "slices");
    const auto later = first.entries(3);
    const auto is_same = [](const tallowmarch::Entry &one, const tallowmarch::Entry &other) {
        return one.context == other.context && one.steps == other.steps;
    };
    count(first.entries().size() == slices.entries && later.size() + 3 == whole.schedule.size() &&
              std::equal(later.begin(), later.end(), whole.schedule.begin() + 3, is_same) && first.entries(100000).empty(), "the entries of slices");
    count(first.take().empty() && first.advance(1) == Outcome::finished, "a run that is over");
    const auto refused = [](auto call, std::uint32_t code) {
        try {
            call();
        } catch (const tallowmarch::Error &error) {
            return error.code() == code;
        }
        return false;
    };
    count(refused([&] { first.advance(0); }, TALLOWMARCH_OUT_OF_RANGE), "a slice of no step");
    first.close();
    first.close();
    count(refused([&] { first.advance(1); }, TALLOWMARCH_CLOSED) && refused([&] { first.counts(); }, TALLOWMARCH_CLOSED) && first.take().empty() &&
              first.entries().empty(), "a run that was closed");
    using tallowmarch::definition;
    count(definition("x", -5) == "/x -5 def\n" && definition("on", true) == "/on true def\n" && definition("word", "hi(") == "/word <686928> def\n", "definitions as text");
    count(Run(definition("long", std::string(1000, 'a')) + "long length =").run().printed == "1000\n", "a program behind a definition");
    count(refused([] { definition("a b", 1); }, TALLOWMARCH_BAD_NAME) && refused([] { definition("a", std::string(65536, 'a')); }, TALLOWMARCH_LONG_STRING), "no definitions");
    auto looked = Run("/x 5 def /long 300 string def (text) {} 1 0 idiv").space(4096).start();
    using tallowmarch::Kind;
    count(!looked.operand(0) && !looked.definition("x") && looked.error_name()->kind == Kind::null, "values before the first step");
    looked.advance(1000);
    const auto x = looked.definition("x"), text = looked.operand(3), body = looked.operand(2), raised = looked.error_name(), by = looked.error_command();
    count(x && x->kind == Kind::integer && x->number == 5 && x->bytes.empty() && !looked.definition("y"), "definitions");
    count(text && text->kind == Kind::string && text->bytes == "text" && body && body->kind == Kind::array && body->executable, "operands");
    count(looked.definition("long")->bytes == std::string(300, '\0') && !looked.operand(4), "a string beyond the first room");
    count(raised && raised->kind == Kind::name && raised->bytes == "undefinedresult" && by && by->kind == Kind::operator_ && by->bytes == "idiv", "an error");
    count(refused([&] { looked.operand(0, 2); }, TALLOWMARCH_NO_CONTEXT), "a context that isn't there");
    looked.close();
    count(refused([&] { looked.definition("x"); }, TALLOWMARCH_CLOSED) && refused([&] { looked.error_name(); }, TALLOWMARCH_CLOSED), "values behind close");
    std::atomic<bool> stop{false};
    auto endless = Run("{} loop").start();
    count(endless.advance_until(1000, 300, stop) == Outcome::steps_out && endless.counts().steps == 1000, "slices until steps are made");
    std::thread other([&stop] { stop = true; });
    count(endless.advance_until(4000000000, 1000, stop) == Outcome::steps_out && stop, "slices until another thread stops them");
    other.join();
    count(endless.advance_until(5000, 100, stop) == Outcome::steps_out, "one slice of a run that is to stop");
    count(refused([&] { endless.advance_until(5, 0, stop); }, TALLOWMARCH_OUT_OF_RANGE), "slices of no step");
    count(refused([] { Run("").plain().start(); }, TALLOWMARCH_OUT_OF_RANGE), "a run that stands over memory that grows");
    std::vector<std::thread> threads;
    std::vector<std::string> printed(8);
    for (auto &it : printed) threads.emplace_back([&it] { it = Run(contexts).quantum(1).run().printed; });
    for (auto &it : threads) it.join();
    for (const auto &it : printed) count(it == made.printed, "a run beside seven others");
    std::cout << passed << " passed, " << failed << " failed\n";
    return failed > 0;
}
