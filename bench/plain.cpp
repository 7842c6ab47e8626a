// Zielwart's answers from a plain C++ program, for bench/run to measure beside Zielwart's own code. It was written from docs/.
#include <algorithm>
#include <array>
#include <cstdint>
#include <cstdio>
#include <cstring>
#include <ctime>
#include <fstream>
#include <iterator>
#include <optional>
#include <span>
#include <stdexcept>
#include <string>
#include <vector>

namespace {

using Bytes = std::vector<uint8_t>;
using View = std::span<const uint8_t>;

constexpr unsigned kMostRecords = 64;
constexpr size_t kMostLines = 4032;
constexpr size_t kInputLimit = 4096;
constexpr uint64_t kReadingLimit = uint64_t{1} << 62;
constexpr uint64_t kProgramSteps = 1'000'000;

// ---- what docs/RULES.md and docs/REFUSALS.md name

enum Kind : uint8_t { kLoad = 1, kStore = 2, kFence = 3 };

enum Refusal : uint8_t {
    kMalformed = 1,
    kForeign = 2,
    kFull = 6,
    kStranger = 7,
    kKind = 8,
    kBlank = 9,
    kRange = 10,
    kBackward = 11,
    kTwin = 12,
    kShort = 15,
    kUnfounded = 16,
    kHollow = 17,
};

enum Layer : uint8_t { kRunBytes = 1, kContent = 2, kPaperBytes = 3, kConclusion = 4 };

enum Verdict : uint8_t { kUndecided = 0, kOrder = 1, kOpposed = 2, kOrphan = 3, kExhausted = 4 };

enum Rule : uint8_t { kClock = 1, kModel, kReadsFrom, kInitialRead, kCoherence, kFromRead, kTransitive };

struct Fault {
    Refusal refusal;
    Layer layer;
    size_t place;
};

struct Record {
    uint8_t processor;
    uint8_t kind;
    uint32_t address;
    uint64_t value, enter, commit;
};

struct Line {
    uint8_t rule, first, second, third;
};

bool reads_from(const Record& load, const Record& store) {
    return load.kind == kLoad && load.value != 0 && store.kind == kStore && store.address == load.address && store.value == load.value;
}

bool write_one_address(const Record& x, const Record& y) {
    return x.kind == kStore && y.kind == kStore && x.address == y.address;
}

bool has_third(uint8_t rule) { return rule == kCoherence || rule == kTransitive; }

// A run: its marks and its records, which are numbered from 1.
struct Run {
    uint8_t processors, model, clock;
    std::vector<Record> records;

    unsigned count() const { return records.size(); }
    const Record& at(unsigned number) const { return records[number - 1]; }
    bool has(unsigned number) const { return 1 <= number && number <= count(); }

    bool by_model(unsigned first, unsigned second) const {
        const Record &x = at(first), &y = at(second);
        return first < second && x.processor == y.processor && (model == 1 || y.kind != kLoad || x.kind == kFence);
    }
    bool by_clock(unsigned first, unsigned second) const { return clock == 1 && at(first).commit < at(second).enter; }

    // The store that a record reads, or 0 where it reads none.
    unsigned source(unsigned load) const {
        for (unsigned store = 1; store <= count(); store++)
            if (reads_from(at(load), at(store))) return store;
        return 0;
    }
};

// ---- bytes (docs/FORMAT.md)

struct Field {
    uint8_t tag;
    size_t place;
    View content;
};

uint64_t number_in(View bytes) {
    uint64_t number = 0;
    for (uint8_t byte : bytes) number = number << 8 | byte;
    return number;
}

class Reader {
public:
    Reader(View bytes, Layer layer) : bytes_(bytes), layer_(layer) {}

    Field next() {
        const size_t place = at_, left = bytes_.size() - at_;
        if (left < 3) refuse(place);
        const size_t length = number_in(bytes_.subspan(place + 1, 2));
        if (left - 3 < length) refuse(place);
        at_ = place + 3 + length;
        return {bytes_[place], place, bytes_.subspan(place + 3, length)};
    }
    Field next(uint8_t tag, size_t length) {
        const Field field = next();
        if (field.tag != tag || field.content.size() != length) refuse(field.place);
        return field;
    }
    void finish() const {
        if (at_ != bytes_.size()) refuse(at_);
    }
    [[noreturn]] void refuse(size_t place) const { throw Fault{kMalformed, layer_, place}; }

private:
    View bytes_;
    Layer layer_;
    size_t at_ = 0;
};

void put(Bytes& out, uint64_t number, int width) {
    while (width-- > 0) out.push_back(number >> (8 * width));
}

void put_field(Bytes& out, uint8_t tag, View content) {
    put(out, tag, 1);
    put(out, content.size(), 2);
    out.insert(out.end(), content.begin(), content.end());
}

Record record_in(View content) {
    return {content[0],
            content[1],
            static_cast<uint32_t>(number_in(content.subspan(2, 4))),
            number_in(content.subspan(6, 8)),
            number_in(content.subspan(14, 8)),
            number_in(content.subspan(22, 8))};
}

uint64_t last_enter(const Run& run, uint8_t processor) {
    uint64_t last = 0;
    for (const Record& r : run.records)
        if (r.processor == processor) last = r.enter;
    return last;
}

bool has_twin(const Run& run, const Record& e) {
    return std::ranges::any_of(run.records, [&](const Record& r) { return r.kind == kStore && r.address == e.address && r.value == e.value; });
}

// Why the run does not take the record, if it does not.
std::optional<Refusal> refusal_of(const Run& run, const Record& e) {
    if (run.count() >= kMostRecords) return kFull;
    if (e.processor >= run.processors) return kStranger;
    if (e.kind < kLoad || e.kind > kFence) return kKind;
    if ((e.kind == kStore && e.value == 0) || (e.kind == kFence && (e.address != 0 || e.value != 0))) return kBlank;
    if (e.enter >= kReadingLimit || e.commit >= kReadingLimit) return kRange;
    if (e.commit < e.enter || e.enter < last_enter(run, e.processor)) return kBackward;
    if (e.kind == kStore && has_twin(run, e)) return kTwin;
    return {};
}

// Reads a run. The clock None is served only where it is asked for.
Run read_run(View bytes, bool with_none) {
    Reader reader(bytes, kRunBytes);
    const View head = reader.next(0x01, 3).content;
    Run run{head[0], head[1], head[2], {}};
    if ((run.model != 1 && run.model != 3) || (run.clock != 1 && !(with_none && run.clock == 3))) throw Fault{kForeign, kContent, 0};
    if (run.processors < 1 || run.processors > 16) throw Fault{kStranger, kContent, 0};
    for (;;) {
        const Field field = reader.next();
        if (field.tag == 0x03 && field.content.empty()) break;
        if (field.tag != 0x02 || field.content.size() != 30) reader.refuse(field.place);
        const Record entry = record_in(field.content);
        if (const auto refusal = refusal_of(run, entry)) throw Fault{*refusal, kContent, field.place};
        run.records.push_back(entry);
    }
    reader.finish();
    return run;
}

// ---- what is listed, what is placed and what is read, kept in two ways

// Beside the lists stand tables, in which all of it is looked up.
class Tables {
public:
    explicit Tables(const Run& run) : run_(run) {
        lines.reserve(kMostLines);
        placed.reserve(kMostRecords);
        for (unsigned load = 1; load <= run.count(); load++) source_[load] = run.source(load);
    }

    std::vector<Line> lines;
    std::vector<uint8_t> placed;

    void list(Line line) {
        lines.push_back(line);
        listed_[line.first][line.second] = true;
    }
    void place(unsigned number) {
        placed.push_back(number);
        is_placed_[number] = true;
    }
    unsigned take_back() {
        const unsigned last = placed.back();
        placed.pop_back();
        is_placed_[last] = false;
        return last;
    }
    bool reads(unsigned load, unsigned store) const { return source_[load] == store; }
    unsigned source(unsigned load) const { return source_[load]; }
    bool is_listed(unsigned first, unsigned second) const { return listed_[first][second]; }
    bool is_placed(unsigned number) const { return is_placed_[number]; }
    bool awaits_line(unsigned number) const {
        for (unsigned other = 1; other <= run_.count(); other++)
            if (listed_[other][number] && !is_placed_[other]) return true;
        return false;
    }
    uint64_t value_at(uint32_t address) const {
        for (size_t i = placed.size(); i-- > 0;) {
            const Record& r = run_.at(placed[i]);
            if (r.kind == kStore && r.address == address) return r.value;
        }
        return 0;
    }

private:
    const Run& run_;
    std::array<std::array<bool, kMostRecords + 1>, kMostRecords + 1> listed_{};
    std::array<bool, kMostRecords + 1> is_placed_{};
    std::array<uint8_t, kMostRecords + 1> source_{};
};

// The lists alone, which are gone through at each question, as Zielwart does.
class Lists {
public:
    explicit Lists(const Run& run) : run_(run) {
        lines.reserve(kMostLines);
        placed.reserve(kMostRecords);
    }

    std::vector<Line> lines;
    std::vector<uint8_t> placed;

    void list(Line line) { lines.push_back(line); }
    void place(unsigned number) { placed.push_back(number); }
    unsigned take_back() {
        const unsigned last = placed.back();
        placed.pop_back();
        return last;
    }
    bool reads(unsigned load, unsigned store) const { return reads_from(run_.at(load), run_.at(store)); }
    unsigned source(unsigned load) const { return run_.source(load); }
    bool is_listed(unsigned first, unsigned second) const {
        return std::ranges::any_of(lines, [=](const Line& line) { return line.first == first && line.second == second; });
    }
    bool is_placed(unsigned number) const { return std::memchr(placed.data(), number, placed.size()) != nullptr; }
    bool awaits_line(unsigned number) const {
        return std::ranges::any_of(lines, [&](const Line& line) { return line.second == number && !is_placed(line.first); });
    }
    uint64_t value_at(uint32_t address) const {
        uint64_t value = 0;
        for (uint8_t number : placed) {
            const Record& r = run_.at(number);
            if (r.kind == kStore && r.address == address) value = r.value;
        }
        return value;
    }

private:
    const Run& run_;
};

// ---- inference (docs/INFERENCE.md) and search (docs/SEARCH.md)

template <class Kept>
class Case {
public:
    explicit Case(const Run& run) : run_(run), kept_(run) {}

    bool is_orphan(unsigned number) const {
        const Record& r = run_.at(number);
        return r.kind == kLoad && r.value != 0 && kept_.source(number) == 0;
    }
    void seal() {
        if (run_.count() == 0) verdict_ = kOrder;
        for (unsigned number = run_.count(); number >= 1; number--)
            if (is_orphan(number)) orphan_ = number;
        if (orphan_ != 0) verdict_ = kOrphan;
    }
    // Lists next lines until none follows or one is opposed to a listed one.
    void infer() {
        while (verdict_ == kUndecided) {
            const auto line = next_line();
            if (!line) return;
            kept_.list(*line);
            if (kept_.is_listed(line->second, line->first)) verdict_ = kOpposed;
        }
    }
    void search(uint64_t k) {
        for (; k > 0 && verdict_ == kUndecided; k--) step();
    }
    // Takes a line of a paper, if its pair is new and it follows.
    bool take(Line line) {
        const bool known = run_.has(line.first) && run_.has(line.second) && line.first != line.second;
        if (!known || (has_third(line.rule) ? !run_.has(line.third) : line.third != 0)) return false;
        if (!follows(line) || kept_.is_listed(line.first, line.second)) return false;
        kept_.list(line);
        return true;
    }
    bool last_is_opposed() const {
        return !lines().empty() && kept_.is_listed(lines().back().second, lines().back().first);
    }
    // Places the order record by record, and tells whether each could follow those before it.
    bool is_legal(View order) {
        return std::ranges::all_of(order, [&](uint8_t number) {
            if (!run_.has(number) || !is_placeable(number)) return false;
            kept_.place(number);
            return true;
        });
    }

    const std::vector<Line>& lines() const { return kept_.lines; }
    const std::vector<uint8_t>& placed() const { return kept_.placed; }
    Verdict verdict() const { return verdict_; }
    uint8_t orphan() const { return orphan_; }
    uint64_t steps() const { return steps_; }

private:
    // The rule gives the line, whose records are known and different.
    bool follows(Line line) const {
        const auto [rule, first, second, third] = line;
        const Record &x = run_.at(first), &y = run_.at(second);
        switch (rule) {
            case kClock: return run_.by_clock(first, second);
            case kModel: return run_.by_model(first, second);
            case kReadsFrom: return kept_.reads(second, first);
            case kInitialRead: return x.kind == kLoad && x.value == 0 && y.kind == kStore && y.address == x.address;
            case kCoherence: return kept_.reads(third, second) && write_one_address(x, y) && kept_.is_listed(first, third);
            case kFromRead: return overwrites(kept_.source(first), second);
            case kTransitive: return kept_.is_listed(first, third) && kept_.is_listed(third, second);
            default: return false;
        }
    }
    // The second is another store to the address of this one, and listed behind it.
    bool overwrites(unsigned store, unsigned second) const {
        return store != 0 && store != second && write_one_address(run_.at(store), run_.at(second)) && kept_.is_listed(store, second);
    }
    std::optional<Line> least_of_pair(uint8_t rule, uint8_t first, uint8_t second) const {
        if (first == second) return {};
        if (!has_third(rule)) {
            const Line line{rule, first, second, 0};
            if (follows(line) && !kept_.is_listed(first, second)) return line;
            return {};
        }
        if (kept_.is_listed(first, second)) return {};
        for (uint8_t third = 1; third <= run_.count(); third++)
            if (follows({rule, first, second, third})) return Line{rule, first, second, third};
        return {};
    }
    std::optional<Line> next_line() const {
        for (uint8_t rule = kClock; rule <= kTransitive; rule++)
            for (uint8_t first = 1; first <= run_.count(); first++)
                for (uint8_t second = 1; second <= run_.count(); second++)
                    if (const auto line = least_of_pair(rule, first, second)) return line;
        return {};
    }

    bool awaits_setting(unsigned number) const {
        for (unsigned other = 1; other <= run_.count(); other++)
            if (other != number && (run_.by_model(other, number) || run_.by_clock(other, number)) && !kept_.is_placed(other)) return true;
        return false;
    }
    bool reads_right(unsigned number) const {
        const Record& r = run_.at(number);
        return r.kind != kLoad || r.value == kept_.value_at(r.address);
    }
    bool is_placeable(unsigned number) const {
        return !kept_.is_placed(number) && reads_right(number) && !awaits_setting(number) && !kept_.awaits_line(number);
    }
    void step() {
        steps_++;
        for (unsigned number = mark_ + 1; number <= run_.count(); number++) {
            if (!is_placeable(number)) continue;
            kept_.place(number);
            mark_ = 0;
            if (placed().size() == run_.count()) verdict_ = kOrder;
            return;
        }
        if (placed().empty())
            verdict_ = kExhausted;
        else
            mark_ = kept_.take_back();
    }

    const Run& run_;
    Kept kept_;
    Verdict verdict_ = kUndecided;
    uint8_t orphan_ = 0;
    unsigned mark_ = 0;
    uint64_t steps_ = 0;
};

// ---- the program's answer

template <class Kept>
void put_paper(Bytes& out, const Run& run, const Case<Kept>& decided) {
    if (decided.verdict() == kUndecided || decided.verdict() == kExhausted) return;
    put_field(out, 0x10, std::array<uint8_t, 4>{decided.verdict(), run.model, run.clock, static_cast<uint8_t>(run.count())});
    if (decided.verdict() == kOrder) put_field(out, 0x12, decided.placed());
    if (decided.verdict() == kOrphan) put_field(out, 0x13, std::array{decided.orphan()});
    if (decided.verdict() == kOpposed)
        for (const Line& line : decided.lines()) put_field(out, 0x11, std::array{line.rule, line.first, line.second, line.third});
    put_field(out, 0x1F, {});
}

Bytes notice(const Fault& fault) {
    Bytes out{0x1E, 0, 6, fault.refusal, fault.layer};
    put(out, fault.place, 4);
    return out;
}

template <class Kept>
Bytes answer(View input) try {
    const Run run = read_run(input.first(std::min(input.size(), kInputLimit)), false);
    Case<Kept> checked(run);
    checked.seal();
    checked.infer();
    checked.search(kProgramSteps);
    Bytes out{0x1D, 0, 9, checked.verdict()};
    put(out, checked.steps(), 8);
    put_paper(out, run, checked);
    return out;
} catch (const Fault& fault) {
    return notice(fault);
}

// ---- the referee (docs/REFEREE.md)

void conclude(Reader& reader, const Field& end, bool stands) {
    if (end.tag != 0x1F || !end.content.empty()) reader.refuse(end.place);
    reader.finish();
    if (!stands) throw Fault{kHollow, kConclusion, end.place};
}

template <class Kept>
void judge_lines(Reader& reader, Case<Kept>& judged) {
    for (;;) {
        const Field field = reader.next();
        if (field.tag != 0x11) return conclude(reader, field, judged.last_is_opposed());
        if (field.content.size() != 4) reader.refuse(field.place);
        if (judged.lines().size() == kMostLines) throw Fault{kShort, kConclusion, field.place};
        const View c = field.content;
        if (!judged.take({c[0], c[1], c[2], c[3]})) throw Fault{kUnfounded, kConclusion, field.place};
    }
}

// The verdict of a paper that is accepted.
template <class Kept>
Verdict referee(View run_bytes, View paper) {
    const Run run = read_run(run_bytes, true);
    Case<Kept> judged(run);
    Reader reader(paper, kPaperBytes);
    const View head = reader.next(0x10, 4).content;
    const auto verdict = static_cast<Verdict>(head[0]);
    if (verdict < kOrder || verdict > kOrphan) reader.refuse(0);
    if (head[1] != run.model || head[2] != run.clock || head[3] != run.count()) throw Fault{kForeign, kPaperBytes, 0};
    if (verdict == kOpposed) {
        judge_lines(reader, judged);
    } else if (verdict == kOrder) {
        const View order = reader.next(0x12, run.count()).content;
        conclude(reader, reader.next(), judged.is_legal(order));
    } else {
        const uint8_t load = reader.next(0x13, 1).content[0];
        conclude(reader, reader.next(), run.has(load) && judged.is_orphan(load));
    }
    return verdict;
}

// ---- measuring: the answer goes to standard output, the best times in nanoseconds of processor time to standard error

using Count = unsigned long long;

Count cpu_nanoseconds() {
    timespec now;
    clock_gettime(CLOCK_PROCESS_CPUTIME_ID, &now);
    return now.tv_sec * 1'000'000'000ULL + now.tv_nsec;
}

// Does the work, and keeps the time that it took where it is the best so far.
template <class Work>
void time(Count& best, Work work) {
    const Count start = cpu_nanoseconds();
    work();
    best = std::min(best, cpu_nanoseconds() - start);
}

template <class Kept>
void show(const Case<Kept>& shown) {
    for (const Line& line : shown.lines()) std::printf("line %d %d %d %d\n", line.rule, line.first, line.second, line.third);
    for (uint8_t number : shown.placed()) std::printf("placed %d\n", number);
    std::printf("verdict %d steps %llu\n", shown.verdict(), Count{shown.steps()});
}

// Inference to the end, and then the search, each time anew from the run.
template <class Kept>
void measure_case(int repeats, View bytes) {
    const Run run = read_run(bytes, false);
    Count infer = ~0ULL, search = ~0ULL;
    for (int i = 0; i < repeats; i++) {
        Case<Kept> checked(run);
        checked.seal();
        time(infer, [&] { checked.infer(); });
        time(search, [&] { checked.search(kProgramSteps); });
        if (i == repeats - 1) show(checked);
    }
    std::fprintf(stderr, "%llu %llu\n", infer, search);
}

template <class Kept>
void measure_referee(int repeats, View run, View paper) {
    Count best = ~0ULL;
    std::string line;
    for (int i = 0; i < repeats; i++) {
        time(best, [&] {
            try {
                line = "accepted " + std::to_string(referee<Kept>(run, paper));
            } catch (const Fault& f) {
                line = "refused " + std::to_string(f.refusal) + " layer " + std::to_string(f.layer) + " place " + std::to_string(f.place);
            }
        });
    }
    std::puts(line.c_str());
    std::fprintf(stderr, "%llu\n", best);
}

// From the run's bytes to the answer's.
template <class Kept>
void measure_whole(int repeats, View input) {
    Count best = ~0ULL;
    Bytes out;
    for (int i = 0; i < repeats; i++) time(best, [&] { out = answer<Kept>(input); });
    std::fwrite(out.data(), 1, out.size(), stdout);
    std::fprintf(stderr, "%llu\n", best);
}

Bytes read_file(const std::string& name) {
    std::ifstream file(name, std::ios::binary);
    if (!file) throw std::runtime_error("cannot read " + name);
    return Bytes(std::istreambuf_iterator<char>(file), {});
}

template <class Kept>
void measure(const std::vector<std::string>& words) {
    const std::string part = words.at(0);
    const int repeats = std::stoi(words.at(1));
    const Bytes run = read_file(words.at(2));
    if (part == "case") return measure_case<Kept>(repeats, run);
    if (part == "whole") return measure_whole<Kept>(repeats, run);
    if (part == "referee") return measure_referee<Kept>(repeats, run, read_file(words.at(3)));
    throw std::runtime_error("no such part: " + part);
}

}  // namespace

int main(int count, char** given) try {
    std::vector<std::string> words(given + 1, given + count);
    if (!words.empty() && words[0] == "--lists") {
        measure<Lists>({words.begin() + 1, words.end()});
    } else {
        measure<Tables>(words);
    }
} catch (const Fault& fault) {
    std::fprintf(stderr, "plain: the run is refused, %d layer %d place %zu\n", fault.refusal, fault.layer, fault.place);
    return 1;
} catch (const std::exception& error) {
    std::fprintf(stderr, "usage: plain [--lists] case|whole|referee REPEATS RUN [PAPER]\nplain: %s\n", error.what());
    return 1;
}
