// The program yardjudge written by hand: the same input and output, and the same work in the same way.
// Reads lanes from yard.hex in the current folder and a sheet's lines from standard input, and prints one reply a line.
#include <algorithm>
#include <cstdint>
#include <cstdio>
#include <fcntl.h>
#include <optional>
#include <string>
#include <string_view>
#include <tuple>
#include <unistd.h>
#include <utility>
#include <vector>

namespace {

using Bytes = std::vector<uint8_t>;

struct Refusal {
    uint8_t number;
    uint16_t first = 0;
    uint16_t second = 0;
};

struct Lane {
    uint16_t from, to, time;
};

struct Carrier {
    uint16_t start, goal, last_stop, last_place;
};

struct Stop {
    uint8_t carrier;
    uint16_t place;
    std::optional<uint16_t> previous;
};

struct Precedence {
    uint8_t first, second;
    uint16_t place, first_stop, second_stop;
};

struct Lag {
    uint16_t from, to;
    int32_t weight;
};

class Yard {
public:
    Yard() { lanes.reserve(8192); }

    std::optional<Refusal> lay(const std::vector<Lane> &list) {
        if (list.size() > 8192) return Refusal{20};
        for (size_t i = 0; i < list.size(); i++) {
            const Lane &l = list[i];
            uint16_t index = static_cast<uint16_t>(i);
            if (l.from > 4095 || l.to > 4095 || l.from == l.to || l.time < 1 || l.time > 36000) return Refusal{18, index};
            if (i > 0 && !before(list[i - 1], l)) return Refusal{19, index};
        }
        lanes = list;
        return std::nullopt;
    }

    std::optional<uint16_t> travel_time(uint16_t from, uint16_t to) const {
        Lane wanted{from, to, 0};
        auto at = std::lower_bound(lanes.begin(), lanes.end(), wanted, before);
        if (at == lanes.end() || at->from != from || at->to != to) return std::nullopt;
        return at->time;
    }

private:
    std::vector<Lane> lanes;

    static bool before(const Lane &a, const Lane &b) {
        return a.from < b.from || (a.from == b.from && a.to < b.to);
    }
};

using Answer = std::pair<uint16_t, std::optional<Refusal>>;

Answer accepted(size_t number) { return {static_cast<uint16_t>(number), std::nullopt}; }
Answer refused(Refusal why) { return {0, why}; }

class Sheet {
public:
    std::vector<Carrier> carriers;
    std::vector<Stop> stops;
    std::vector<Precedence> precedences;

    Sheet() {
        carriers.reserve(64);
        stops.reserve(1024);
        precedences.reserve(2048);
    }

    Answer enter_carrier(uint16_t start, uint16_t goal) {
        if (start > 4095 || goal > 4095) return refused({5});
        if (carriers.size() >= 64 || stops.size() >= 1024) return refused({1});
        for (const Carrier &c : carriers) {
            if (c.start == start || c.goal == goal) return refused({3});
        }
        size_t number = carriers.size();
        carriers.push_back({start, goal, static_cast<uint16_t>(stops.size()), start});
        stops.push_back({static_cast<uint8_t>(number), start, std::nullopt});
        return accepted(number);
    }

    Answer enter_stop(uint8_t carrier, uint16_t place) {
        if (carrier >= carriers.size()) return refused({2});
        if (place > 4095) return refused({5});
        Carrier &c = carriers[carrier];
        if (c.last_place == c.goal) return refused({4});
        if (stop_at(carrier, place)) return refused({6});
        if (stops.size() >= 1024) return refused({1});
        uint16_t number = static_cast<uint16_t>(stops.size());
        stops.push_back({carrier, place, c.last_stop});
        c.last_stop = number;
        c.last_place = place;
        return accepted(number);
    }

    Answer enter_precedence(uint8_t first, uint8_t second, uint16_t place) {
        if (auto why = check_pair(first, second)) return refused(*why);
        auto first_stop = stop_at(first, place);
        if (!first_stop) return refused({8});
        auto second_stop = stop_at(second, place);
        if (!second_stop) return refused({8});
        if (carriers[first].goal == place || carriers[second].start == place) return refused({9});
        if (index_of(first, second, place) || index_of(second, first, place)) return refused({10});
        if (precedences.size() >= 2048) return refused({1});
        precedences.push_back({first, second, place, *first_stop, *second_stop});
        return accepted(precedences.size());
    }

    Answer strike_precedence(uint8_t first, uint8_t second, uint16_t place) {
        if (auto why = check_pair(first, second)) return refused(*why);
        auto index = index_of(first, second, place);
        if (!index) return refused({11});
        precedences.erase(precedences.begin() + static_cast<long>(*index));
        return accepted(precedences.size());
    }

private:
    std::optional<Refusal> check_pair(uint8_t first, uint8_t second) const {
        if (first >= carriers.size() || second >= carriers.size()) return Refusal{2};
        if (first == second) return Refusal{7};
        return std::nullopt;
    }

    std::optional<uint16_t> stop_at(uint8_t carrier, uint16_t place) const {
        for (size_t i = 0; i < stops.size(); i++) {
            if (stops[i].carrier == carrier && stops[i].place == place) return static_cast<uint16_t>(i);
        }
        return std::nullopt;
    }

    std::optional<size_t> index_of(uint8_t first, uint8_t second, uint16_t place) const {
        for (size_t i = 0; i < precedences.size(); i++) {
            const Precedence &p = precedences[i];
            if (p.first == first && p.second == second && p.place == place) return i;
        }
        return std::nullopt;
    }
};

// Judges a sheet; the arrivals or the ring stay in the pages.
class Judge {
public:
    uint32_t timetable[1024] = {};
    uint16_t ring[1024] = {};

    Answer judge(const Sheet &sheet, const Yard &yard, uint8_t rule, uint16_t gap) {
        const auto &stops = sheet.stops;
        size_t n = stops.size();
        for (size_t c = 0; c < sheet.carriers.size(); c++) {
            if (sheet.carriers[c].last_place != sheet.carriers[c].goal) return refused({13, static_cast<uint16_t>(c)});
        }
        uint16_t times[1024];
        std::optional<uint16_t> nexts[1024];
        for (size_t i = 0; i < n; i++) {
            if (auto previous = stops[i].previous) {
                auto time = yard.travel_time(stops[*previous].place, stops[i].place);
                if (!time) return refused({14, static_cast<uint16_t>(i)});
                times[i] = *time;
                nexts[*previous] = static_cast<uint16_t>(i);
            }
        }
        static bool leads[65536];
        std::fill(std::begin(leads), std::end(leads), false);
        for (const Precedence &p : sheet.precedences) leads[p.first_stop * 64 + p.second] = true;
        uint16_t latest[4096];
        uint16_t later[1024];
        std::fill(std::begin(latest), std::end(latest), 1024);
        for (size_t s = n; s-- > 0;) {
            later[s] = latest[stops[s].place];
            latest[stops[s].place] = static_cast<uint16_t>(s);
        }
        for (size_t s = 0; s < n; s++) {
            for (size_t t = later[s]; t < n; t = later[t]) {
                if (stops[s].carrier != stops[t].carrier &&
                    !leads[s * 64 + stops[t].carrier] && !leads[t * 64 + stops[s].carrier]) {
                    return refused({15, static_cast<uint16_t>(s), static_cast<uint16_t>(t)});
                }
            }
        }
        std::optional<std::pair<uint16_t, uint16_t>> lowest;
        for (const Precedence &p : sheet.precedences) {
            uint16_t t = p.first_stop;
            auto s = stops[p.second_stop].previous;
            if (s && nexts[t] && stops[*nexts[t]].place == stops[*s].place && leads[*s * 64 + p.first]) {
                auto pair = std::make_pair(*s, t);
                if (!lowest || pair < *lowest) lowest = pair;
            }
        }
        if (lowest) return refused({16, lowest->first, lowest->second});
        Lag lags[3072];
        size_t count = 0;
        for (size_t i = 0; i < n; i++) {
            if (stops[i].previous) lags[count++] = {*stops[i].previous, static_cast<uint16_t>(i), times[i]};
        }
        for (const Precedence &p : sheet.precedences) {
            if (auto next = nexts[p.first_stop]) {
                int32_t time = times[*next];
                int32_t behind = rule == 0 ? time : rule == 1 ? time - 1 : gap;
                lags[count++] = {*next, p.second_stop, behind + 1 - time};
            }
        }
        return settle(lags, count, n);
    }

private:
    Answer settle(const Lag *lags, size_t count, size_t n) {
        bool ends[1024] = {};
        size_t rounds = 1;
        for (size_t i = 0; i < count; i++) {
            if (!ends[lags[i].to]) {
                ends[lags[i].to] = true;
                rounds++;
            }
        }
        int64_t arrivals[1024] = {};
        uint16_t parents[1024] = {};
        std::optional<uint16_t> raised;
        for (size_t round = 0; round < rounds; round++) {
            raised = std::nullopt;
            for (size_t i = 0; i < count; i++) {
                int64_t reach = arrivals[lags[i].from] + lags[i].weight;
                if (arrivals[lags[i].to] < reach) {
                    arrivals[lags[i].to] = reach;
                    parents[lags[i].to] = static_cast<uint16_t>(i);
                    raised = lags[i].to;
                }
            }
            if (!raised) break;
        }
        if (!raised) {
            for (size_t i = 0; i < n; i++) timetable[i] = static_cast<uint32_t>(arrivals[i]);
            return accepted(n);
        }
        std::vector<uint16_t> way;
        uint16_t places[1024] = {};
        uint16_t node = *raised;
        while (places[node] == 0) {
            way.push_back(node);
            places[node] = static_cast<uint16_t>(way.size());
            node = lags[parents[node]].from;
        }
        way.erase(way.begin(), way.begin() + (places[node] - 1));
        std::reverse(way.begin(), way.end());
        std::rotate(way.begin(), std::min_element(way.begin(), way.end()), way.end());
        std::copy(way.begin(), way.end(), ring);
        return {static_cast<uint16_t>(way.size()), Refusal{17}};
    }
};

int digit(uint8_t b) {
    if (b >= '0' && b <= '9') return b - '0';
    if (b >= 'A' && b <= 'F') return b - 'A' + 10;
    return -1;
}

uint16_t two(const uint8_t *b) { return static_cast<uint16_t>(b[0] << 8 | b[1]); }

// Decodes a line; a refusal, or how many bytes there are.
std::optional<Refusal> decode(std::string_view line, uint8_t *bytes) {
    if (line.size() > 64) return Refusal{23};
    for (size_t i = 0; i < line.size(); i++) {
        if (digit(static_cast<uint8_t>(line[i])) < 0) return Refusal{22, static_cast<uint16_t>(i)};
    }
    if (line.empty() || line.size() % 2 != 0) return Refusal{23};
    for (size_t i = 0; i < line.size() / 2; i++) {
        bytes[i] = static_cast<uint8_t>(digit(line[2 * i]) * 16 + digit(line[2 * i + 1]));
    }
    return std::nullopt;
}

class Program {
public:
    int run() {
        if (auto why = load_yard()) {
            put_refusal(*why);
            flush();
            return 0;
        }
        char chunk[16384];
        std::string line;
        for (;;) {
            ssize_t count = read(0, chunk, sizeof chunk);
            if (count <= 0) break;
            for (ssize_t i = 0; i < count; i++) {
                if (chunk[i] == '\n') {
                    take(line);
                    line.clear();
                } else if (line.size() < 65) {
                    line.push_back(chunk[i]);
                }
            }
            flush();
        }
        if (!line.empty()) take(line);
        flush();
        return 0;
    }

private:
    Yard yard;
    Sheet sheet;
    Judge judging;
    std::string out;

    std::optional<Refusal> load_yard() {
        std::string text;
        int file = open("yard.hex", O_RDONLY);
        if (file >= 0) {
            char chunk[4096];
            for (;;) {
                ssize_t count = read(file, chunk, sizeof chunk);
                if (count < 0) text.clear();
                if (count <= 0) break;
                text.append(chunk, static_cast<size_t>(count));
            }
            close(file);
        }
        std::vector<Lane> lanes;
        std::string_view rest = text;
        while (!rest.empty()) {
            size_t end = rest.find('\n');
            std::string_view line = rest.substr(0, end);
            rest = end == std::string_view::npos ? std::string_view() : rest.substr(end + 1);
            uint8_t bytes[32];
            if (auto why = decode(line, bytes)) return why;
            if (bytes[0] != 6) return Refusal{24};
            if (line.size() != 14) return Refusal{23};
            lanes.push_back({two(bytes + 1), two(bytes + 3), two(bytes + 5)});
        }
        return yard.lay(lanes);
    }

    void put(uint32_t number, int bytes) {
        for (int shift = 8 * bytes - 4; shift >= 0; shift -= 4) out.push_back("0123456789ABCDEF"[number >> shift & 15]);
    }

    void put_refusal(Refusal why) {
        put(why.number, 1);
        put(why.first, 2);
        put(why.second, 2);
        out.push_back('\n');
    }

    void flush() {
        size_t at = 0;
        while (at < out.size()) {
            ssize_t count = write(1, out.data() + at, out.size() - at);
            if (count <= 0) _exit(1);
            at += static_cast<size_t>(count);
        }
        out.clear();
    }

    void take(std::string_view line) {
        uint8_t b[32];
        if (auto why = decode(line, b)) return put_refusal(*why);
        static const size_t lengths[6] = {0, 10, 8, 10, 10, 8};
        if (b[0] < 1 || b[0] > 5) return put_refusal({24});
        if (line.size() != lengths[b[0]]) return put_refusal({23});
        Answer answer;
        switch (b[0]) {
        case 1:
            answer = sheet.enter_carrier(two(b + 1), two(b + 3));
            break;
        case 2:
            answer = sheet.enter_stop(b[1], two(b + 2));
            break;
        case 3:
            answer = sheet.enter_precedence(b[1], b[2], two(b + 3));
            break;
        case 4:
            answer = sheet.strike_precedence(b[1], b[2], two(b + 3));
            break;
        default:
            uint16_t gap = two(b + 2);
            if (b[1] > 2 || gap > 36000 || (gap != 0 && b[1] < 2)) return put_refusal({25});
            answer = judging.judge(sheet, yard, b[1], gap);
            if (!answer.second) {
                put(0, 1);
                put(answer.first, 2);
                for (size_t i = 0; i < answer.first; i++) put(judging.timetable[i], 4);
                out.push_back('\n');
                return;
            }
            if (answer.second->number == 17) {
                put(17, 1);
                put(answer.first, 2);
                for (size_t i = 0; i < answer.first; i++) put(judging.ring[i], 2);
                out.push_back('\n');
                return;
            }
        }
        if (answer.second) return put_refusal(*answer.second);
        put(0, 1);
        put(answer.first, 2);
        out.push_back('\n');
    }
};

} // namespace

int main() {
    static Program program;
    return program.run();
}
