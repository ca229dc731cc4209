/*
 * Times the search of an ERE in texts, for bench/match.py: by the automata of libbench_ere.a, and by the libraries that it is compiled with.
 *
 *   match ERE MODE ROUNDS < TEXTS
 *
 * MODE is exists, find (the leftmost longest match) or split (separators, one after the other). The libraries take turns; the least time of
 * each counts; of ours, the time of the same call without a text is taken off, in which the automata are derived. Writes a line for each: its name, the nanoseconds for a text, and the sum of its answers. PCRE2 and Rust's regex prefer the
 * first alternative to the longest match, so their sums may differ for find and split.
 */
#include <regex.h>
#include <algorithm>
#include <cstdint>
#include <cstdio>
#include <cstdlib>
#include <cstring>
#include <ctime>
#include <functional>
#include <iostream>
#include <string>
#include <vector>
#ifdef WITH_RE2
#include <re2/re2.h>
#endif
#ifdef WITH_PCRE2
#define PCRE2_CODE_UNIT_WIDTH 8
#include <pcre2.h>
#endif

extern "C" {
uint64_t prepared_compile(const uint8_t *ere, size_t length, uint64_t *table, size_t words);
uint64_t texts_matching(const uint64_t *table, size_t words, const uint8_t *texts, size_t length, const uint64_t *ends, size_t count);
uint64_t texts_sought(const uint64_t *table, size_t words, const uint8_t *texts, size_t length, const uint64_t *ends, size_t count, uint64_t split);
#ifdef WITH_RUST
void *rust_compile(const uint8_t *ere, size_t length);
uint64_t rust_next(void *re, const uint8_t *text, size_t length, size_t at, size_t *end);
uint64_t rust_exists(void *re, const uint8_t *text, size_t length);
#endif
}

static const size_t WORDS = 907; /* of a table: ere_table::TABLE_WORDS */
static uint64_t table[WORDS];
static std::vector<std::string> texts;
static std::string joined;
static std::vector<uint64_t> ends;

struct Span { size_t start, end; };
/* A library: whether there is a match; and the match from a place on, if there is. */
struct Library {
    std::string name;
    std::function<bool(const std::string &)> exists;
    std::function<bool(const std::string &, size_t, Span &)> next;
};
struct Timed { std::string name; std::function<uint64_t()> run; double least; uint64_t sum; };

static double now()
{
    timespec t;
    clock_gettime(CLOCK_PROCESS_CPUTIME_ID, &t);
    return t.tv_sec * 1e9 + t.tv_nsec;
}

static uint64_t answer(const Library &l, const std::string &mode, const std::string &text)
{
    Span s;
    if (mode == "exists")
        return l.exists(text);
    if (mode == "find")
        return l.next(text, 0, s) ? s.start * 1024 + (s.end - s.start) + 1 : 0;
    uint64_t count = 0;
    for (size_t at = 0; at < text.size() && l.next(text, at, s) && s.end > at; at = s.end)
        count++;
    return count;
}

static std::vector<Library> libraries(const std::string &ere)
{
    std::vector<Library> all;
    static regex_t plain, spans;
    regcomp(&plain, ere.c_str(), REG_EXTENDED | REG_NOSUB);
    regcomp(&spans, ere.c_str(), REG_EXTENDED);
    all.push_back({"regexec", [](const std::string &x) { return regexec(&plain, x.c_str(), 0, nullptr, 0) == 0; },
        [](const std::string &x, size_t at, Span &s) {
            regmatch_t m[1] = {{(regoff_t)at, (regoff_t)x.size()}};
            if (regexec(&spans, x.c_str(), 1, m, REG_STARTEND))
                return false;
            s = {(size_t)m[0].rm_so, (size_t)m[0].rm_eo};
            return true;
        }});
#ifdef WITH_RE2
    RE2::Options o;
    o.set_longest_match(true);
    o.set_dot_nl(true);
    o.set_encoding(RE2::Options::EncodingLatin1);
    o.set_posix_syntax(true);
    o.set_one_line(true);
    static RE2 *re2;
    re2 = new RE2(ere, o);
    all.push_back({"RE2", [](const std::string &x) { return re2->Match(x, 0, x.size(), RE2::UNANCHORED, nullptr, 0); },
        [](const std::string &x, size_t at, Span &s) {
            re2::StringPiece m;
            if (!re2->Match(x, at, x.size(), RE2::UNANCHORED, &m, 1))
                return false;
            s.start = m.data() - x.data();
            s.end = s.start + m.size();
            return true;
        }});
#endif
#ifdef WITH_PCRE2
    int error;
    PCRE2_SIZE where;
    static pcre2_code *code;
    static pcre2_match_data *data;
    code = pcre2_compile((PCRE2_SPTR)ere.c_str(), ere.size(), PCRE2_DOTALL | PCRE2_DOLLAR_ENDONLY, &error, &where, nullptr);
    pcre2_jit_compile(code, PCRE2_JIT_COMPLETE);
    data = pcre2_match_data_create(16, nullptr);
    all.push_back({"PCRE2", [](const std::string &x) { return pcre2_jit_match(code, (PCRE2_SPTR)x.data(), x.size(), 0, 0, data, nullptr) > 0; },
        [](const std::string &x, size_t at, Span &s) {
            if (pcre2_jit_match(code, (PCRE2_SPTR)x.data(), x.size(), at, 0, data, nullptr) <= 0)
                return false;
            s = {pcre2_get_ovector_pointer(data)[0], pcre2_get_ovector_pointer(data)[1]};
            return true;
        }});
#endif
#ifdef WITH_RUST
    static void *rust;
    rust = rust_compile((const uint8_t *)ere.data(), ere.size());
    all.push_back({"Rust regex", [](const std::string &x) { return rust_exists(rust, (const uint8_t *)x.data(), x.size()) != 0; },
        [](const std::string &x, size_t at, Span &s) {
            uint64_t start = rust_next(rust, (const uint8_t *)x.data(), x.size(), at, &s.end);
            s.start = start - 1;
            return start != 0;
        }});
#endif
    return all;
}

/* The answers for the first texts, by automata that are derived in each call. */
static uint64_t ours(const std::string &mode, size_t count)
{
    auto at = (const uint8_t *)joined.data();
    if (mode == "exists")
        return texts_matching(table, WORDS, at, joined.size(), ends.data(), count);
    return texts_sought(table, WORDS, at, joined.size(), ends.data(), count, mode == "split");
}

int main(int argc, char **argv)
{
    if (argc != 4)
        return 2;
    std::string ere = argv[1], mode = argv[2], line;
    while (std::getline(std::cin, line)) {
        texts.push_back(line);
        joined += line;
        ends.push_back(joined.size());
    }
    if (texts.empty() || !prepared_compile((const uint8_t *)ere.data(), ere.size(), table, WORDS))
        return 1;
    std::vector<Timed> all;
    all.push_back({"deriving", [mode] { return ours(mode, 0); }, 1e18, 0});
    all.push_back({"ours", [mode] { return ours(mode, ends.size()); }, 1e18, 0});
    for (auto &l : libraries(ere))
        all.push_back({l.name, [l, mode] {
            uint64_t sum = 0;
            for (auto &x : texts)
                sum += answer(l, mode, x);
            return sum;
        }, 1e18, 0});
    for (int round = atoi(argv[3]); round > 0; round--)
        for (auto &t : all) {
            double start = now();
            int turns = 0;
            do {
                t.sum = t.run();
                turns++;
            } while (now() - start < 2e6);
            t.least = std::min(t.least, (now() - start) / turns / texts.size());
        }
    double deriving = all[0].least;
    all[1].least -= deriving;
    for (size_t i = 1; i < all.size(); i++)
        printf("%s\t%.1f\t%llu\n", all[i].name.c_str(), all[i].least, (unsigned long long)all[i].sum);
    return 0;
}
