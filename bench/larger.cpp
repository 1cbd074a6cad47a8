/* A model of the search by stocks for tables larger than those of the program: up to 64 states, 64 responses and 16 operations. It
 * counts the sets that such a search keeps, and tells their memory.
 *
 * For n from 3 on a type is n-discerning exactly if some stock of n operations splits from some state. The model goes up by n. It asks
 * the stocks with one operation more than one that splits, from its start states alone. It makes the sets that these need, and no
 * others, and keeps them all. It ends where no stock splits, behind 16 processes, or where it needs more than half a GiB.
 *
 *   c++ -std=c++17 -O2 -o /tmp/larger bench/larger.cpp && /tmp/larger [WORD [PROCESSES]]
 *
 * prints a row for each type: the last n, the stocks that it asked, those of them that split, the sets kept, and the memory. With WORD
 * it takes the types that have it in their names, and PROCESSES in place of 16. Standard error has the same for each n. */
#include <algorithm>
#include <array>
#include <cstdint>
#include <cstdio>
#include <cstdlib>
#include <cstring>
#include <map>
#include <random>
#include <string>
#include <sys/resource.h>
#include <sys/wait.h>
#include <tuple>
#include <unistd.h>
#include <unordered_map>
#include <vector>

enum { STATES = 64, OPERATIONS = 16, MOST_MEMORY = 512 };

/* The type that is searched, and the most processes. */
static int states, operations, most_processes = 16;
static int response[OPERATIONS][STATES], next[OPERATIONS][STATES];

/* A set of states has a bit for each. */
using States = uint64_t;
/* How often each operation may be applied. */
using Stock = std::array<uint8_t, OPERATIONS>;
/* A set of pairs has each response with its last states, in the order of the responses. */
using Pairs = std::vector<std::pair<uint8_t, States>>;
/* The same while it is made, with a place for each response. */
using Places = std::array<States, STATES>;

/* What a set is of: a stock, and the state from which its words go; a set of pairs is also of an operation put into the words. */
struct Origin {
    Stock stock;
    uint8_t state, put;
    bool operator==(const Origin &other) const { return stock == other.stock && state == other.state && put == other.put; }
};

struct Hash {
    size_t operator()(const Origin &it) const noexcept
    {
        uint64_t hash = it.state * 256u + it.put;
        for (uint8_t times : it.stock)
            hash = (hash ^ times) * 0x9E3779B97F4A7C15u;
        return hash ^ hash >> 29;
    }
};

/* The sets made so far. */
static std::unordered_map<Origin, States, Hash> sets_of_states;
static std::unordered_map<Origin, Pairs, Hash> sets_of_pairs;

static Stock with(Stock stock, int x)
{
    stock[x]++;
    return stock;
}

static Stock without(Stock stock, int x)
{
    stock[x]--;
    return stock;
}

/* The states in which words within the stock end. */
static States ends(const Stock &stock, int state)
{
    if (stock == Stock{})
        return States(1) << state;
    Origin origin = {stock, uint8_t(state), 0};
    auto made = sets_of_states.find(origin);
    if (made != sets_of_states.end())
        return made->second;
    States all = States(1) << state;
    for (int x = 0; x < operations; x++)
        if (stock[x])
            all |= ends(without(stock, x), next[x][state]);
    return sets_of_states[origin] = all;
}

static void add(Places &all, const Pairs &more)
{
    for (auto &[answer, last] : more)
        all[answer] |= last;
}

static Pairs listed(const Places &all)
{
    Pairs list;
    list.reserve(STATES - std::count(all.begin(), all.end(), 0));
    for (int answer = 0; answer < STATES; answer++)
        if (all[answer])
            list.push_back({answer, all[answer]});
    return list;
}

/* The pairs that words within the stock show an operation put into them. */
static const Pairs &shown(const Stock &stock, int put, int state)
{
    Origin origin = {stock, uint8_t(state), uint8_t(put)};
    auto made = sets_of_pairs.find(origin);
    if (made != sets_of_pairs.end())
        return made->second;
    Places all = {};
    all[response[put][state]] = ends(stock, next[put][state]);
    for (int x = 0; x < operations; x++)
        if (stock[x])
            add(all, shown(without(stock, x), put, next[x][state]));
    return sets_of_pairs[origin] = listed(all);
}

/* The pairs that words within the stock that begin with one operation show another one, or the same. */
static Pairs shown_behind(int first, const Stock &stock, int other, int start)
{
    Stock rest = without(stock, other);
    Places all = {};
    if (first == other)
        all[response[other][start]] = ends(rest, next[other][start]);
    if (rest[first])
        add(all, shown(without(rest, first), other, next[first][start]));
    return listed(all);
}

static bool have_common_pair(const Pairs &one, const Pairs &other)
{
    auto a = one.begin(), b = other.begin();
    while (a != one.end() && b != other.end()) {
        if (a->first == b->first && a->second & b->second)
            return true;
        a->first <= b->first ? a++ : b++;
    }
    return false;
}

/* Makes one part of the parts of any two operations with a common pair. Answers how many parts fewer there are. */
static int join(std::vector<int> &part, const std::vector<Pairs> &pairs)
{
    int fewer = 0;
    for (size_t i = 0; i < part.size(); i++)
        for (size_t j = i + 1; j < part.size(); j++)
            if (part[i] != part[j] && have_common_pair(pairs[i], pairs[j])) {
                std::replace(part.begin(), part.end(), int(part[j]), int(part[i]));
                fewer++;
            }
    return fewer;
}

static bool splits(const Stock &stock, int start)
{
    std::vector<int> held;
    for (int x = 0; x < operations; x++)
        if (stock[x])
            held.push_back(x);
    std::vector<int> part = held;
    int parts = held.size();
    for (size_t i = 0; i < held.size() && parts > 1; i++) {
        std::vector<Pairs> pairs;
        for (int first : held)
            pairs.push_back(shown_behind(first, stock, held[i], start));
        parts -= join(part, pairs);
    }
    return parts > 1;
}

/* Stocks of one size, each with start states. */
using Starts = std::map<Stock, States>;

/* The stocks with one operation more. */
static Starts one_more(const Starts &smaller)
{
    Starts larger;
    for (auto &[stock, starts] : smaller)
        for (int x = 0; x < operations; x++)
            larger[with(stock, x)] |= starts;
    return larger;
}

/* Whether each operation of the stock leads away from the state. No stock splits from another one. */
static bool is_live(const Stock &stock, int state)
{
    for (int x = 0; x < operations; x++)
        if (stock[x] && next[x][state] == state)
            return false;
    return true;
}

/* The most memory so far, in MiB. */
static long memory()
{
    struct rusage used;
    getrusage(RUSAGE_SELF, &used);
    return used.ru_maxrss / 1024;
}

/* The stocks that split, with the states from which they do. It looks no further once the memory is used up. */
static Starts splitting(const Starts &asked)
{
    Starts found;
    for (auto &[stock, starts] : asked) {
        States good = 0;
        for (int q = 0; q < states; q++)
            if (starts >> q & 1 && is_live(stock, q) && splits(stock, q))
                good |= States(1) << q;
        if (good)
            found[stock] = good;
        if (memory() > MOST_MEMORY)
            break;
    }
    return found;
}

static std::string with_commas(size_t number)
{
    std::string text = std::to_string(number);
    for (int at = int(text.size()) - 3; at > 0; at -= 3)
        text.insert(at, ",");
    return text;
}

static std::string cells(std::initializer_list<size_t> numbers)
{
    std::string row;
    for (size_t number : numbers)
        row += with_commas(number) + " | ";
    return row + with_commas(memory()) + " MiB";
}

/* Goes up by the size of a stock, from all stocks of three operations. Prints the last size that the memory is enough for. */
static void search(const char *name)
{
    std::string row, end = "at " + std::to_string(most_processes) + " processes";
    Starts found = one_more(one_more({{Stock{}, ~States(0)}}));
    for (int n = 3; n <= most_processes && !found.empty(); n++) {
        Starts asked = one_more(found);
        found = splitting(asked);
        if (memory() > MOST_MEMORY) {
            end = "by memory, at " + std::to_string(n);
            break;
        }
        if (found.empty())
            end = "as no stock splits";
        row = cells({size_t(n), asked.size(), found.size(), sets_of_states.size(), sets_of_pairs.size()});
        fprintf(stderr, "%s\n", row.c_str());
    }
    printf("| %s | %d×%d | %s | %s |\n", name, states, operations, row.c_str(), end.c_str());
}

/* Makes a type of what an operation does in a state: its response, and the next state. */
template <class Does>
static void make(int new_states, int new_operations, Does does)
{
    states = new_states;
    operations = new_operations;
    for (int x = 0; x < operations; x++)
        for (int q = 0; q < states; q++)
            std::tie(response[x][q], next[x][q]) = does(x, q);
}

static std::pair<int, int> add_modulo(int x, int q) { return {q, (q + x + 1) % 64}; }

static std::pair<int, int> up_or_down(int x, int q) { return {q, x ? std::min(q + 1, 63) : (q + 63) % 64}; }

/* Exchanges the value of the start state with that of cell x. The state is the cell that has it, from 1. */
static std::pair<int, int> exchange(int x, int q) { return {0, q == 0 ? x + 1 : q == x + 1 ? 0 : q}; }

/* The first operation fixes one of two kinds, and the ten behind it answer which. The states from 22 on do as those from 1 on. In the
 * last one each operation has a response of its own, so that none is a copy of another. */
static std::pair<int, int> shoot(int x, int q)
{
    const int shots = 10, spent = 2 * shots + 1;
    if (q == 0)
        return {x % 2, 1 + x % 2 * shots};
    if (q == spent)
        return {2, spent};
    int place = (q < spent ? q - 1 : q - spent - 1) % (2 * shots);
    return {q == STATES - 1 ? x : place / shots, place % shots < shots - 1 ? place + 2 : spent};
}

static std::pair<int, int> any(int, int)
{
    static std::mt19937 draw(1);
    int answer = draw() % 2;
    return {answer, draw() % 64};
}

struct Made {
    const char *name;
    void (*make)();
};

static const Made TYPES[] = {
    {"fetch and add of 1 to 16, modulo 64", [] { make(64, 16, add_modulo); }},
    {"increment up to 63, decrement modulo 64", [] { make(64, 2, up_or_down); }},
    {"memory swap with 12 cells", [] { make(13, 12, exchange); }},
    {"memory swap with 15 cells", [] { make(16, 15, exchange); }},
    {"ten shots of two kinds", [] { make(64, 16, shoot); }},
    {"random, with two responses", [] { make(64, 16, any); }},
};

/* Searches each type in a process of its own, since the memory is that of a process. */
int main(int count, char **words)
{
    if (count > 2)
        most_processes = std::min(atoi(words[2]), 255);
    int status = 0;
    for (const Made &type : TYPES) {
        if (count > 1 && !strstr(type.name, words[1]))
            continue;
        if (fork() == 0) {
            type.make();
            search(type.name);
            return 0;
        }
        wait(&status);
        if (status)
            return 1;
    }
    return 0;
}
