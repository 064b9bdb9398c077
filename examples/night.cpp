// A night in C++: the same as night.c, with vectors that are as long as is always enough.
#include "../include/muiwash.h"
#include <array>
#include <fstream>
#include <iostream>
#include <iterator>
#include <string_view>
#include <vector>

using Bytes = std::vector<std::uint8_t>;

static Bytes read_file(const char *path) {
    std::ifstream f(path, std::ios::binary);
    return Bytes(std::istreambuf_iterator<char>(f), {});
}
static void trim(Bytes &b) { // what stands before the zeros
    while (!b.empty() && b.back() == 0) b.pop_back();
}
static std::string_view part(const Bytes &b, std::uint64_t start, std::uint64_t length) {
    return std::string_view(reinterpret_cast<const char *>(b.data()) + start, length);
}
template <std::size_t N> static void print(const char *what, const std::array<std::uint64_t, N> &numbers) {
    std::cout << what << ": ";
    for (std::size_t i = 0; i < N; i++) std::cout << numbers[i] << (i + 1 < N ? "," : "\n");
}
// The seven numbers, the new holding and the undo, both empty on a refusal.
struct Loaded {
    std::array<std::uint64_t, 7> answer;
    Bytes holding, undo;
};
static Loaded load(const Bytes &holding, const Bytes &file, std::size_t undo_room) {
    Loaded l{{}, Bytes(MUIWASH_ROOM(holding.size(), file.size())), Bytes(undo_room)};
    muiwash_load(holding.data(), holding.size(), file.data(), file.size(), l.holding.data(), l.holding.size(), l.undo.data(), l.undo.size(),
                 l.answer.data());
    trim(l.holding), trim(l.undo);
    return l;
}

int main(int argc, char **argv) {
    if (argc != 4) return 2;
    const Bytes holding = read_file(argv[1]), change = read_file(argv[2]), refused = read_file(argv[3]);
    std::array<std::uint64_t, 3> three{};
    std::array<std::uint64_t, 5> five{};
    std::array<std::uint64_t, 6> six{};
    muiwash_check_holding(holding.data(), holding.size(), three.data());
    print("the holding", three);
    const Loaded none = load(holding, refused, MUIWASH_UNDO_ROOM(holding.size(), refused.size()));
    print("refused", none.answer);
    std::cout << "bytes left in the outputs: " << none.holding.size() << " and " << none.undo.size() << "\n";
    const Loaded taken = load(holding, change, MUIWASH_UNDO_ROOM(holding.size(), change.size()));
    print("taken", taken.answer);
    std::cout << "bytes of its undo, which is kept: " << taken.undo.size() << "\n";
    muiwash_find(holding.data(), holding.size(), 11, 40000102, five.data());
    std::cout << "street 40000102: " << part(holding, five[3], five[4]) << "\n";
    muiwash_in_force(holding.data(), holding.size(), change.data(), change.size(), 21, 130000001, six.data());
    std::cout << "BLPU 130000001, in force in the " << (six[3] ? "file" : "holding") << ": " << part(six[3] ? change : holding, six[4], six[5]) << "\n";
    muiwash_field(holding.data(), holding.size(), 2, 4, five.data());
    std::cout << "line 2, field 4: " << part(holding, five[3], five[4]) << "\n";
    const Loaded back = load(taken.holding, taken.undo, MUIWASH_BACK_ROOM(change.size(), taken.undo.size()));
    print("the undo, taken", back.answer);
    std::cout << "handed back: " << (back.holding == holding ? "the old holding, byte for byte" : "NOT the old holding") << "\n";
    return back.holding == holding ? 0 : 1;
}
