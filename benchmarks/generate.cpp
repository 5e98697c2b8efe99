// Matrices for measuring, as Matrix Market files on standard output. The same arguments give the same file.
//   generate er N D         N by N, N*D places drawn evenly
//   generate rmat S D       R-MAT with the probabilities of Graph500: 2^S vertices, D*2^S edges, vertices renumbered at random
//   generate grid S         the graph of a grid of S by S, both directions
//   generate band N W       the places with |i-j| <= W
//   generate hyper N K B    K blocks of B by B in N by N, at places that meet when the matrix is squared
//   generate empty N        N by N without entries
// and then: [--seed K] [--values M] (values from 1 to M, 100 by default) [--shuffle] (the lines in random order)
//           [--both] (each edge in both directions, no loops)
#include <random>

#include "texts.hpp"

static std::mt19937_64 rng;

static u64 below(u64 n) { return u64((unsigned __int128)rng() * n >> 64); }

// Places as column and row, so that their order is that of a file.
class Places {
    std::vector<u64> places;

public:
    void put(u64 row, u64 col) { places.push_back(col << 32 | row); }

    void random(u64 n, u64 each) {
        for (u64 k = 0; k < n * each; k++) {
            u64 row = below(n);
            put(row, below(n));
        }
    }

    void power_law(u64 bits, u64 each) {
        u64 n = 1ull << bits;
        std::vector<u32> name(n);
        for (u64 v = 0; v < n; v++) name[v] = v;
        for (u64 v = n; v > 1; v--) std::swap(name[v - 1], name[below(v)]);
        for (u64 k = 0; k < n * each; k++) {
            u64 row = 0, col = 0;
            for (u64 bit = 0; bit < bits; bit++) {
                u64 x = below(100);
                row = row * 2 + (x >= 76), col = col * 2 + ((x >= 57 && x < 76) || x >= 95);
            }
            put(name[row], name[col]);
        }
    }

    void grid(u64 side) {
        for (u64 y = 0; y < side; y++)
            for (u64 x = 0; x < side; x++) {
                u64 at = y * side + x;
                if (x + 1 < side) put(at, at + 1), put(at + 1, at);
                if (y + 1 < side) put(at, at + side), put(at + side, at);
            }
    }

    void band(u64 n, u64 width) {
        for (u64 j = 0; j < n; j++)
            for (u64 i = j < width ? 0 : j - width; i < std::min(n, j + width + 1); i++) put(i, j);
    }

    void blocks(u64 n, u64 count, u64 side) {
        std::vector<u64> starts(count / 2 + 1);
        for (u64& start : starts) start = below(n - side + 1);
        for (u64 k = 0; k < count; k++) {
            u64 row = starts[below(starts.size())], col = starts[below(starts.size())];
            for (u64 i = 0; i < side; i++)
                for (u64 j = 0; j < side; j++) put(row + i, col + j);
        }
    }

    void both_ways() {
        for (size_t k = places.size(); k-- > 0;) {
            u64 row = places[k] & 0xffffffff, col = places[k] >> 32;
            put(col, row);
        }
        places.erase(std::remove_if(places.begin(), places.end(), [](u64 p) { return (p & 0xffffffff) == p >> 32; }), places.end());
    }

    void write(u64 n, u64 top, bool shuffle) {
        std::sort(places.begin(), places.end());
        places.erase(std::unique(places.begin(), places.end()), places.end());
        if (shuffle)
            for (size_t k = places.size(); k > 1; k--) std::swap(places[k - 1], places[below(k)]);
        write_header(n, n, places.size(), false);
        std::string out;
        char text[64];
        for (u64 place : places) {
            char* p = put_number(text, (place & 0xffffffff) + 1);
            *p++ = ' ', p = put_number(p, (place >> 32) + 1);
            *p++ = ' ', p = put_number(p, 1 + below(top));
            *p++ = '\n';
            out.append(text, p - text);
            if (out.size() > 1 << 20) put_all(out.data(), out.size()), out.clear();
        }
        put_all(out.data(), out.size());
    }
};

int main(int argc, char** argv) {
    std::vector<std::string> words;
    u64 seed = 1, top = 100;
    bool shuffle = false, both = false;
    for (int i = 1; i < argc; i++) {
        std::string word = argv[i];
        if (word == "--shuffle") shuffle = true;
        else if (word == "--both") both = true;
        else if (word == "--seed" && i + 1 < argc) seed = strtoull(argv[++i], nullptr, 10);
        else if (word == "--values" && i + 1 < argc) top = strtoull(argv[++i], nullptr, 10);
        else words.push_back(word);
    }
    auto number = [&](size_t k) {
        if (k >= words.size()) fail(2, "usage: generate er|rmat|grid|band|hyper|empty NUMBERS [--seed K] [--values M] [--shuffle] [--both]");
        return strtoull(words[k].c_str(), nullptr, 10);
    };
    u64 first = number(1);
    rng.seed(seed);
    Places places;
    u64 n = first;
    if (words[0] == "er") places.random(n, number(2));
    else if (words[0] == "rmat") n = 1ull << first, places.power_law(first, number(2));
    else if (words[0] == "grid") n = first * first, places.grid(first);
    else if (words[0] == "band") places.band(n, number(2));
    else if (words[0] == "hyper") places.blocks(n, number(2), number(3));
    else if (words[0] != "empty") fail(2, "no such kind: " + words[0]);
    if (both) places.both_ways();
    places.write(n, top, shuffle);
}
