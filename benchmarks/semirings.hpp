// The semirings of the plain program and of the drivers, and the operands of a command.
#pragma once
#include "texts.hpp"

constexpr u64 TOP = ~0ull;

struct PlusTimes {
    static constexpr u64 zero = 0;
    static u64 add(u64 a, u64 b) { return a + b; }
    static u64 mul(u64 a, u64 b) { return a * b; }
};
struct MinPlus {
    static constexpr u64 zero = TOP;
    static u64 add(u64 a, u64 b) { return std::min(a, b); }
    static u64 mul(u64 a, u64 b) {
        u64 sum = a + b;
        return sum < a ? TOP : sum;
    }
};
struct OrAnd {
    static constexpr u64 zero = 0;
    static u64 add(u64 a, u64 b) { return a | b; }
    static u64 mul(u64 a, u64 b) { return a & b; }
};
struct MaxMin {
    static constexpr u64 zero = 0;
    static u64 add(u64 a, u64 b) { return std::max(a, b); }
    static u64 mul(u64 a, u64 b) { return std::min(a, b); }
};

template <class S> Columns read_columns(const std::string& name, int threads, bool ones) {
    return compress(read_triples(name, threads, ones), S::add, S::zero);
}

// The operands of `multiply`, whose shapes agree, over the semiring that the words name.
inline std::pair<Columns, Columns> read_operands(const Words& words) {
    auto read = [&](const std::string& name) {
        if (words.semiring == "plus-times") return read_columns<PlusTimes>(name, words.threads, false);
        if (words.semiring == "min-plus") return read_columns<MinPlus>(name, words.threads, false);
        if (words.semiring == "or-and") return read_columns<OrAnd>(name, words.threads, true);
        if (words.semiring == "max-min") return read_columns<MaxMin>(name, words.threads, false);
        words.unknown();
    };
    std::pair<Columns, Columns> both{read(words.files[0]), read(words.files[1])};
    if (both.first.cols != both.second.rows) fail(5, "shapes don't agree");
    return both;
}

// The edges of a graph by the vertex that they leave, which are the columns of the transpose. But for `relax` each weighs 1.
inline Columns read_edges(const Words& words) {
    bool ones = words.command != "relax";
    Triples t = read_triples(words.files[0], words.threads, ones);
    if (t.rows != t.cols) fail(5, "matrix not square");
    if (words.source < 1 || words.source > t.rows) fail(5, "no such source");
    t.row.swap(t.col);
    return ones ? compress(std::move(t), OrAnd::add, OrAnd::zero) : compress(std::move(t), MinPlus::add, MinPlus::zero);
}

// The graph with each edge in both directions, and no loops.
inline Columns read_undirected(const Words& words) {
    Triples t = read_triples(words.files[0], words.threads, true);
    if (t.rows != t.cols) fail(5, "matrix not square");
    size_t count = t.row.size(), kept = 0;
    for (size_t k = 0; k < count; k++)
        if (t.row[k] != t.col[k]) t.row[kept] = t.row[k], t.col[kept] = t.col[k], t.value[kept++] = t.value[k];
    t.row.resize(kept), t.col.resize(kept), t.value.resize(kept);
    for (size_t k = 0; k < kept; k++) {
        u32 row = t.row[k], col = t.col[k];
        t.row.push_back(col), t.col.push_back(row), t.value.push_back(1);
    }
    return compress(std::move(t), OrAnd::add, OrAnd::zero);
}
