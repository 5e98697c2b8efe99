// The parser, the sort and the writer for a driver in another language: the lists of a file, and the text of lists.
#include "semirings.hpp"

extern "C" {

// Reads a file and answers its columns; those of its transpose, with values 1 where `ones` is set, for searches.
Columns* columns_of(const char* name, int threads, int turned, int ones) {
    Triples t = read_triples(name, threads, ones);
    if (turned) t.row.swap(t.col), std::swap(t.rows, t.cols);
    return new Columns(ones ? compress(std::move(t), OrAnd::add, OrAnd::zero) : turned ? compress(std::move(t), MinPlus::add, MinPlus::zero) : compress(std::move(t), PlusTimes::add, PlusTimes::zero));
}

u32 rows_of(const Columns* m) { return m->rows; }
u32 cols_of(const Columns* m) { return m->cols; }
size_t count_of(const Columns* m) { return m->row.size(); }

// Copies the lists, with a start for each column.
void lists_of(const Columns* m, int64_t* starts, int64_t* rows, u64* values) {
    auto all = m->starts_of_all<int64_t>();
    std::copy(all.begin(), all.end(), starts);
    std::copy(m->row.begin(), m->row.end(), rows);
    std::copy(m->value.begin(), m->value.end(), values);
}

void write_lists32(u32 rows, u32 cols, const int32_t* starts, const int32_t* row, const u64* value, int threads) {
    write_matrix(rows, cols, starts, row, value, false, threads);
}

void write_lists64(u32 rows, u32 cols, const int64_t* starts, const int64_t* row, const u64* value, int threads) {
    write_matrix(rows, cols, starts, row, value, false, threads);
}

void write_numbers(size_t count, const u64* number) {
    write_vertices(count, [&](size_t v) { return number[v]; }, TOP);
}
}
