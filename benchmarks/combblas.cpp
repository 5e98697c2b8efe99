// The product by CombBLAS, over plus-times alone, on a square number of processes: mpirun -n 4 combblas ..
// It reads with its own parallel reader. The first process gathers the product and writes it.
#include <CombBLAS/CombBLAS.h>

#include "texts.hpp"

using Local = combblas::SpDCCols<int64_t, int64_t>;
using Matrix = combblas::SpParMat<int64_t, int64_t, Local>;
using PlusTimes = combblas::PlusTimesSRing<int64_t, int64_t>;

// The triples of all processes, at the first.
template <class T> std::vector<T> gathered(const T* mine, size_t count) {
    int ranks, rank;
    MPI_Comm_size(MPI_COMM_WORLD, &ranks), MPI_Comm_rank(MPI_COMM_WORLD, &rank);
    std::vector<int> counts(ranks), places(ranks);
    int bytes = count * sizeof(T);
    MPI_Gather(&bytes, 1, MPI_INT, counts.data(), 1, MPI_INT, 0, MPI_COMM_WORLD);
    size_t all = 0;
    for (int r = 0; r < ranks; r++) places[r] = all, all += counts[r];
    std::vector<T> to(rank ? 0 : all / sizeof(T));
    MPI_Gatherv(mine, bytes, MPI_BYTE, to.data(), counts.data(), places.data(), MPI_BYTE, 0, MPI_COMM_WORLD);
    return to;
}

// Writes the entries of a matrix in order.
static void write_all(Matrix& m, int rank) {
    // Each row and column of processes has the same share of rows and columns, but for the last.
    int64_t rows = m.getnrow(), cols = m.getncol();
    auto grid = m.getcommgrid();
    int64_t first_row = grid->GetRankInProcCol() * (rows / grid->GetGridRows());
    int64_t first_col = grid->GetRankInProcRow() * (cols / grid->GetGridCols());
    std::vector<u32> row, col;
    std::vector<u64> value;
    auto local = m.seq();
    for (auto column = local.begcol(); column != local.endcol(); ++column)
        for (auto entry = local.begnz(column); entry != local.endnz(column); ++entry) {
            row.push_back(entry.rowid() + first_row), col.push_back(column.colid() + first_col);
            value.push_back(entry.value());
        }
    Triples all;
    all.rows = rows, all.cols = cols;
    all.row = gathered(row.data(), row.size()), all.col = gathered(col.data(), col.size());
    all.value = gathered(value.data(), value.size());
    if (rank) return;
    Columns made = compress(std::move(all), [](u64 a, u64) { return a; }, 0);
    write_header(rows, cols, made.row.size(), false);
    write_columns(made.column.size(), [&](size_t k) { return made.column[k]; }, made.start.data(), made.row.data(), made.value.data(), false, 1);
}

int main(int argc, char** argv) {
    int given;
    MPI_Init_thread(&argc, &argv, MPI_THREAD_SERIALIZED, &given);
    int rank;
    MPI_Comm_rank(MPI_COMM_WORLD, &rank);
    Words words(argc, argv);
    if (words.command != "multiply" || words.semiring != "plus-times") words.unknown();
    // The library tells what it does on standard output, where the answer belongs.
    int answer = dup(1);
    dup2(2, 1);
    {
        Clock clock;
        auto grid = std::make_shared<combblas::CommGrid>(MPI_COMM_WORLD, 0, 0);
        Matrix a(grid), b(grid);
        auto add = [](int64_t x, int64_t y) { return x + y; };
        a.ParallelReadMM(words.files[0], true, add);
        b.ParallelReadMM(words.files[1], true, add);
        MPI_Barrier(MPI_COMM_WORLD);
        clock.part("read");
        Matrix product = combblas::Mult_AnXBn_Synch<PlusTimes, int64_t, Local>(a, b);
        MPI_Barrier(MPI_COMM_WORLD);
        clock.part("compute");
        fflush(stdout);
        dup2(answer, 1);
        write_all(product, rank);
        clock.part("write");
        if (rank == 0) clock.tell();
    }
    MPI_Finalize();
    return 0;
}
