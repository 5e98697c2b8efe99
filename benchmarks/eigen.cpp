// The product by Eigen, over plus-times alone. One thread: Eigen has no other for sparse products.
#include <Eigen/SparseCore>

#include "semirings.hpp"

using Matrix = Eigen::SparseMatrix<u64, Eigen::ColMajor, int64_t>;

static Matrix matrix_of(const Columns& m) {
    auto starts = m.starts_of_all<int64_t>();
    std::vector<int64_t> rows(m.row.begin(), m.row.end());
    return Eigen::Map<const Matrix>(m.rows, m.cols, m.row.size(), starts.data(), rows.data(), m.value.data());
}

int main(int argc, char** argv) {
    Words words(argc, argv);
    Clock clock;
    if (words.command != "multiply" || words.semiring != "plus-times") words.unknown();
    auto [left, right] = read_operands(words);
    Matrix a = matrix_of(left), b = matrix_of(right);
    clock.part("read");
    Matrix product = a * b;
    clock.part("compute");
    product.makeCompressed();
    write_matrix(product.rows(), product.cols(), product.outerIndexPtr(), product.innerIndexPtr(), product.valuePtr(), false, words.threads);
    clock.part("write");
    clock.tell();
    _exit(0);
}
