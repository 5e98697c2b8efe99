#!/bin/sh
# Runs the tests of the C side over what make has built in a folder, with further libraries or none:
# check.sh OUT [LIBS]
set -e
out=$1
libs=$2
fail() {
    echo "cbgrid for C: $*" >&2
    exit 1
}

# The program, the header and the Python package have one version.
version=$(sed -n 's/^#define CBGRID_VERSION "\(.*\)"/\1/p' cbgrid.h)
grep -qx "const VERSION: &str = \"$version\";" ../../crates/cb_command_line/src/commands.rt || fail "the program has another version than $version"
grep -qx "version = \"$version\"" ../python/pyproject.toml || fail "the Python package has another version than $version"

"$out/check"
"$out/check_large"
"$out/check_panels"

"$out/example" | cmp - example.out || fail "the example prints something else than example.out"
"$out/roads" | cmp - roads.out || fail "roads prints something else than roads.out"

# Both libraries show the names of the header and no others, and the shared one needs libc alone.
sed -n 's/^ *\(cbgrid_[a-z0-9_]*\);$/\1/p' "$out/cbgrid.map" | sort >"$out/names.map"
nm -D --defined-only "$out/libcbgrid.so" | awk '{ print $3 }' | sort >"$out/names.so"
cmp "$out/names.map" "$out/names.so" || fail "libcbgrid.so shows other names than cbgrid.h declares"
nm -g --defined-only "$out/libcbgrid.a" | awk '$2 ~ /^[A-Z]$/ { print $3 }' | sort >"$out/names.a"
cmp "$out/names.map" "$out/names.a" || fail "libcbgrid.a shows other names than cbgrid.h declares"

needed=$(readelf -d "$out/libcbgrid.so" | sed -n 's/.*(NEEDED).*\[\(.*\)\]/\1/p')
[ -n "$libs" ] || [ "$needed" = libc.so.6 ] || fail "libcbgrid.so needs $needed"

# A program finds the installed library by pkg-config and by CMake.
installed=$(cd "$out/installed" && pwd)
if command -v pkg-config >/dev/null; then
    flags=$(PKG_CONFIG_PATH="$installed/lib/pkgconfig" pkg-config --cflags --libs "cbgrid = $version")
    # shellcheck disable=SC2086
    "${CC:-cc}" example.c $flags $libs -o "$out/by_pkg_config"
    LD_LIBRARY_PATH="$installed/lib" "$out/by_pkg_config" | cmp - example.out || fail "pkg-config leads to another library"
fi
if [ -z "$libs" ] && command -v cmake >/dev/null; then
    rm -rf "$out/by_cmake" && mkdir -p "$out/by_cmake/project" && cp example.c "$out/by_cmake/project"
    cat >"$out/by_cmake/project/CMakeLists.txt" <<CMAKE
cmake_minimum_required(VERSION 3.13)
project(example C)
find_package(cbgrid $version REQUIRED)
add_executable(example example.c)
target_link_libraries(example cbgrid::cbgrid)
add_executable(example_static example.c)
target_link_libraries(example_static cbgrid::static)
CMAKE
    cmake -S "$out/by_cmake/project" -B "$out/by_cmake" -DCMAKE_PREFIX_PATH="$installed" >"$out/by_cmake.log" 2>&1 &&
        cmake --build "$out/by_cmake" >>"$out/by_cmake.log" 2>&1 || fail "CMake doesn't find the library: see $out/by_cmake.log"
    for it in example example_static; do
        "$out/by_cmake/$it" | cmp - example.out || fail "CMake leads to another library"
    done
fi

if command -v "${CXX:-c++}" >/dev/null; then
    "${CXX:-c++}" -x c++ -fsyntax-only -Wall -Wextra cbgrid.h || fail "cbgrid.h is no C++"
fi

# Every block is freed, and nothing is read past a list.
if command -v valgrind >/dev/null; then
    valgrind --quiet --error-exitcode=9 --leak-check=full --show-leak-kinds=all "$out/check" --few >/dev/null ||
        fail "valgrind finds a fault"
    valgrind --quiet --error-exitcode=9 --leak-check=full --show-leak-kinds=all "$out/check_panels" >/dev/null ||
        fail "valgrind finds a fault in panels"
    valgrind --quiet --error-exitcode=9 --leak-check=full --show-leak-kinds=all "$out/example" >/dev/null ||
        fail "valgrind finds a fault in the example"
    valgrind --quiet --error-exitcode=9 --leak-check=full --show-leak-kinds=all "$out/roads" >/dev/null ||
        fail "valgrind finds a fault in roads"
else
    echo "valgrind isn't there: leaks are counted by the tests alone" >&2
fi
echo "cbgrid for C: all tests passed"
