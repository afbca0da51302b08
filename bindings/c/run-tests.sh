#!/usr/bin/env bash
# Builds the C library out of the proved archive of crates/interpolator_c, and runs the tests of
# bindings/c: the headers by C99 and C++17 without a warning, each call, the rows of the conformance
# suite, decimals and doubles, refused memory, threads, all under valgrind; the headers and the
# examples under AddressSanitizer and UBSan, the examples on a hundred hostile formats each; an
# installed copy by pkg-config and CMake, a package, and the programs of README.md. It leaves nothing
# but build/, with the library.
#
# The archive is the one that `rt lib` or the gate left in crates/interpolator_c/out; without one it is
# made by `rt lib`, which proves what is not proved yet. A tool that is missing fails the run, but for
# cmake and man, whose steps are then left out, and for CI_SKIP_BINDINGS=1, by which nothing is run.
set -eu
cd "$(dirname "$0")"

if [[ ${CI_SKIP_BINDINGS:-} == 1 ]]; then
    echo 'bindings/c: skipped (CI_SKIP_BINDINGS=1)'
    exit 0
fi

missing=()
for tool in make cc c++ ar nm python3 valgrind pkg-config; do
    command -v "$tool" >/dev/null || missing+=("$tool")
done
if [[ ${#missing[@]} -ne 0 ]]; then
    echo "bindings/c: FAILED, these tools are missing: ${missing[*]} (CI_SKIP_BINDINGS=1 leaves the bindings out)"
    exit 1
fi

passed=0
scratch=$(mktemp -d)
trap 'rm -rf -- "$scratch"' EXIT
export PYTHONDONTWRITEBYTECODE=1

# step NAME COMMAND..: runs the command, and ends the run with what it wrote if it fails.
step() {
    local name=$1
    shift
    if ! "$@" >"$scratch/log" 2>&1; then
        tail -n 30 "$scratch/log"
        echo "bindings/c: FAILED: $name"
        exit 1
    fi
    passed=$((passed + 1))
    echo "bindings/c: $name: ok"
}

valgrind_of=(valgrind --quiet --error-exitcode=9 --leak-check=full --errors-for-leak-kinds=all)

# The archive gives C nothing but the calls, and wants of it nothing but memory.
names_are_known() {
    local given wanted
    given=$(nm -g --defined-only "$archive" | awk 'NF == 3 {print $3}' | sort | tr '\n' ' ')
    wanted=$(nm -g --undefined-only "$archive" | awk 'NF == 2 {print $2}' | sort -u | tr '\n' ' ')
    echo "gives $given; wants $wanted"
    [[ $given == 'interpolator_arguments interpolator_check interpolator_check_alone interpolator_cost interpolator_escaped interpolator_explain interpolator_faults interpolator_format interpolator_layout interpolator_rows interpolator_version interpolator_write ' ]] &&
        [[ $(printf '%s\n' $wanted | grep -vxE 'rattle_(alloc|realloc|dealloc)|mem(cpy|move|set|cmp)|bcmp|__u(div|mod)ti3' | wc -l) -eq 0 ]]
}

# What the example writes of a file with two broken formats: to the output the others, to the errors
# what is wrong with these. No message is too long for it.
catalogue() {
    {
        printf 'Dear {name},\nyou have {count:>3} new {messages}\n\xff{count:x}\n{count:x} in hexadecimal\n{name:>5000}\n'
        printf '{total:*>8}|{total:.1}|{total:+08.3}|{total:e}|{total:>900}'
    } >"$scratch/messages.txt"
    local status=0
    (cd "$scratch" && "$@" messages.txt Bob 255 >out 2>errors) || status=$?
    diff - "$scratch/out" <<END || return 1
Dear Bob,
ff in hexadecimal
$(printf '%5000s' Bob)
****2.55|2.6|+002.550|2.55e0|$(printf '%900s' 2.55)
END
    diff - "$scratch/errors" <<'END' || return 1
messages.txt:2:26: specified value not in context `messages` at 25
  |
2 | you have {count:>3} new {messages}
  |                         ~^~~~~~~~~
messages.txt:3: not UTF-8
END
    [[ $status -eq 1 ]]
}

prices() {
    diff <("$@") - <<<'pie:       3.14 each, 3 rounded, +00002.2%' || return 1
    diff <("$@" '{price:0>+9.1}|{price:*<8}|{price:^+11.3}|{price:09.0}|{price:>1.4}' -199995) - \
        <<<'00-2000.0|-1999.95| -1999.950 |-00002000|-1999.9500' || return 1
    diff <("$@" '{price:+}|{price:.1}|{price:.0}|{price:.40}|{rate:?}|{rate:.1}' 4 2>&1) - \
        <<<"+0.04|0.0|0|0.04$(printf '%038d' 0)|2.25|2.2"
}

sanitized=(-g -O1 -fsanitize=address,undefined -fno-sanitize-recover=all -Wall -Wextra -pedantic -Werror -I.)
export ASAN_OPTIONS=exitcode=99:allocator_may_return_null=1 UBSAN_OPTIONS=exitcode=99

# Tests and examples, so that a wrong access ends them with status 99.
sanitize() {
    cc -std=c99 "${sanitized[@]}" tests/bytes.c build/libinterpolator.a -o "$scratch/bytes_asan" &&
        cc -std=c99 "${sanitized[@]}" tests/calls.c build/libinterpolator.a -o "$scratch/calls_asan" &&
        cc -std=c99 "${sanitized[@]}" tests/numbers.c build/libinterpolator.a -lm -o "$scratch/numbers_asan" &&
        cc -std=c99 "${sanitized[@]}" tests/pictures.c build/libinterpolator.a -o "$scratch/pictures_asan" &&
        cc -std=c99 -g -O1 -fsanitize=thread -Wall -I. tests/threads.c build/libinterpolator.a -pthread \
            -o "$scratch/threads_tsan" &&
        c++ -std=c++17 "${sanitized[@]}" tests/header.cpp build/libinterpolator.a -o "$scratch/header_asan" &&
        c++ -std=c++17 "${sanitized[@]}" example/prices.cpp build/libinterpolator.a -o "$scratch/prices_asan" &&
        cc -std=c99 "${sanitized[@]}" example/catalogue.c build/libinterpolator.a -o "$scratch/catalogue_asan"
}

# ended STATUS FORMAT: whether a program ended by itself, with a text or a fault.
ended() {
    [[ $1 -eq 0 || $1 -eq 1 ]] || { echo "status $1 of: ${2:0:200}"; return 1; }
}

hostile_prices() {
    local format status count=0
    while IFS= read -r format; do
        status=0
        "$scratch/prices_asan" "$format" -314159 >"$scratch/out" 2>"$scratch/errors" || status=$?
        ended "$status" "$format" || { cat "$scratch/errors"; return 1; }
        count=$((count + 1))
    done < <(python3 tests/hostile.py what price rate)
    [[ $count -eq 100 ]]
}

# Each line alone, and all of them with zero bytes and a line without an end.
hostile_catalogue() {
    local format status=0 count=0
    python3 tests/hostile.py name count total >"$scratch/hostile.txt"
    while IFS= read -r format; do
        status=0
        printf '%s' "$format" >"$scratch/line.txt"
        "$scratch/catalogue_asan" "$scratch/line.txt" $'\xff' 1 >"$scratch/out" 2>"$scratch/errors" || status=$?
        ended "$status" "$format" || { cat "$scratch/errors"; return 1; }
        count=$((count + 1))
    done <"$scratch/hostile.txt"
    printf 'zero\0{name}\0\n{count' >>"$scratch/hostile.txt"
    status=0
    "$scratch/catalogue_asan" "$scratch/hostile.txt" Ann -1 >"$scratch/out" 2>"$scratch/errors" || status=$?
    [[ $status -eq 1 && $count -eq 100 ]]
}

# The library as a program finds it that is not in this folder; the tools of the proofs are not needed.
installed_copy() {
    root=$scratch/installed
    PATH=/usr/bin:/bin make --quiet install PREFIX="$root" &&
        export PKG_CONFIG_PATH=$root/lib/pkgconfig &&
        cc -std=c99 example/catalogue.c $(pkg-config --cflags --libs interpolator) \
            -Wl,-rpath,"$root/lib" -o "$scratch/catalogue_installed" &&
        catalogue "$scratch/catalogue_installed"
}

# The package, unpacked where it was not made, by pkg-config.
package() {
    make --quiet package || return 1
    mkdir -p "$scratch/unpacked"
    tar -C "$scratch/unpacked" --strip-components=1 -xzf build/interpolator-*.tar.gz
    rm build/interpolator-*.tar.gz
    diff <(cd "$scratch/unpacked" && find . | sort) <(cd "$scratch/installed" && find . | sort) || return 1
    PKG_CONFIG_PATH=$scratch/unpacked/lib/pkgconfig
    c++ -std=c++17 example/prices.cpp $(pkg-config --cflags --libs interpolator) \
        -Wl,-rpath,"$scratch/unpacked/lib" -o "$scratch/prices_unpacked" &&
        prices "$scratch/prices_unpacked"
}

# block LANGUAGE NUMBER: a block of README.md.
block() {
    awk -v fence="\`\`\`$1" -v wanted="$2" \
        '/^```/ {inside = $0 == fence && ++seen == wanted; next} inside' README.md
}

# The programs of README.md, by its own CMakeLists.txt or else by pkg-config, and what it says of them.
readme() {
    local room=$scratch/readme found name number=1
    mkdir -p "$room"
    found="$(pkg-config --cflags --libs interpolator) -Wl,-rpath,$scratch/unpacked/lib"
    block cmake 1 >"$room/CMakeLists.txt"
    block c 1 >"$room/lists.c"
    block c 2 >"$room/fault.c"
    block c 3 >"$room/table.c"
    block cpp 1 >"$room/lists.cpp"
    block cpp 2 >"$room/faults.cpp"
    block cpp 3 >"$room/page.cpp"
    block cpp 4 >"$room/table.cpp"
    if command -v cmake >/dev/null; then
        cmake -S "$room" -B "$room/made" -DCMAKE_PREFIX_PATH="$scratch/unpacked" -DCMAKE_BUILD_TYPE=Release &&
            cmake --build "$room/made" || return 1
    else
        mkdir -p "$room/made"
        cc -std=c99 "$room/lists.c" $found -o "$room/made/lists_c" &&
            c++ -std=c++17 "$room/lists.cpp" $found -o "$room/made/lists_cpp" || return 1
    fi
    for name in fault table; do
        cc -std=c99 "${sanitized[@]}" "$room/$name.c" build/libinterpolator.a -o "$room/${name}_c" ||
            return 1
    done
    for name in faults page table; do
        c++ -std=c++17 "${sanitized[@]}" "$room/$name.cpp" build/libinterpolator.a \
            -o "$room/${name}_cpp" || return 1
    done
    for name in made/lists_c fault_c table_c made/lists_cpp faults_cpp page_cpp table_cpp; do
        diff <(block text "$number") <("$room/$name") || return 1
        number=$((number + 1))
    done
    diff <(echo 'Ann 7 true') <("$room/fault_c" '{name} {count:x} {ready}') &&
        diff <(echo 'Ann 7 true') <("$room/faults_cpp" '{name} {count:x} {ready}')
}

# Those of them that take a format from the command line.
hostile_readme() {
    local program format status count=0
    for program in fault_c faults_cpp; do
        while IFS= read -r format; do
            status=0
            "$scratch/readme/$program" "$format" >"$scratch/out" 2>"$scratch/errors" || status=$?
            ended "$status" "$format" || { cat "$scratch/errors"; return 1; }
            count=$((count + 1))
        done < <(python3 tests/hostile.py name count ready)
    done
    [[ $count -eq 200 ]]
}

# A later version than there is, and one of another major number, are not found.
cmake_versions() {
    local room=$scratch/versions version
    for version in 1.0 1.0.0 '1.0.0 EXACT' 1.1 0.9 2.0; do
        rm -rf "$room" && mkdir "$room"
        printf 'cmake_minimum_required(VERSION 3.13)\nproject(p C)\nfind_package(interpolator %s REQUIRED)\n' \
            "$version" >"$room/CMakeLists.txt"
        if cmake -S "$room" -B "$room/made" -DCMAKE_PREFIX_PATH="$scratch/unpacked" >/dev/null 2>&1; then
            echo "$version is found"
        else
            echo "$version is not found"
        fi
    done | diff - <(printf '%s is found\n' 1.0 1.0.0 '1.0.0 EXACT'; printf '%s is not found\n' 1.1 0.9 2.0)
}

# The page names each call, and man has nothing to say of it.
man_page() {
    local call
    for call in $(sed -n 's/^interpolator_[a-z_]* \(interpolator_[a-z_]*\)(.*/\1/p; s/^uint32_t \(interpolator_[a-z_]*\)(.*/\1/p' interpolator.h); do
        grep -q "$call" interpolator.3 || { echo "interpolator.3 does not have $call"; return 1; }
        [[ -f $scratch/installed/share/man/man3/$call.3 ]] || { echo "no page $call.3"; return 1; }
    done
    [[ -z $(LC_ALL=C.UTF-8 man --warnings -l interpolator.3 2>&1 >/dev/null) ]]
}

archive=../../crates/interpolator_c/out/libinterpolator_c.a
if [[ ! -f $archive ]]; then
    command -v rt >/dev/null || { echo 'bindings/c: FAILED: there is no rt, and no proved archive'; exit 1; }
    step 'the proved archive (rt lib)' bash -c 'cd ../../crates/interpolator_c && rt lib'
fi
step 'what the archive gives and wants' names_are_known
step 'libraries, tests and examples without a warning' make --quiet SCRATCH="$scratch" all tests
before=$(find . | sort)
step 'sizes and offsets of the structs' "$scratch/abi"
step 'each call, by C99' "${valgrind_of[@]}" "$scratch/calls"
step 'each call, by C++17' "${valgrind_of[@]}" "$scratch/calls_cpp"
step 'the header for C++17' "${valgrind_of[@]}" "$scratch/header"
step 'decimals and doubles, by C99' "${valgrind_of[@]}" "$scratch/numbers" 300
step 'decimals and doubles, by C++17' "$scratch/numbers_cpp" 100000
step 'pictures of all faults' "$scratch/pictures" 20000
step 'rows of the conformance suite' "$scratch/rows"
step 'rows of the conformance suite, under valgrind' "${valgrind_of[@]}" "$scratch/rows"
step 'bytes by chance, under valgrind' "${valgrind_of[@]}" "$scratch/bytes" 3000
step 'each allocation refused in turn' "${valgrind_of[@]}" "$scratch/memory"
step 'the same by the shared library, all else hidden' "$scratch/memory_shared"
step 'threads' "$scratch/threads"
step 'threads, under valgrind' "${valgrind_of[@]}" "$scratch/threads"
step 'the catalogue' catalogue "$scratch/catalogue"
step 'the prices' prices "$scratch/prices"
step 'tests and examples by AddressSanitizer, UBSan and ThreadSanitizer' sanitize
step 'threads, by these' "$scratch/threads_tsan"
step 'each call, by these' "$scratch/calls_asan"
step 'decimals and doubles, by these' "$scratch/numbers_asan" 20000
step 'bytes by chance, by these' "$scratch/bytes_asan" 50000
step 'pictures of all faults, by these' "$scratch/pictures_asan" 2000
step 'the header for C++17, by these' "$scratch/header_asan"
step 'the catalogue, by these' catalogue "$scratch/catalogue_asan"
step 'the prices, by these' prices "$scratch/prices_asan"
step 'a hundred hostile formats for the catalogue' hostile_catalogue
step 'a hundred hostile formats for the prices' hostile_prices
step 'an installed copy' installed_copy
step 'a package' package
step 'the programs of README.md' readme
step 'a hundred hostile formats for those that take one' hostile_readme
command -v cmake >/dev/null && step 'versions by CMake' cmake_versions
command -v man >/dev/null && step 'the page of the manual' man_page
step 'no file is left' diff <(echo "$before") <(find . | sort)
echo "bindings/c: passed, $passed steps"
