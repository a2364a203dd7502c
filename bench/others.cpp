// Times calls of bits.h beside those of other sets of bits: std::bitset, boost::dynamic_bitset and two builds of CRoaring.
// `run_others` builds it, and writes what it prints to results/others.csv: the rows but for the processor.
//
// usage: others LIBRARY    LIBRARY: the file of the CRoaring that Debian builds. The other build is linked in.
#include <algorithm>
#include <bitset>
#include <boost/dynamic_bitset.hpp>
#include <chrono>
#include <cmath>
#include <cstdint>
#include <cstdio>
#include <cstdlib>
#include <dlfcn.h>
#include <functional>
#include <new>
#include <random>
#include <roaring/roaring.h>
#include <vector>

extern "C" {
#include "bits.h"
}

constexpr size_t LENGTH = 1000000;

// Each set's words begin at a multiple of this, so that none lie better than the others'.
constexpr std::align_val_t LINE{64};

template <class T> struct InLines {
    using value_type = T;
    InLines() = default;
    template <class U> InLines(const InLines<U> &) {}
    T *allocate(size_t count) { return static_cast<T *>(operator new(count * sizeof(T), LINE)); }
    void deallocate(T *words, size_t) { operator delete(words, LINE); }
    template <class U> bool operator==(const InLines<U> &) const { return true; }
};

using Std = std::bitset<LENGTH>;
using Boost = boost::dynamic_bitset<uint64_t, InLines<uint64_t>>;

static volatile size_t kept;

// The least time of a call, in nanoseconds.
static double least(const std::function<size_t()> &call) {
    double found = INFINITY;
    for (int turn = 0; turn < 201; turn++) {
        size_t rounds = 1;
        for (;; rounds *= 2) {
            auto begun = std::chrono::steady_clock::now();
            size_t total = 0;
            for (size_t i = 0; i < rounds; i++)
                total += call();
            std::chrono::duration<double, std::nano> took = std::chrono::steady_clock::now() - begun;
            kept = total;
            if (took.count() > 200000) {
                found = std::min(found, took.count() / double(rounds));
                break;
            }
        }
    }
    return found;
}

static void stop(const char *why) {
    std::fprintf(stderr, "others: %s\n", why);
    std::exit(1);
}

using Sides = std::vector<std::function<size_t()>>;

// Stops where the sides do not answer the same.
static void compare(const char *call, const Sides &sides) {
    for (const auto &side : sides)
        if (side() != sides[0]())
            stop(call);
}

// The sides behind ours.
static const char *const LIBRARIES[] = {"std::bitset", "boost::dynamic_bitset", "CRoaring, as Debian builds it",
                                        "CRoaring, built for the same processor"};

static void row(const char *call, double share, const Sides &sides) {
    double ours = least(sides[0]) / 1000;
    for (size_t other = 1; other < sides.size(); other++)
        std::printf("\"%s\",%g,\"%s\",%.3f,%.3f\n", call, 100 * share, LIBRARIES[other - 1], ours, least(sides[other]) / 1000);
    std::fflush(stdout);
}

// The calls of a build of CRoaring.
struct Roaring {
    decltype(&roaring_bitmap_create) create = roaring_bitmap_create;
    decltype(&roaring_bitmap_free) free = roaring_bitmap_free;
    decltype(&roaring_bitmap_add) add = roaring_bitmap_add;
    decltype(&roaring_bitmap_run_optimize) run_optimize = roaring_bitmap_run_optimize;
    decltype(&roaring_bitmap_or_inplace) or_inplace = roaring_bitmap_or_inplace;
    decltype(&roaring_bitmap_and_cardinality) and_cardinality = roaring_bitmap_and_cardinality;
    decltype(&roaring_bitmap_get_cardinality) get_cardinality = roaring_bitmap_get_cardinality;
    decltype(&roaring_iterate) iterate = roaring_iterate;

    // The build that is linked in.
    Roaring() = default;

    // The build in a file.
    explicit Roaring(const char *file) {
        void *library = dlopen(file, RTLD_NOW | RTLD_LOCAL | RTLD_DEEPBIND);
        if (!library)
            stop(dlerror());
        auto take = [library](auto &call, const char *name) {
            call = reinterpret_cast<std::remove_reference_t<decltype(call)>>(dlsym(library, name));
            if (!call)
                stop(dlerror());
        };
        take(create, "roaring_bitmap_create");
        take(free, "roaring_bitmap_free");
        take(add, "roaring_bitmap_add");
        take(run_optimize, "roaring_bitmap_run_optimize");
        take(or_inplace, "roaring_bitmap_or_inplace");
        take(and_cardinality, "roaring_bitmap_and_cardinality");
        take(get_cardinality, "roaring_bitmap_get_cardinality");
        take(iterate, "roaring_iterate");
    }
};

// As Debian builds it, and as it is linked in.
static Roaring debian, built;

// The same drawn positions in each kind of set.
struct Sets {
    std::vector<uint64_t, InLines<uint64_t>> words = std::vector<uint64_t, InLines<uint64_t>>(bits_words(LENGTH));
    bits ours = BITS_OF(words.data(), LENGTH);
    alignas(64) Std plain;
    Boost boost = Boost(LENGTH);
    roaring_bitmap_t *of_debian = debian.create(), *of_built = built.create();

    Sets(double share, unsigned number) {
        std::mt19937_64 random(number);
        std::bernoulli_distribution drawn(share);
        for (size_t p = 0; p < LENGTH; p++)
            if (drawn(random)) {
                bits_put(&ours, p);
                plain.set(p);
                boost.set(p);
                debian.add(of_debian, uint32_t(p));
                built.add(of_built, uint32_t(p));
            }
        debian.run_optimize(of_debian);
        built.run_optimize(of_built);
    }
    ~Sets() { debian.free(of_debian), built.free(of_built); }
};

static size_t sum_of(const bits *set) {
    size_t sum = 0;
    BITS_FOR_EACH(p, set) sum += p;
    return sum;
}

static size_t sum_of(const Std &set) {
    size_t sum = 0;
    for (size_t p = set._Find_first(); p < LENGTH; p = set._Find_next(p))
        sum += p;
    return sum;
}

static size_t sum_of(const Boost &set) {
    size_t sum = 0;
    for (size_t p = set.find_first(); p != Boost::npos; p = set.find_next(p))
        sum += p;
    return sum;
}

static size_t sum_of(const Roaring &build, const roaring_bitmap_t *set) {
    size_t sum = 0;
    auto add = [](uint32_t p, void *sum) { return *static_cast<size_t *>(sum) += p, true; };
    build.iterate(set, add, &sum);
    return sum;
}

static Sets *a, *b;

static size_t unite(const Roaring &build, roaring_bitmap_t *set, const roaring_bitmap_t *other) {
    build.or_inplace(set, other);
    return 0;
}

static void rows(double share) {
    Sides unions = {[] { return size_t(bits_union_with(&a->ours, &b->ours)); }, [] { return size_t((a->plain |= b->plain)[0]); },
                    [] { return size_t((a->boost |= b->boost)[0]); },
                    [] { return unite(debian, a->of_debian, b->of_debian); },
                    [] { return unite(built, a->of_built, b->of_built); }};
    Sides shared = {[] { return bits_intersection_count(&a->ours, &b->ours); }, [] { return (a->plain & b->plain).count(); },
                    [] { return (a->boost & b->boost).count(); },
                    [] { return size_t(debian.and_cardinality(a->of_debian, b->of_debian)); },
                    [] { return size_t(built.and_cardinality(a->of_built, b->of_built)); }};
    Sides counts = {[] { return bits_count_ones(&a->ours, 0, LENGTH); }, [] { return a->plain.count(); },
                    [] { return a->boost.count(); }, [] { return size_t(debian.get_cardinality(a->of_debian)); },
                    [] { return size_t(built.get_cardinality(a->of_built)); }};
    Sides walks = {[] { return sum_of(&a->ours); }, [] { return sum_of(a->plain); }, [] { return sum_of(a->boost); },
                   [] { return sum_of(debian, a->of_debian); }, [] { return sum_of(built, a->of_built); }};
    a = new Sets(share, 1), b = new Sets(share, 2);
    row("union in place", share, unions);
    compare("the unions are not the same", walks);
    delete a;
    a = new Sets(share, 1);
    compare("the counts of both are not the same", shared);
    row("count of both", share, shared);
    compare("the counts are not the same", counts);
    row("count", share, counts);
    compare("the walks are not the same", walks);
    row("whole walk", share, walks);
    delete a, delete b;
}

int main(int count, char **words) {
    if (count != 2)
        stop("the file of a library is missing");
    debian = Roaring(words[1]);
    for (double share : {0.001, 0.01, 0.5})
        rows(share);
}
