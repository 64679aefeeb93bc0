// Writes the tables of src/value: rows of operands with the values that C++ gives, or the name of
// the fault where C++ leaves the result undefined. Run in this folder, by:
//
//     g++ -std=c++20 -O0 -w -o table table.cpp && ./table ../src/value && rm table && (cd .. && rt fmt)
//
// No undefined operation is executed: each is told apart by wider arithmetic first.
#include <cstdint>
#include <cstdio>
#include <cstdlib>
#include <limits>
#include <set>
#include <string>
#include <type_traits>
#include <vector>

using Bool = bool;
using Int = int;
using Uint = unsigned int;
using Long = long long;
using Ulong = unsigned long long;
using Wide = __int128;

static_assert(sizeof(Int) == 4 && sizeof(Long) == 8);

template <class T> const char *kind() {
    if constexpr (std::is_same_v<T, Bool>) return "Bool";
    else if constexpr (std::is_same_v<T, Int>) return "Int";
    else if constexpr (std::is_same_v<T, Uint>) return "Uint";
    else if constexpr (std::is_same_v<T, Long>) return "Long";
    else { static_assert(std::is_same_v<T, Ulong>); return "Ulong"; }
}

template <class T> const char *machine() {
    if constexpr (std::is_same_v<T, Int>) return "i32";
    else if constexpr (std::is_same_v<T, Uint>) return "u32";
    else if constexpr (std::is_same_v<T, Long>) return "i64";
    else { static_assert(std::is_same_v<T, Ulong>); return "u64"; }
}

template <class T> std::string show(T v) {
    std::string text;
    if constexpr (std::is_same_v<T, Bool>) text = v ? "true" : "false";
    else if (v == std::numeric_limits<T>::min() && v != 0) text = std::string(machine<T>()) + "::MIN";
    else if (v == std::numeric_limits<T>::max()) text = std::string(machine<T>()) + "::MAX";
    else text = std::to_string(v);
    return std::string(kind<T>()) + "(" + text + ")";
}

// The edges of a kind: 0, 1, -1, least, greatest, the widths and one less, and some between.
template <class T> std::vector<T> edges() {
    if constexpr (std::is_same_v<T, Bool>) return {false, true};
    const std::vector<Wide> all = {
        0, 1, -1, 7, -7, 31, 32, 63, 64,
        Wide(2147483647), Wide(-2147483647) - 1, Wide(2147483648), Wide(4294967295), Wide(4294967296),
        Wide(std::numeric_limits<Long>::max()), Wide(std::numeric_limits<Long>::min()),
        Wide(std::numeric_limits<Long>::max()) + 1, Wide(std::numeric_limits<Ulong>::max()),
    };
    std::vector<T> held;
    for (Wide z : all)
        if (z >= Wide(std::numeric_limits<T>::min()) && z <= Wide(std::numeric_limits<T>::max())) held.push_back(T(z));
    return held;
}

struct Outcome {
    std::string fault;  // empty where C++ gives a value
    std::string value;
};

template <class T> Outcome given(T v) { return {"", show(v)}; }
Outcome faulted(const char *name) { return {name, ""}; }

template <class T> bool holds(Wide z) { return z >= Wide(std::numeric_limits<T>::min()) && z <= Wide(std::numeric_limits<T>::max()); }

// `+`, `-` and `*`: what the operator gives, unless its exact result is outside a signed kind.
template <class A, class B> Outcome sum(char sign, A a, B b) {
    using C = decltype(a + b);
    if constexpr (std::is_signed_v<C>) {
        C exact;
        bool over = sign == '+' ? __builtin_add_overflow(C(a), C(b), &exact)
                  : sign == '-' ? __builtin_sub_overflow(C(a), C(b), &exact)
                                : __builtin_mul_overflow(C(a), C(b), &exact);
        if (over) return faulted("Overflow");
    }
    return sign == '+' ? given(a + b) : sign == '-' ? given(a - b) : given(a * b);
}

// `/` and `%`
template <class A, class B> Outcome quotient(char sign, A a, B b) {
    using C = decltype(a / b);
    if (C(b) == 0) return faulted("DivideByZero");
    if (!holds<C>(Wide(C(a)) / Wide(C(b)))) return faulted("Overflow");
    return sign == '/' ? given(a / b) : given(a % b);
}

// `<<` and `>>`
template <class A, class B> Outcome shift(char sign, A a, B b) {
    const Wide width = 8 * sizeof(decltype(+a));
    if (Wide(b) < 0 || Wide(b) >= width) return faulted("ShiftRange");
    return sign == '<' ? given(a << b) : given(a >> b);
}

const std::vector<std::string> names = {
    "Add", "Subtract", "Multiply", "Divide", "Remainder", "BitAnd", "BitOr", "BitXor",
    "ShiftLeft", "ShiftRight",
};

template <class A, class B> Outcome outcome(const std::string &op, A a, B b) {
    if (op == "Add") return sum('+', a, b);
    if (op == "Subtract") return sum('-', a, b);
    if (op == "Multiply") return sum('*', a, b);
    if (op == "Divide") return quotient('/', a, b);
    if (op == "Remainder") return quotient('%', a, b);
    if (op == "BitAnd") return given(a & b);
    if (op == "BitOr") return given(a | b);
    if (op == "BitXor") return given(a ^ b);
    if (op == "ShiftLeft") return shift('<', a, b);
    if (op == "ShiftRight") return shift('>', a, b);
    return given(a < b);  // Less, of the chosen cases
}

// ---- the tables

std::vector<std::string> rows;
std::string folder;
FILE *out = nullptr;

// The rows that follow go into the file of this name.
void file(const char *name, const char *about, const char *used) {
    if (out) std::fclose(out);
    out = std::fopen((folder + "/" + name + ".rt").c_str(), "w");
    std::fprintf(out, "//! %s Made by tests_table/table.cpp.\n\n%s", about, used);
}

void flush(const std::string &name, const std::string &type, const char *about) {
    std::fprintf(out, "\n// %s\npub static %s: [%s; %zu] = [\n", about, name.c_str(), type.c_str(), rows.size());
    for (const auto &row : rows) std::fprintf(out, "    %s,\n", row.c_str());
    std::fprintf(out, "];\n");
    rows.clear();
}

std::string answer(const Outcome &o) { return o.fault.empty() ? "Ok(" + o.value + ")" : "Err(" + o.fault + ")"; }

template <class A, class B> void binary_row(const std::string &op, A a, B b) {
    rows.push_back("(" + op + ", " + show(a) + ", " + show(b) + ", " + answer(outcome(op, a, b)) + ")");
}

unsigned seed = 1;
unsigned random_below(unsigned n) {
    seed = (seed * 1103515245u + 12345u) % 2147483648u;
    return (seed >> 8) % n;
}

// Calls `visit` for the edges of two kinds in a random order.
template <class A, class B, class F> void shuffled(F visit) {
    std::vector<std::pair<A, B>> pairs;
    for (A a : edges<A>())
        for (B b : edges<B>()) pairs.push_back({a, b});
    while (!pairs.empty()) {
        unsigned at = random_below(pairs.size());
        auto [a, b] = pairs[at];
        pairs.erase(pairs.begin() + at);
        visit(a, b);
    }
}

// One row for each fault that the edges of two kinds meet, and one for a value.
template <class A, class B> void pair_rows(const std::string &op) {
    std::set<std::string> seen;
    shuffled<A, B>([&](A a, B b) {
        if (seen.insert(outcome(op, a, b).fault).second) binary_row(op, a, b);
    });
}

// One row for each order of the edges of two kinds, by all six comparisons.
template <class A, class B> void order_rows() {
    std::set<std::string> seen;
    shuffled<A, B>([&](A a, B b) {
        const char *order = a < b ? "Less" : a == b ? "Equal" : "Greater";
        if ((a != b) == (a == b) || (a <= b) == (a > b) || (a >= b) == (a < b)) std::abort();
        if (seen.insert(order).second) rows.push_back("(" + show(a) + ", " + show(b) + ", " + order + ")");
    });
}

template <class A> void left_order_rows() {
    order_rows<A, Bool>();
    order_rows<A, Int>();
    order_rows<A, Uint>();
    order_rows<A, Long>();
    order_rows<A, Ulong>();
}

template <class A> void left_rows(const std::string &op) {
    pair_rows<A, Bool>(op);
    pair_rows<A, Int>(op);
    pair_rows<A, Uint>(op);
    pair_rows<A, Long>(op);
    pair_rows<A, Ulong>(op);
}

template <class T> void unary_rows() {
    for (T v : edges<T>()) {
        using P = decltype(+v);
        bool over = std::is_signed_v<P> && P(v) == std::numeric_limits<P>::min();
        Outcome minus = faulted("Overflow");
        if (!over) minus = given(-v);
        rows.push_back("(" + show(v) + ", " + answer(minus) + ", " + show(~v) + ", " + (v ? "true" : "false") + ")");
    }
}

template <class T, class To> void convert_row(T v) {
    rows.push_back("(" + show(v) + ", Kind::" + kind<To>() + ", " + show(To(v)) + ")");
}

template <class T> void convert_rows() {
    for (T v : edges<T>()) {
        convert_row<T, Bool>(v);
        convert_row<T, Int>(v);
        convert_row<T, Uint>(v);
        convert_row<T, Long>(v);
        convert_row<T, Ulong>(v);
    }
}

template <class A, class B> void common_row() {
    rows.push_back(std::string("(Kind::") + kind<A>() + ", Kind::" + kind<B>() + ", Kind::" + kind<decltype(A() + B())>() + ")");
}

template <class A> void common_rows() {
    common_row<A, Bool>();
    common_row<A, Int>();
    common_row<A, Uint>();
    common_row<A, Long>();
    common_row<A, Ulong>();
}

std::string capital(const std::string &name) {
    std::string out;
    for (char c : name) {
        if (c >= 'A' && c <= 'Z' && !out.empty()) out += '_';
        out += c >= 'a' && c <= 'z' ? char(c - 'a' + 'A') : c;
    }
    return out;
}

const char *binary_uses =
    "use super::BinaryRow;\n"
    "use ooo_value::Fault::{DivideByZero, Overflow, ShiftRange};\n"
    "use ooo_value::Op::*;\n"
    "use ooo_value::Value::{Bool, Int, Long, Uint, Ulong};\n";

// The tables of the operators from one name up to before another.
void operators(size_t from, size_t to) {
    for (size_t at = from; at < to; at++) {
        const std::string &op = names[at];
        left_rows<Bool>(op);
        left_rows<Int>(op);
        left_rows<Uint>(op);
        left_rows<Long>(op);
        left_rows<Ulong>(op);
        flush(capital(op), "BinaryRow", ("The edges of each two kinds, by " + op + ".").c_str());
    }
}

int main(int argc, char **argv) {
    folder = argv[1];
    file("chosen", "The cases that are easiest to get wrong.", binary_uses);
    binary_row("Add", 2147483647, 1);
    binary_row("Add", 4294967295u, 1u);
    binary_row("Divide", -2147483647 - 1, -1);
    binary_row("Remainder", -2147483647 - 1, -1);
    binary_row("Divide", std::numeric_limits<Long>::min(), -1);
    binary_row("Remainder", std::numeric_limits<Long>::min(), -1ll);
    binary_row("Divide", -7, 2);
    binary_row("Remainder", -7, 2);
    binary_row("Divide", 7, -2);
    binary_row("Remainder", 7, -2);
    binary_row("Less", -1, 0u);
    binary_row("Less", -1, 0ull);
    binary_row("Less", -1, 0ll);
    binary_row("ShiftRight", -1, 31);
    binary_row("ShiftRight", -7ll, 1ull);
    binary_row("ShiftRight", 1u, 32ll);
    binary_row("ShiftLeft", 1, 31);
    binary_row("ShiftLeft", 1, 32);
    binary_row("ShiftLeft", 1ll, 63);
    binary_row("ShiftLeft", 1ll, 64);
    binary_row("ShiftLeft", true, -1);
    binary_row("Subtract", 0u, 1u);
    binary_row("Subtract", 0ull, 1);
    binary_row("Add", true, true);
    flush("CHOSEN", "BinaryRow", "The cases that are easiest to get wrong.");
    file("sums", "Sums, differences and products.", binary_uses);
    operators(0, 3);
    file("quotients", "Quotients and rests.", binary_uses);
    operators(3, 5);
    file("bits", "Operators on bits, and shifts.", binary_uses);
    operators(5, 10);
    file("comparisons", "Comparisons.",
         "use super::OrderRow;\nuse ooo_value::Value::{Bool, Int, Long, Uint, Ulong};\nuse std::cmp::Ordering::{Equal, Greater, Less};\n");
    left_order_rows<Bool>(); left_order_rows<Int>(); left_order_rows<Uint>(); left_order_rows<Long>(); left_order_rows<Ulong>();
    flush("ORDERS", "OrderRow", "The edges of each two kinds, and their order in the common kind.");
    file("single", "Operators on one value.",
         "use super::UnaryRow;\nuse ooo_value::Fault::Overflow;\nuse ooo_value::Value::{Bool, Int, Long, Uint, Ulong};\n");
    unary_rows<Bool>(); unary_rows<Int>(); unary_rows<Uint>(); unary_rows<Long>(); unary_rows<Ulong>();
    flush("UNARY", "UnaryRow", "The edges of each kind.");
    file("conversions", "Conversions, and common kinds.",
         "use super::{CommonRow, ConvertRow};\nuse ooo_value::Kind;\nuse ooo_value::Value::{Bool, Int, Long, Uint, Ulong};\n");
    convert_rows<Bool>(); convert_rows<Int>(); convert_rows<Uint>(); convert_rows<Long>(); convert_rows<Ulong>();
    flush("CONVERSIONS", "ConvertRow", "The edges of each kind, in each kind.");
    common_rows<Bool>(); common_rows<Int>(); common_rows<Uint>(); common_rows<Long>(); common_rows<Ulong>();
    flush("COMMON", "CommonRow", "Each two kinds.");
    std::fclose(out);
}
