/* Zaluxhoni for C++17 and later: the calls of zaluxhoni.h and zaluxhoni_files.h with destructors, exceptions and types.
   docs/CPP.md is the guide.

       zaluxhoni::segment shop = zaluxhoni::segment::create(4096);
       shop.construct<std::int64_t>("opened", 1972);
       shop.vector<std::int64_t>("queue").push_back(1);
       shop.map<std::int32_t, std::int64_t>("prices")[7] = 250;

   `vector`, `map`, `string`, `strings` and `array` are references: a copy refers to the same object of the segment.

   A call that the library refuses throws `zaluxhoni::error`, and then nothing has changed, but for `growing`, which is
   several calls. A segment, and all that was asked of it, are used on one thread, one call at a time. */
#ifndef ZALUXHONI_HPP
#define ZALUXHONI_HPP

#if __cplusplus < 201703L
#error "zaluxhoni.hpp needs C++17 or later: compile with -std=c++17"
#endif

#include "zaluxhoni.h"
#include "zaluxhoni_files.h"
#include "zaluxhoni_rows.h"

#include <algorithm>
#include <cerrno>
#include <chrono>
#include <cstddef>
#include <cstdint>
#include <cstring>
#include <exception>
#include <functional>
#include <initializer_list>
#include <iosfwd>
#include <iterator>
#include <limits>
#include <map>
#include <memory>
#include <new>
#include <optional>
#include <stdexcept>
#include <string>
#include <string_view>
#include <system_error>
#include <thread>
#include <type_traits>
#include <utility>
#include <vector>

#if __cplusplus >= 202002L
#include <ranges>
#include <span>
#include <version>
#ifdef __cpp_lib_format
#include <format>
#endif
#endif

namespace zaluxhoni {

// ---- errors

/// Gives the words of a code, such as `no space`.
inline std::string words(zx_code code) {
    zx_text text{};
    zx_file_words(code, &text);
    if (text.len == 0) return "code " + std::to_string(code);
    return std::string(reinterpret_cast<const char *>(text.at), text.len);
}

namespace detail {

class code_category final : public std::error_category {
  public:
    const char *name() const noexcept override { return "zaluxhoni"; }
    std::string message(int code) const override { return words(static_cast<zx_code>(code)); }
    std::error_condition default_error_condition(int code) const noexcept override {
        if (code == ZX_NO_MEMORY) return std::errc::not_enough_memory;
        return {code, *this};
    }
};

} // namespace detail

/// Returns the category of the codes in zaluxhoni.h and zaluxhoni_files.h, for `std::error_code`.
inline const std::error_category &category() noexcept {
    static const detail::code_category one;
    return one;
}

/// The base of all errors: `refused`, `file_error` and `outdated`. `code()` is one of ZX_.. in zaluxhoni.h and
/// zaluxhoni_files.h, or 0 for `outdated`, and `what()` says it in words. Each error that is thrown also derives from
/// an exception of std: `out_of_range` and `absent` from std::out_of_range, `no_memory` from std::bad_alloc, `outdated`
/// from std::logic_error, and each other one from std::system_error. These have only std::exception in common, and a
/// class with two such bases could not be caught as one: so `error` itself has none, but converts to it.
class error {
  public:
    zx_code code() const noexcept { return code_; }
    virtual const char *what() const noexcept = 0;
    operator const std::exception &() const noexcept { return standard(); }

  protected:
    explicit error(zx_code code) noexcept : code_(code) {}
    error(const error &) = default;
    error &operator=(const error &) = default;
    ~error() = default;

  private:
    virtual const std::exception &standard() const noexcept = 0;

    zx_code code_;
};

/// The library refused a call.
class refused : public error {
  protected:
    explicit refused(zx_code code) noexcept : error(code) {}
    refused(const refused &) = default;
    refused &operator=(const refused &) = default;
    ~refused() = default;
};

namespace detail {

// -- the exceptions of std that stand for a code

class as_system_error : public std::system_error {
  public:
    explicit as_system_error(zx_code code) : std::system_error(static_cast<int>(code), category()) {}
};
class as_out_of_range : public std::out_of_range {
  public:
    explicit as_out_of_range(zx_code code) : std::out_of_range(words(code)) {}
};
class as_bad_alloc : public std::bad_alloc {
  public:
    explicit as_bad_alloc(zx_code) noexcept {}
    const char *what() const noexcept override { return "out of memory"; }
};

template <zx_code CODE> inline constexpr bool is_out_of_range = CODE == ZX_OUT_OF_RANGE || CODE == ZX_ABSENT;
template <zx_code CODE>
using standard_of =
    std::conditional_t<CODE == ZX_NO_MEMORY, as_bad_alloc,
                       std::conditional_t<is_out_of_range<CODE>, as_out_of_range, as_system_error>>;

/// A refusal that is thrown: an exception of std, and `refused`.
template <class Standard> class refusal : public Standard, public refused {
  public:
    explicit refusal(zx_code code) : Standard(code), refused(code) {}
    using refused::code;
    const char *what() const noexcept override { return Standard::what(); }

  private:
    const std::exception &standard() const noexcept override { return *this; }
};

} // namespace detail

/// The error of one code, so that a program can catch it alone.
template <zx_code CODE> class error_of : public detail::refusal<detail::standard_of<CODE>> {
  public:
    error_of() : detail::refusal<detail::standard_of<CODE>>(CODE) {}
};

using read_only = error_of<ZX_READ_ONLY>;
using exists = error_of<ZX_EXISTS>;
using not_found = error_of<ZX_NOT_FOUND>;
using wrong_kind = error_of<ZX_WRONG_KIND>;
using out_of_range = error_of<ZX_OUT_OF_RANGE>;
using no_space = error_of<ZX_NO_SPACE>;
using absent = error_of<ZX_ABSENT>;
using closed = error_of<ZX_CLOSED>;
using bad_key = error_of<ZX_BAD_KEY>;
using bad_name = error_of<ZX_BAD_NAME>;
using bad_kind = error_of<ZX_BAD_KIND>;
using bad_value = error_of<ZX_BAD_VALUE>;
using bad_count = error_of<ZX_BAD_COUNT>;
using bad_size = error_of<ZX_BAD_SIZE>;
using bad_mode = error_of<ZX_BAD_MODE>;
using short_buffer = error_of<ZX_SHORT_BUFFER>;
using null_slice = error_of<ZX_NULL_SLICE>;
using no_memory = error_of<ZX_NO_MEMORY>;
using short_region = error_of<ZX_SHORT_REGION>;
using bad_growth = error_of<ZX_BAD_GROWTH>;
using too_large = error_of<ZX_TOO_LARGE>;
/// The segment has no file, so `save_file()` cannot save it.
using no_file = error_of<ZX_FILE_NONE>;

/// The bytes are no image of a segment. `number()` is the class of docs/FORMAT.md, from 1 to 12, and `place()` the
/// offset of a byte that shows it, as `zx_explain` says.
class bad_image : public detail::refusal<detail::as_system_error> {
  public:
    explicit bad_image(zx_code code, std::uint64_t place = 0) : refusal(code), place_(place) {}
    int number() const noexcept { return static_cast<int>(code()) - 100; }
    std::uint64_t place() const noexcept { return place_; }

  private:
    std::uint64_t place_;
};

/// Throws the error of a code; for an image class, with the offset that shows it.
[[noreturn]] inline void throw_code(zx_code code, std::uint64_t place = 0) {
    switch (code) {
    case ZX_READ_ONLY: throw read_only();
    case ZX_EXISTS: throw exists();
    case ZX_NOT_FOUND: throw not_found();
    case ZX_WRONG_KIND: throw wrong_kind();
    case ZX_OUT_OF_RANGE: throw out_of_range();
    case ZX_NO_SPACE: throw no_space();
    case ZX_ABSENT: throw absent();
    case ZX_CLOSED: throw closed();
    case ZX_BAD_KEY: throw bad_key();
    case ZX_BAD_NAME: throw bad_name();
    case ZX_BAD_KIND: throw bad_kind();
    case ZX_BAD_VALUE: throw bad_value();
    case ZX_BAD_COUNT: throw bad_count();
    case ZX_BAD_SIZE: throw bad_size();
    case ZX_BAD_MODE: throw bad_mode();
    case ZX_SHORT_BUFFER: throw short_buffer();
    case ZX_NULL_SLICE: throw null_slice();
    case ZX_NO_MEMORY: throw no_memory();
    case ZX_SHORT_REGION: throw short_region();
    case ZX_BAD_GROWTH: throw bad_growth();
    case ZX_TOO_LARGE: throw too_large();
    case ZX_FILE_NONE: throw no_file();
    default:
        if (ZX_TRUNCATED <= code && code <= ZX_ORPHAN_BLOCK) throw bad_image(code, place);
        throw detail::refusal<detail::as_system_error>(code);
    }
}

/// A file was refused. `code()` is the error of the system, and `file_code()` one of ZX_FILE_.. in zaluxhoni_files.h.
class file_error : public std::system_error, public error {
  public:
    file_error(zx_code code, int number, const std::string &path)
        : std::system_error(number, std::generic_category(), (path.empty() ? path : path + ": ") + words(code)),
          zaluxhoni::error(code) {}
    using std::system_error::code;
    zx_code file_code() const noexcept { return zaluxhoni::error::code(); }
    const char *what() const noexcept override { return std::system_error::what(); }

  private:
    const std::exception &standard() const noexcept override { return *this; }
};

/// The error of one code, so that a program can catch it alone.
template <zx_code CODE> class file_error_of : public file_error {
  public:
    file_error_of(int number, const std::string &path) : file_error(CODE, number, path) {}
};

using file_in_use = file_error_of<ZX_FILE_IN_USE>;
using file_exists = file_error_of<ZX_FILE_EXISTS>;
using file_missing = file_error_of<ZX_FILE_MISSING>;
using file_replaced = file_error_of<ZX_FILE_REPLACED>;
/// The file is saved, but its folder is not synced.
using file_unsynced = file_error_of<ZX_FILE_UNSYNCED>;
using file_forked = file_error_of<ZX_FILE_FORKED>;
/// The log beside the file belongs to another file, or is damaged.
using file_log_foreign = file_error_of<ZX_FILE_LOG_FOREIGN>;
/// A commit failed while the system synced it, and may be on the disk or not; only `save_file` may follow.
using file_unsure = file_error_of<ZX_FILE_UNSURE>;
/// A transaction is open: it is saved when it ends, and not before.
using file_in_step = file_error_of<ZX_FILE_IN_STEP>;
/// A file that is no log has the name FILE-log, so nothing is committed: remove or rename it.
using file_log_in_the_way = file_error_of<ZX_FILE_LOG_IN_THE_WAY>;
/// FILE-log has commits of a file that is gone, so no file is created: put the file back, or remove its log.
using file_log_left = file_error_of<ZX_FILE_LOG_LEFT>;

/// Throws the error of a code that a file call returned.
[[noreturn]] inline void throw_file_code(zx_code code, const zx_file &file, const std::string &path) {
    const int error = file.error;
    switch (code) {
    case ZX_FILE_IN_USE: throw file_in_use(error, path);
    case ZX_FILE_EXISTS: throw file_exists(error, path);
    case ZX_FILE_MISSING: throw file_missing(error, path);
    case ZX_FILE_REPLACED: throw file_replaced(error, path);
    case ZX_FILE_UNSYNCED: throw file_unsynced(error, path);
    case ZX_FILE_FORKED: throw file_forked(error, path);
    case ZX_FILE_LOG_FOREIGN: throw file_log_foreign(error, path);
    case ZX_FILE_UNSURE: throw file_unsure(error, path);
    case ZX_FILE_IN_STEP: throw file_in_step(error, path);
    case ZX_FILE_LOG_IN_THE_WAY: throw file_log_in_the_way(error, path);
    case ZX_FILE_LOG_LEFT: throw file_log_left(error, path);
    default:
        if (ZX_FILE_IN_USE <= code && code <= ZX_FILE_LOG_LEFT) throw file_error(code, error, path);
        throw_code(code, file.place);
    }
}

/// Throws unless the code is ZX_DONE.
inline void check_code(zx_code code) {
    if (code != ZX_DONE) throw_code(code);
}

/// Tells whether a call found something; throws on an error.
inline bool is_there(zx_code code) {
    if (code == ZX_ABSENT) return false;
    check_code(code);
    return true;
}

// ---- types

namespace detail {

template <class T>
inline constexpr bool is_character = std::is_same_v<T, char> || std::is_same_v<T, wchar_t> ||
#ifdef __cpp_char8_t
                                     std::is_same_v<T, char8_t> ||
#endif
                                     std::is_same_v<T, char16_t> || std::is_same_v<T, char32_t>;

/// The library's scalar kind for T, or 0.
template <class T> constexpr std::uint32_t scalar_kind() {
    if (std::is_same_v<T, bool>) return ZX_BOOL;
    if (!std::is_integral_v<T> || is_character<T>) return 0;
    if (sizeof(T) == 1 && std::is_unsigned_v<T>) return ZX_U8;
    if (sizeof(T) == 4 && std::is_signed_v<T>) return ZX_I32;
    if (sizeof(T) == 8) return std::is_signed_v<T> ? ZX_I64 : ZX_U64;
    return 0;
}

/// Whether values of T refer to memory outside themselves.
template <class T> inline constexpr bool leads_elsewhere =
    std::is_pointer_v<T> || std::is_member_pointer_v<T> || std::is_null_pointer_v<T>;
template <class C, class R> inline constexpr bool leads_elsewhere<std::basic_string_view<C, R>> = true;
template <class T> inline constexpr bool leads_elsewhere<std::initializer_list<T>> = true;
template <class T> inline constexpr bool leads_elsewhere<std::reference_wrapper<T>> = true;
#if __cplusplus >= 202002L
template <class T, std::size_t N> inline constexpr bool leads_elsewhere<std::span<T, N>> = true;
#endif

/// The product, or the largest number if it overflows: that is never an index.
constexpr std::uint64_t product(std::uint64_t a, std::uint64_t b) {
    return b != 0 && a > UINT64_MAX / b ? UINT64_MAX : a * b;
}

} // namespace detail

/// Whether T is a scalar of the library: bool, uint8_t, int32_t, int64_t or uint64_t.
template <class T> inline constexpr bool is_scalar = detail::scalar_kind<T>() != 0;

/// Whether T can be stored: a scalar, or a trivially copyable type that refers to nothing else, such as `double`, an
/// integer of another width, an enum, or a struct of such. Pointers, views and std::string cannot.
template <class T>
inline constexpr bool is_storable = std::is_trivially_copyable_v<T> && std::is_default_constructible_v<T> &&
                                    std::is_object_v<T> && !std::is_array_v<T> && !std::is_const_v<T> &&
                                    !detail::leads_elsewhere<T>;

/// How values of T are stored: a scalar as itself, any other type as its bytes, each a std::uint8_t.
template <class T> struct stored {
    static_assert(is_storable<T>, "this type cannot be stored: it is not copied byte by byte, or it leads elsewhere");
    static constexpr std::uint32_t kind = is_scalar<T> ? detail::scalar_kind<T>() : std::uint32_t{ZX_U8};
    /// How many elements of the kind make one value.
    static constexpr std::uint64_t width = is_scalar<T> ? 1 : sizeof(T);

    static zx_value value(T of) {
        if constexpr (kind == ZX_I32 || kind == ZX_I64) return zx_number(kind, of);
        else return zx_natural(kind, of);
    }
    /// Throws `wrong_kind` if the value is of another kind.
    static T from(const zx_value &value) {
        if (value.kind != kind) throw wrong_kind();
        if constexpr (kind == ZX_I32 || kind == ZX_I64) return static_cast<T>(value.number);
        else return static_cast<T>(value.natural);
    }
    static zx_values values(const T *at, std::size_t count) {
        if constexpr (kind == ZX_BOOL) return zx_bools(at, count);
        else if constexpr (kind == ZX_I32) return zx_i32s(at, count);
        else if constexpr (kind == ZX_I64) return zx_i64s(reinterpret_cast<const std::int64_t *>(at), count);
        else if constexpr (kind == ZX_U64) return zx_u64s(reinterpret_cast<const std::uint64_t *>(at), count);
        else return zx_u8s(reinterpret_cast<const std::uint8_t *>(at), count * sizeof(T));
    }
    /// Copies elements, from `first` on.
    static zx_code read(zx_segment *of, const zx_key *at, std::uint64_t first, T *row, std::size_t count) {
        static T none{};
        if (row == nullptr && count == 0) row = &none;
        const std::uint64_t from = detail::product(first, width);
        if constexpr (kind == ZX_BOOL) return zx_read_bools(of, at, from, row, count);
        else if constexpr (kind == ZX_I32) return zx_read_i32s(of, at, from, row, count);
        else if constexpr (kind == ZX_I64)
            return zx_read_i64s(of, at, from, reinterpret_cast<std::int64_t *>(row), count);
        else if constexpr (kind == ZX_U64)
            return zx_read_u64s(of, at, from, reinterpret_cast<std::uint64_t *>(row), count);
        else return zx_read_u8s(of, at, from, reinterpret_cast<std::uint8_t *>(row), count * sizeof(T));
    }
};

/// The object kind for a C++ type: a type that can be stored, `std::string`, `std::vector` of a type that can be stored
/// or of `std::string`, or `std::map` from scalars to scalars.
template <class T> struct object_kind {
    static constexpr std::uint32_t code = stored<T>::kind;
};
template <> struct object_kind<std::string> {
    static constexpr std::uint32_t code = ZX_STRING;
};
template <> struct object_kind<std::vector<std::string>> {
    static constexpr std::uint32_t code = ZX_STRINGS;
};
template <class T> struct object_kind<std::vector<T>> {
    static constexpr std::uint32_t code = ZX_VECTOR(stored<T>::kind);
};
template <class K, class V> struct object_kind<std::map<K, V>> {
    static_assert(is_scalar<K> && is_scalar<V>,
                  "keys and values of maps are bool, or integers of u8, i32, i64 and u64");
    static constexpr std::uint32_t code = ZX_MAP(detail::scalar_kind<K>(), detail::scalar_kind<V>());
};

template <class T> inline constexpr std::uint32_t kind_of = object_kind<T>::code;

// ---- numbers that are passed

namespace detail {

/// The number that stands for a passed value: an unscoped enum as its integer, an element as its value.
template <class T, class = void> struct plain {
    using type = T;
};
template <class T> struct plain<T, std::enable_if_t<std::is_enum_v<T>>> {
    using underlying = std::underlying_type_t<T>;
    using type = std::conditional_t<std::is_convertible_v<T, underlying>, underlying, T>;
};
template <class T> struct plain<T, std::void_t<typename T::value_of_element>> {
    using type = typename T::value_of_element;
};
template <class T> using plain_of = typename plain<T>::type;

template <class T, class U, class = void> inline constexpr bool is_made_of = false;
template <class T, class U>
inline constexpr bool is_made_of<T, U, std::void_t<decltype(T{std::declval<const U &>()})>> = true;

/// Whether a U may be passed for a T: only a bool for a bool, and no fraction for an integer.
template <class T, class U> constexpr bool may_be() {
    if constexpr (std::is_same_v<T, U>) return true;
    else if constexpr (std::is_class_v<U>) return std::is_convertible_v<const U &, T> && is_made_of<T, U>;
    else if constexpr (!std::is_arithmetic_v<U> || std::is_same_v<T, bool> || std::is_same_v<U, bool>) return false;
    else return std::is_floating_point_v<T> || std::is_integral_v<U>;
}

template <class T, class U> constexpr bool is_in_range(U value) {
    using limits = std::numeric_limits<T>;
    if constexpr (std::is_floating_point_v<U>) {
        return !(value < limits::lowest() || value > limits::max()) || value - value != 0;
    } else if constexpr (std::is_floating_point_v<T>) {
        // as many bits as the fraction has, and zeros after them
        std::uintmax_t bits = value < 0 ? 0 - static_cast<std::uintmax_t>(value) : static_cast<std::uintmax_t>(value);
        while (bits != 0 && bits % 2 == 0) bits /= 2;
        return limits::digits >= 64 || bits >> (limits::digits % 64) == 0;
    } else {
        if constexpr (std::is_signed_v<U>) {
            if (value < 0) return std::is_signed_v<T> && value >= static_cast<std::intmax_t>(limits::min());
        }
        return static_cast<std::uintmax_t>(value) <= static_cast<std::uintmax_t>(limits::max());
    }
}

} // namespace detail

/// A number or a bool that is passed for a T. A number of another type is accepted if T can represent it; otherwise the
/// constructor throws `out_of_range`. A fraction for an integer, a pointer for a bool and a bool for a number do not
/// compile.
template <class T> class number {
  public:
    template <class U, std::enable_if_t<detail::may_be<T, detail::plain_of<U>>(), int> = 0>
    constexpr number(const U &value) : value_(checked(static_cast<detail::plain_of<U>>(value))) {}
    constexpr operator T() const noexcept { return value_; }

  private:
    template <class U> static constexpr T checked(const U &value) {
        if constexpr (std::is_arithmetic_v<U> && !std::is_same_v<T, U>) {
            if (!detail::is_in_range<T>(value)) throw out_of_range();
        }
        return static_cast<T>(value);
    }

    T value_;
};

/// What is passed for a T: a `number`, or a T.
template <class T> using value_of = std::conditional_t<std::is_arithmetic_v<T>, number<T>, const T &>;

// ---- rows that are passed

namespace detail {

struct viewed_bytes;
template <class T, class R, class = void> inline constexpr bool is_row = false;
/// The base of what reads elements of a segment. A call copies them: it may move what `data()` refers to.
struct in_segment {};
template <class T, class R>
inline constexpr bool
    is_row<T, R, std::void_t<decltype(std::data(std::declval<R &>())), decltype(std::size(std::declval<R &>()))>> =
        !std::is_base_of_v<in_segment, R> &&
        std::is_convertible_v<decltype(std::data(std::declval<R &>())), const T *> &&
        std::is_same_v<std::decay_t<decltype(*std::begin(std::declval<R &>()))>, T>;

template <class T, class R, class = void> inline constexpr bool is_list = false;
template <class T, class R> inline constexpr bool
    is_list<T, R, std::void_t<decltype(std::begin(std::declval<R &>()) != std::end(std::declval<R &>()))>> =
        std::is_convertible_v<decltype(*std::begin(std::declval<R &>())), T>;

} // namespace detail

/// Elements that are passed to a call, for the time of the call: a pointer and a count, a list in braces, or a range.
/// Contiguous elements are not copied.
template <class T> class slice {
    using listed = std::conditional_t<std::is_arithmetic_v<T>, number<T>, T>;

  public:
    slice() = default;
    slice(const T *at, std::size_t count) : at_(at), count_(count) {
        if (at == nullptr && count != 0) throw null_slice();
    }
    slice(std::initializer_list<listed> list) { copy(list); }
    template <class R, std::enable_if_t<detail::is_row<T, const R> || detail::is_list<listed, const R>, int> = 0>
    slice(const R &range) {
        if constexpr (detail::is_row<T, const R>) {
            at_ = std::data(range);
            count_ = std::size(range);
        } else {
            copy(range);
        }
    }

    /// Not null, even without elements.
    const T *data() const noexcept {
        static const T none{};
        return at_ == nullptr && count_ == 0 ? &none : at_;
    }
    std::size_t size() const noexcept { return count_; }
    const T *begin() const noexcept { return at_; }
    const T *end() const noexcept { return at_ + count_; }

  private:
    friend struct detail::viewed_bytes;

    template <class R> void copy(const R &range) {
        count_ = static_cast<std::size_t>(std::distance(std::begin(range), std::end(range)));
        copy_ = std::make_unique<T[]>(count_);
        at_ = copy_.get();
        T *to = copy_.get();
        for (auto &&each : range) *to++ = static_cast<T>(static_cast<const listed &>(each));
    }

    const T *at_ = nullptr;
    std::size_t count_ = 0;
    std::unique_ptr<T[]> copy_;
};

/// The bytes of a text; never null.
inline const std::uint8_t *bytes_of(std::string_view text) {
    return reinterpret_cast<const std::uint8_t *>(text.data() != nullptr ? text.data() : "");
}

namespace detail {

/// A text of a list; never a null pointer.
class text {
  public:
    template <class T, std::enable_if_t<
                           std::is_convertible_v<const T &, std::string_view> && !std::is_null_pointer_v<T>, int> = 0>
    text(const T &of) : of_(there(of)) {}
    operator std::string_view() const noexcept { return of_; }

  private:
    template <class T> static std::string_view there(const T &of) {
        if constexpr (std::is_pointer_v<T>) {
            if (of == nullptr) throw null_slice();
        }
        return of;
    }

    std::string_view of_;
};

template <class R, class = void> inline constexpr bool is_texts = false;
template <class R>
inline constexpr bool is_texts<R, std::void_t<decltype(*std::begin(std::declval<R &>()))>> =
    std::is_convertible_v<decltype(*std::begin(std::declval<R &>())), std::string_view> &&
    (std::is_reference_v<decltype(*std::begin(std::declval<R &>()))> ||
     std::is_trivially_copyable_v<decltype(*std::begin(std::declval<R &>()))>);

} // namespace detail

/// Texts that are passed to a call, for the time of the call: a list in braces, or a range of strings, string views or
/// literals, such as `std::vector<std::string>`.
class texts {
  public:
    texts() : texts(nullptr, 0) {}
    texts(std::initializer_list<detail::text> list) { take(list.begin(), list.end()); }
    texts(const std::string_view *at, std::size_t count) {
        if (at == nullptr && count != 0) throw null_slice();
        take(at, at + count);
    }
    template <class R, std::enable_if_t<detail::is_texts<const R>, int> = 0> texts(const R &range) {
        take(std::begin(range), std::end(range));
    }

    /// The texts as the library takes them; never null. They point to the bytes of the strings that were passed.
    const zx_text *data() const noexcept { return passed_.data(); }
    std::size_t size() const noexcept { return passed_.size() - 1; }
    std::vector<std::string> copies() const {
        std::vector<std::string> all;
        for (std::size_t i = 0; i < size(); i++)
            all.emplace_back(reinterpret_cast<const char *>(passed_[i].at), passed_[i].len);
        return all;
    }

  private:
    template <class I, class S> void take(I first, S last) {
        for (; first != last; ++first) {
            const detail::text each(*first);
            passed_.push_back({bytes_of(each), std::string_view(each).size()});
        }
        passed_.push_back({bytes_of({}), 0});
    }

    // one more than there are
    std::vector<zx_text> passed_;
};

/// A key says which object a call is for: a name, which the key copies, or what `unique`, `by_handle` and `anonymous`
/// return.
class key {
  public:
    key(std::string_view name) : how_(ZX_BY_NAME), name_(name) {}
    key(std::string name) : how_(ZX_BY_NAME), name_(std::move(name)) {}
    key(const char *name) : how_(name != nullptr ? ZX_BY_NAME : ZX_NULL_NAME), name_(name != nullptr ? name : "") {}

    /// Returns the key of the unique object of a kind.
    static key unique_of(std::uint32_t kind) { return key(ZX_BY_KIND, kind, 0); }
    template <class T> static key unique() { return unique_of(kind_of<T>); }
    /// Returns the key of the object with a handle.
    static key by_handle(std::uint64_t handle) { return key(ZX_BY_HANDLE, 0, handle); }
    /// Returns the key of a new object without a key.
    static key anonymous() { return key(ZX_NO_KEY, 0, 0); }

    [[nodiscard]] bool is_handle() const noexcept { return how_ == ZX_BY_HANDLE; }
    /// Returns the key as the library takes it; it points to the name in this key.
    [[nodiscard]] zx_key raw() const noexcept { return {how_, kind_, handle_, bytes_of(name_), name_.size()}; }

    friend bool operator==(const key &a, const key &b) {
        return a.how_ == b.how_ && a.kind_ == b.kind_ && a.handle_ == b.handle_ && a.name_ == b.name_;
    }
    friend bool operator!=(const key &a, const key &b) { return !(a == b); }

  private:
    friend struct std::hash<key>;

    key(std::uint32_t how, std::uint32_t kind, std::uint64_t handle) : how_(how), kind_(kind), handle_(handle) {}

    std::uint32_t how_;
    std::uint32_t kind_ = 0;
    std::uint64_t handle_ = 0;
    std::string name_;
};

// ---- what calls answer

/// An object that a call found or made: its handle, and its number of values, which is 1 for a container.
struct found {
    std::uint64_t handle;
    std::uint32_t count;

    friend bool operator==(const found &a, const found &b) { return a.handle == b.handle && a.count == b.count; }
    friend bool operator!=(const found &a, const found &b) { return !(a == b); }
};

/// What `tell` returns about an object. `name` is empty for an object without a name.
struct info {
    std::uint32_t found_by;
    std::uint32_t kind;
    std::uint32_t count;
    std::uint64_t handle;
    std::string name;

    friend bool operator==(const info &a, const info &b) {
        return a.found_by == b.found_by && a.kind == b.kind && a.count == b.count && a.handle == b.handle &&
               a.name == b.name;
    }
    friend bool operator!=(const info &a, const info &b) { return !(a == b); }
};

/// Length and capacity.
struct measures {
    std::uint64_t len;
    std::uint64_t places;

    friend bool operator==(const measures &a, const measures &b) { return a.len == b.len && a.places == b.places; }
    friend bool operator!=(const measures &a, const measures &b) { return !(a == b); }
};

enum class mode : std::uint32_t { write = ZX_WRITE, read = ZX_READ, copy_on_write = ZX_COPY_ON_WRITE };

class segment;
class group;
template <class T> class const_array;
template <class T> class array;
template <class T> class const_vector;
template <class T> class vector;
template <class K, class V> class const_map;
template <class K, class V> class map;
class const_string;
class string;
class const_strings;
class strings;
template <class T> class found_values;
template <class Object> class found_object;

namespace detail {

/// The bytes of a segment to which the program has pointers, since it asked for a view or an address. A call that takes
/// such bytes gets a copy of them: it may move the object, or the whole segment, before it reads them.
struct viewed_bytes {
    void add(const void *at, std::size_t len) noexcept {
        if (len == 0) return;
        begin_ = std::min(begin_, address(at));
        end_ = std::max(end_, address(at) + len);
    }
    void clear() noexcept { *this = viewed_bytes(); }

    /// Make a call with a text, or with texts; with a copy if they are among these bytes.
    template <class Call> auto detach(std::string_view text, Call call) const {
        return meets(text.data(), text.size()) ? call(std::string_view(std::string(text))) : call(text);
    }
    template <class Call> auto detach(const texts &list, Call call) const {
        const auto is_viewed = [&](const zx_text &each) { return meets(each.at, each.len); };
        const bool is_any = std::any_of(list.data(), list.data() + list.size(), is_viewed);
        return is_any ? call(texts(list.copies())) : call(list);
    }
    /// Copies elements that are among these bytes.
    template <class T> void detach(slice<T> &values) const {
        if (values.copy_ != nullptr || !meets(values.at_, values.count_ * sizeof(T))) return;
        values.copy(slice<T>(values.at_, values.count_));
    }

  private:
    static std::uintptr_t address(const void *at) noexcept { return reinterpret_cast<std::uintptr_t>(at); }
    bool meets(const void *at, std::size_t len) const noexcept {
        return address(at) < end_ && address(at) + len > begin_;
    }

    std::uintptr_t begin_ = std::numeric_limits<std::uintptr_t>::max(), end_ = 0;
};

/// The state of a segment, at an address that never changes.
struct state {
    zx_file file{};
    std::string path;
    bool grows = false;
    viewed_bytes viewed;
    /// The number of open transactions.
    std::uint64_t steps = 0;

    zx_segment *raw() noexcept { return &file.segment; }
    /// Throws unless the code is ZX_DONE; a `file_error` for a code of files.
    void check(zx_code code) const {
        if (code != ZX_DONE) throw_file_code(code, file, path);
    }
    /// Throws `file_in_step` within a transaction.
    void check_no_step() const {
        if (steps != 0) throw file_in_step(EBUSY, path);
    }

    /// Makes a call that may need space. If there is none, and the segment grows by itself, makes the segment longer.
    template <class Call> void change(Call call) { change_after(call(raw()), call); }
    /// Goes on after such a call returned a code.
    template <class Call> void change_after(zx_code code, Call call) {
        if (code == ZX_NO_SPACE && grows) check(in_more_space(call));
        else check_code(code);
    }
    /// Goes on after a call that adds elements to storage, which asks for twice the capacity, returned a code. If there
    /// is no gap for that, and the segment cannot have one, `has_room` asks for less.
    template <class Call, class Room> void lengthen_after(zx_code code, Call call, Room has_room) {
        if (code == ZX_NO_SPACE) {
            if (grows) code = in_more_space(call);
            if ((code == ZX_NO_SPACE || code == ZX_TOO_LARGE) && has_room()) code = call(raw());
            check(code);
        } else {
            check_code(code);
        }
    }
    /// Throws what the library answers if the segment can never have so many elements of a width, before memory is
    /// taken for them.
    void check_room(std::uint64_t count, std::uint64_t width) {
        std::uint64_t most = largest;
        std::uint32_t mode = ZX_WRITE;
        if (!grows) check_code(zx_size(raw(), &most));
        if (count <= most / width) return;
        check_code(zx_mode(raw(), &mode));
        throw_code(mode == ZX_READ ? ZX_READ_ONLY : grows ? ZX_TOO_LARGE : ZX_NO_SPACE);
    }
    zx_code grow_by_half() {
        std::uint64_t size = 0;
        const zx_code code = zx_size(raw(), &size);
        if (code != ZX_DONE) return code;
        const std::uint64_t left = largest - size, wanted = (size / 2 + 4096) / 16 * 16;
        return grow(left < wanted && left >= 32 ? left : wanted);
    }
    zx_code grow(std::uint64_t extra) {
        const zx_code code = zx_file_grow(&file, extra);
        if (code == ZX_DONE) viewed.clear();
        return code;
    }

  private:
    static constexpr std::uint64_t largest = std::uint64_t{1} << 30;

    /// If the segment cannot become long enough, it gets its old length back.
    template <class Call> zx_code in_more_space(Call call) {
        std::uint64_t before = 0, size = 0;
        zx_code code = ZX_NO_SPACE;
        static_cast<void>(zx_size(raw(), &before));
        do {
            code = grow_by_half();
            if (code == ZX_DONE) code = call(raw());
        } while (code == ZX_NO_SPACE);
        if (code == ZX_DONE) return code;
        // the calls below have an errno of their own
        const std::int32_t error = file.error;
        if (zx_file_shrink(&file) == ZX_DONE && zx_size(raw(), &size) == ZX_DONE && size < before)
            static_cast<void>(zx_file_grow(&file, before - size));
        file.error = error;
        return code;
    }
};

/// The state of an object that was moved from: that of no segment, which is closed.
inline state no_segment;

/// The state of a segment, shared by all that was asked of the segment. It is never null: after a move from it, it is
/// `no_segment`.
class shared_state {
  public:
    shared_state(std::shared_ptr<state> of) noexcept : of_(std::move(of)) {}
    shared_state(const shared_state &) = default;
    shared_state(shared_state &&other) noexcept : of_(std::exchange(other.of_, none())) {}
    shared_state &operator=(const shared_state &) = default;
    shared_state &operator=(shared_state &&other) noexcept {
        of_ = std::exchange(other.of_, none());
        return *this;
    }
    ~shared_state() = default;

    state *get() const noexcept { return of_.get(); }
    state *operator->() const noexcept { return of_.get(); }

  private:
    static std::shared_ptr<state> none() noexcept { return {std::shared_ptr<state>(), &no_segment}; }

    std::shared_ptr<state> of_;
};

/// What a transaction keeps of a segment, whose state it shares: the segment may be assigned to, or destroyed, within
/// the transaction. The destructor restores the segment, unless the change is kept.
class snapshot {
  public:
    explicit snapshot(std::shared_ptr<state> of) : of_(std::move(of)) {
        of_->check(zx_file_begin(&of_->file, &before_));
        of_->steps++;
    }
    snapshot(const snapshot &) = delete;
    snapshot &operator=(const snapshot &) = delete;
    ~snapshot() {
        of_->steps--;
        if (before_.copy.at == nullptr && before_.kept == nullptr) return;
        if (zx_file_undo(&of_->file, &before_) == ZX_DONE) return;
        // closes a segment that cannot be restored, so that nobody takes it for the old one
        zx_file_discard(&of_->file);
        zx_file_leave(&of_->file, &before_);
    }
    /// Keeps the change. The outermost transaction of a durable file commits it. Throws `closed` if the segment ended.
    void keep() {
        if (of_->raw()->at == nullptr) throw closed();
        of_->check(zx_file_keep(&of_->file, &before_));
    }

  private:
    std::shared_ptr<state> of_;
    zx_step before_{};
};

/// An object by its handle. It stays valid as long as the segment, or anything that was asked of it.
struct spot {
    state *of = nullptr;
    std::uint64_t handle = 0;

    template <class Call, class... Args> zx_code code_of(Call call, Args... args) const {
        const zx_key at = zx_handle(handle);
        return call(of->raw(), &at, args...);
    }
    template <class Call, class... Args> void ask(Call call, Args... args) const { check_code(code_of(call, args...)); }
    template <class Call, class... Args> void change(Call call, Args... args) const {
        const zx_code code = code_of(call, args...);
        if (__builtin_expect(code != ZX_DONE, false)) change_after(of, handle, code, call, args...);
    }
    /// Makes a call that adds `more` elements to a vector or bytes to a string.
    template <class Call, class... Args> void lengthen(std::uint64_t more, Call call, Args... args) const {
        const zx_code code = code_of(call, args...);
        if (__builtin_expect(code != ZX_DONE, false)) lengthen_after(of, handle, code, more, call, args...);
    }
    /// Appends a number to a vector.
    void push(std::int64_t number) const {
        const zx_code code = zx_push_i64(of->raw(), handle, number);
        if (__builtin_expect(code != ZX_DONE, false)) push_after(of, handle, code, number);
    }
    friend bool operator==(const spot &a, const spot &b) { return a.of == b.of && a.handle == b.handle; }

  private:
    // these take a spot in parts, so that the calls above keep it in registers

    template <class Call, class... Args>
    [[gnu::noinline, gnu::cold]] static void change_after(state *segment, std::uint64_t object, zx_code code, Call call,
                                                          Args... args) {
        const zx_key at = zx_handle(object);
        segment->change_after(code, [&](zx_segment *raw) { return call(raw, &at, args...); });
    }
    template <class Call, class... Args>
    [[gnu::noinline, gnu::cold]] static void lengthen_after(state *segment, std::uint64_t object, zx_code code,
                                                            std::uint64_t more, Call call, Args... args) {
        const zx_key at = zx_handle(object);
        segment->lengthen_after(
            code, [&](zx_segment *raw) { return call(raw, &at, args...); },
            [&] { return spot{segment, object}.has_room(more); });
    }
    [[gnu::noinline, gnu::cold]] static void push_after(state *segment, std::uint64_t object, zx_code code,
                                                        std::int64_t number) {
        const zx_value passed = zx_i64(number);
        lengthen_after(segment, object, code, 1, zx_push, &passed);
    }
    /// Gets storage for `more` elements at least: for half of the capacity more, a fourth, and so on.
    [[gnu::noinline, gnu::cold]] bool has_room(std::uint64_t more) const {
        std::uint64_t len = 0, places = 0;
        if (code_of(zx_measure, &len, &places) != ZX_DONE || more > UINT64_MAX - len) return false;
        for (std::uint64_t extra = places / 2; extra > more; extra /= 2) {
            if (code_of(zx_reserve, len + extra) == ZX_DONE) return true;
        }
        return code_of(zx_reserve, len + more) == ZX_DONE;
    }
};

/// An object by its handle, and where its values were when this was made: in place until a call changes the segment.
struct placed_spot : spot {
    void *at = nullptr;
    std::uint64_t count = 0;
    // a number that no segment counts to: nothing is known to be in place
    std::uint64_t changes = std::numeric_limits<std::uint64_t>::max();

    placed_spot() = default;
    placed_spot(const spot &object) : spot(object) {}

    /// Returns how many values are still there. A segment that was closed has changed, too. There is no branch, so a
    /// loop that changes nothing asks once; and one that reads and writes a value asks once for both.
    std::uint64_t left() const noexcept {
        return count & (std::uint64_t{0} - static_cast<std::uint64_t>(of->raw()->changes == changes));
    }
};

/// Reads a text by a call that says how much room it needs.
template <class Read> std::string text_by(Read read) {
    std::string text(256, '\0');
    std::uint64_t len = 0;
    zx_code code = read(reinterpret_cast<std::uint8_t *>(text.data()), text.size(), &len);
    if (code == ZX_SHORT_BUFFER) {
        text.resize(len);
        code = read(reinterpret_cast<std::uint8_t *>(text.data()), text.size(), &len);
    }
    check_code(code);
    text.resize(len);
    return text;
}

/// Gets the info from a call, with the name that it copies.
template <class Tell> zx_code info_by(Tell tell, info &told) {
    zx_info raw{};
    std::uint8_t name[255] = {};
    const zx_code code = tell(&raw, name, sizeof name);
    if (code == ZX_DONE) {
        told = {raw.found_by, raw.kind, raw.count, raw.handle,
                std::string(reinterpret_cast<const char *>(name), raw.name_len)};
    }
    return code;
}

/// Tells about the object whose name has `index` others before it; returns whether there is one.
inline bool named_at(zx_segment *of, std::uint64_t index, info &told) {
    const zx_code code = info_by(
        [&](zx_info *said, std::uint8_t *name, std::size_t room) { return zx_named_at(of, index, said, name, room); },
        told);
    if (code != ZX_OUT_OF_RANGE) check_code(code);
    return code == ZX_DONE;
}

/// Counts the names below a text.
inline std::uint64_t named_from(zx_segment *of, std::string_view text) {
    std::uint64_t index = 0;
    check_code(zx_named_from(of, bytes_of(text), text.size(), &index));
    return index;
}

/// Converts a number of elements to a number of values; throws `wrong_kind` if bytes are left over.
template <class T> std::uint64_t whole(std::uint64_t elements) {
    if (elements % stored<T>::width != 0) throw wrong_kind();
    return elements / stored<T>::width;
}

// -- how the elements of each kind of object are read and set; `begun` is the value that `+=` and its like begin with

/// The values of an array or a vector, and the bytes of a string. They are read and set in place where that is known,
/// and otherwise by calls.
template <class T> struct values {
    using index_type = std::uint64_t;
    using value_type = T;
    using passed_type = value_of<T>;
    using target = placed_spot;

    static T get(const spot &of, std::uint64_t index) {
        if constexpr (is_scalar<T>) {
            zx_value value{};
            of.ask(zx_get, index, &value);
            return stored<T>::from(value);
        } else {
            T value{};
            of.ask(stored<T>::read, index, &value, std::size_t{1});
            return value;
        }
    }
    [[gnu::always_inline]] static T get(const placed_spot &of, std::uint64_t index) {
        return __builtin_expect(index < of.left(), true) ? read(of.at, index) : away(of, index);
    }
    [[gnu::always_inline]] static T begun(const placed_spot &of, std::uint64_t index) { return get(of, index); }
    static void set(const spot &of, std::uint64_t index, const T &value) {
        if constexpr (is_scalar<T>) {
            const zx_value passed = stored<T>::value(value);
            of.ask(zx_set, index, &passed);
        } else {
            const zx_values passed = stored<T>::values(&value, 1);
            of.ask(zx_write_elements, product(index, stored<T>::width), &passed);
        }
    }
    [[gnu::always_inline]] static void set(const placed_spot &of, std::uint64_t index, const T &value) {
        const bool is_there = __builtin_expect(index < of.left(), true);
        if (is_there && (of.of->raw()->shared || lends(of.of, of.handle))) write(of.at, index, value);
        else set(static_cast<const spot &>(of), index, value);
    }

    /// Finds where the values are. Nothing is known of an object that no view can have: its calls say why.
    [[gnu::always_inline]] static bool is_located(const placed_spot &of, state *in) noexcept {
        return in->raw()->changes == of.changes;
    }
    /// Reads a value by a target that `is_located`, or that was located just now.
    [[gnu::always_inline]] static T get_here(const placed_spot &of, std::uint64_t index) {
        return __builtin_expect(index < of.count, true) ? read(of.at, index) : away(of, index);
    }
    static placed_spot located(const spot &of) noexcept {
        placed_spot found(of);
        zx_elements there; // the call fills it, if it is done
        if (zx_view_of(of.of->raw(), of.handle, &there) == ZX_DONE && there.kind == stored<T>::kind &&
            there.count % stored<T>::width == 0) {
            found.at = const_cast<void *>(there.at);
            found.count = there.count / stored<T>::width;
            found.changes = there.changes;
        }
        return found;
    }
    template <class Row> static std::uint64_t size(const placed_spot &of, const Row &row) {
        return of.at != nullptr ? of.count : row.measure().len;
    }

  private:
    struct answer {
        T value;
        zx_code code;
    };

    static T read(const void *at, std::uint64_t index) {
        if constexpr (is_scalar<T>) return static_cast<const T *>(at)[index];
        T value{};
        std::memcpy(&value, static_cast<const unsigned char *>(at) + index * sizeof(T), sizeof(T));
        return value;
    }
    static void write(void *at, std::uint64_t index, const T &value) {
        if constexpr (is_scalar<T>) static_cast<T *>(at)[index] = value;
        else std::memcpy(static_cast<unsigned char *>(at) + index * sizeof(T), &value, sizeof(T));
    }
    // what is asked where the values are not known to be in place. What is no part of a loop takes a spot in parts, so
    // that the loop keeps its own in registers

    [[gnu::always_inline]] static T away(const placed_spot &of, std::uint64_t index) {
        // what [] gives has no place, as the compiler knows
        if (__builtin_constant_p(of.count) && of.count == 0) return get(static_cast<const spot &>(of), index);
        const answer told = asked(of.of, of.handle, index);
        check_code(told.code);
        return told.value;
    }
    /// Reads a value by a call. That changes nothing, so a loop need not ask again where its values are.
    [[gnu::pure, gnu::noinline, gnu::cold]] static answer asked(state *segment, std::uint64_t handle,
                                                                std::uint64_t index) noexcept {
        const spot of{segment, handle};
        answer told{};
        if constexpr (is_scalar<T>) {
            zx_value value{};
            told.code = of.code_of(zx_get, index, &value);
            if (told.code == ZX_DONE && value.kind != stored<T>::kind) told.code = ZX_WRONG_KIND;
            if (told.code == ZX_DONE) told.value = stored<T>::from(value);
        } else {
            told.code = of.code_of(stored<T>::read, index, &told.value, std::size_t{1});
        }
        return told;
    }
    /// Tells the library that values are written in place, if the segment may be written.
    [[gnu::noinline, gnu::cold]] static bool lends(state *segment, std::uint64_t handle) noexcept {
        zx_elements there{};
        return spot{segment, handle}.code_of(zx_view_mut, &there) == ZX_DONE;
    }
};

/// The strings of a vector of strings.
struct lines {
    using index_type = std::uint64_t;
    using value_type = std::string;
    using passed_type = std::string_view;
    using target = spot;

    static bool is_located(const spot &of, state *in) noexcept { return of.of == in; }
    static std::string get_here(const spot &of, std::uint64_t index) { return get(of, index); }
    static spot located(const spot &of) noexcept { return of; }
    template <class Row> static std::uint64_t size(const spot &, const Row &row) { return row.measure().len; }
    static std::string get(const spot &of, std::uint64_t index) {
        return text_by([&](std::uint8_t *text, std::size_t room, std::uint64_t *len) {
            return of.code_of(zx_read_text, index, text, room, len);
        });
    }
    static void set(const spot &of, std::uint64_t index, std::string_view text) {
        of.of->viewed.detach(
            text, [&](std::string_view own) { of.change(zx_set_text, index, bytes_of(own), own.size()); });
    }
};

/// The values of a map, by their keys.
template <class K, class V> struct pairs {
    using index_type = K;
    using value_type = V;
    using passed_type = value_of<V>;
    using target = spot;

    static std::optional<V> find(const spot &of, K wanted) {
        const zx_value passed = stored<K>::value(wanted);
        zx_value value{};
        if (!is_there(of.code_of(zx_map_get, &passed, &value))) return std::nullopt;
        return stored<V>::from(value);
    }
    static V get(const spot &of, K wanted) {
        const std::optional<V> value = find(of, wanted);
        if (!value) throw absent();
        return *value;
    }
    static V begun(const spot &of, K wanted) { return find(of, wanted).value_or(V{}); }
    static bool put(const spot &of, K at, V value) {
        const zx_value passed_key = stored<K>::value(at), passed = stored<V>::value(value);
        bool is_new = false;
        of.change(zx_map_put, &passed_key, &passed, &is_new);
        return is_new;
    }
    static void set(const spot &of, K at, V value) { put(of, at, value); }
};

/// Returns the number, or throws `out_of_range` if the type cannot represent it.
template <class T> T in_range(bool is_too_large, T number) {
    if (is_too_large) throw out_of_range();
    return number;
}
template <class T> T sum(T a, T b) {
    if constexpr (std::is_integral_v<T>) {
        T c{};
        const bool is_too_large = __builtin_add_overflow(a, b, &c);
        return in_range(is_too_large, c);
    } else {
        return a + b;
    }
}
template <class T> T difference(T a, T b) {
    if constexpr (std::is_integral_v<T>) {
        T c{};
        const bool is_too_large = __builtin_sub_overflow(a, b, &c);
        return in_range(is_too_large, c);
    } else {
        return a - b;
    }
}
template <class T> T times(T a, T b) {
    if constexpr (std::is_integral_v<T>) {
        T c{};
        const bool is_too_large = __builtin_mul_overflow(a, b, &c);
        return in_range(is_too_large, c);
    } else {
        return a * b;
    }
}
template <class T> T quotient(T a, T b) {
    if constexpr (std::is_integral_v<T>) {
        if (b == 0) throw out_of_range();
        if constexpr (std::is_signed_v<T>) {
            if (b == -1) return difference(T{0}, a);
        }
        return static_cast<T>(a / b);
    } else {
        return a / b;
    }
}

/// Holds the value that `->` of an element reads. A member of it cannot be written.
template <class T> class arrow {
  public:
    explicit arrow(T value) : value_(std::move(value)) {}
    const T *operator->() const noexcept { return &value_; }

  private:
    T value_;
};

/// What `*` of an element reads into, so that `&item::weight` is a projection of elements: `std::invoke` takes the
/// member of what `*` gives. A scalar has no members.
template <class T, bool = std::is_class_v<T>> class value_kept {};
template <class T> class value_kept<T, true> {
  public:
    value_kept() noexcept {}
    value_kept(const value_kept &) noexcept {}
    value_kept &operator=(const value_kept &) noexcept { return *this; }

  protected:
    const T &keep(const T &value) const noexcept { return *::new (static_cast<void *>(bytes_)) T(value); }

  private:
    alignas(T) mutable unsigned char bytes_[sizeof(T)];
};

/// One element. It reads when a value is needed, and writes when one is assigned. It stays valid as long as the
/// segment. `swap` and `std::iter_swap` swap two elements. `std::swap` would move an element where it has to move a
/// value, so an element is not moved, and then that does not compile.
template <class Access> class element : private value_kept<typename Access::value_type> {
  public:
    using value_type = typename Access::value_type;
    using value_of_element = value_type;

    element(const typename Access::target &of, typename Access::index_type at) : of_(of), at_(at) {}
    element(const element &) = default;
    element(element &&) = delete;
    ~element() = default;

    [[nodiscard]] value_type value() const { return Access::get(of_, at_); }
    operator value_type() const { return value(); }
    /// Reads an element that has members. The reference lasts as long as this, and until the next `*`.
    template <class T = value_type, std::enable_if_t<std::is_class_v<T>, int> = 0> const T &operator*() const {
        return this->keep(value());
    }
    /// Reads a member: `records[0]->price`. `modify`, or a view, writes one.
    arrow<value_type> operator->() const { return arrow<value_type>(value()); }
    /// Calls `change` with a copy of the value, and then writes the copy:
    /// `records[0].modify([](record &of) { of.price = 2.5, of.sold++; })`. If `change` throws, writes nothing.
    template <class Change> void modify(Change change) const {
        value_type changed = value();
        change(changed);
        to(changed);
    }

    const element &operator=(typename Access::passed_type value) const {
        Access::set(of_, at_, value);
        return *this;
    }
    const element &operator=(const element &other) const { return *this = other.value(); }
    element &operator=(const element &other) {
        *this = other.value();
        return *this;
    }

    // integer operators throw `out_of_range` if the result does not fit
    const element &operator+=(value_of<value_type> by) const { return to(sum<value_type>(begun(), by)); }
    const element &operator-=(value_of<value_type> by) const { return to(difference<value_type>(begun(), by)); }
    const element &operator*=(value_of<value_type> by) const { return to(times<value_type>(begun(), by)); }
    const element &operator/=(value_of<value_type> by) const { return to(quotient<value_type>(begun(), by)); }
    const element &operator++() const { return *this += value_type{1}; }
    const element &operator--() const { return *this -= value_type{1}; }
    value_type operator++(int) const {
        const value_type before = begun();
        to(sum(before, value_type{1}));
        return before;
    }
    value_type operator--(int) const {
        const value_type before = begun();
        to(difference(before, value_type{1}));
        return before;
    }

    friend void swap_elements(const element &a, const element &b) {
        const value_type kept = a.value();
        a = b.value();
        b = kept;
    }
    friend void swap(const element &a, const element &b) { swap_elements(a, b); }

  private:
    value_type begun() const { return Access::begun(of_, at_); }
    const element &to(const value_type &value) const {
        Access::set(of_, at_, value);
        return *this;
    }

    typename Access::target of_;
    typename Access::index_type at_;
};

/// Base of what `str()` reads as a text: a string, and an element of a vector of strings.
struct read_as_text {};

/// One string of a vector of strings, as an element.
template <> class element<lines> : public read_as_text {
  public:
    using value_type = std::string;

    element(spot of, std::uint64_t at) : of_(of), at_(at) {}
    element(const element &) = default;
    element(element &&) = delete;
    ~element() = default;

    [[nodiscard]] std::string value() const { return lines::get(of_, at_); }
    [[nodiscard]] std::string str() const { return value(); }
    operator std::string() const { return value(); }
    arrow<std::string> operator->() const { return arrow<std::string>(value()); }
    /// Calls `change` with a copy of the text, and then writes the copy. If `change` throws, writes nothing.
    template <class Change> void modify(Change change) const {
        std::string changed = value();
        change(changed);
        *this = std::string_view(changed);
    }

    const element &operator=(std::string_view text) const {
        lines::set(of_, at_, text);
        return *this;
    }
    const element &operator=(const element &other) const { return *this = std::string_view(other.value()); }
    element &operator=(const element &other) {
        *this = std::string_view(other.value());
        return *this;
    }
    const element &operator+=(std::string_view text) const { return *this = std::string_view(value().append(text)); }

    friend void swap_elements(const element &a, const element &b) {
        const std::string kept = a.value();
        a = std::string_view(b.value());
        b = std::string_view(kept);
    }
    friend void swap(const element &a, const element &b) { swap_elements(a, b); }

  private:
    spot of_;
    std::uint64_t at_;
};

template <class T> inline constexpr bool is_text_read = std::is_base_of_v<read_as_text, T>;

template <class A, class B>
inline constexpr bool are_texts =
    (is_text_read<A> && (is_text_read<B> || std::is_convertible_v<const B &, std::string_view>)) ||
    (is_text_read<B> && std::is_convertible_v<const A &, std::string_view>);

/// Returns the text that it reads, or the text itself.
template <class T> auto text_of(const T &of) {
    if constexpr (is_text_read<T>) return of.str();
    else return std::string_view(of);
}

// -- iterators over elements from index 0 on; R is the reference type: a value, or an element

template <class Access, class R> class iterator {
  public:
#if __cplusplus >= 202002L
    using iterator_concept = std::random_access_iterator_tag;
#endif
    // as that of std::vector<bool>, which gives proxies too: std::reverse, std::prev and their like take no other
    using iterator_category = std::random_access_iterator_tag;
    using value_type = typename Access::value_type;
    using difference_type = std::ptrdiff_t;
    using reference = R;
    using pointer = arrow<value_type>;

    iterator() = default;
    iterator(const typename Access::target &of, std::uint64_t index) : of_(of), index_(index) {}
    /// An iterator that writes converts to one that reads.
    template <class Other, std::enable_if_t<std::is_same_v<R, value_type> && !std::is_same_v<Other, R>, int> = 0>
    iterator(const iterator<Access, Other> &other) : of_(other.of_), index_(other.index_) {}

    R operator*() const { return (*this)[0]; }
    pointer operator->() const { return pointer(Access::get(of_, index_)); }
    R operator[](difference_type by) const {
        if constexpr (std::is_same_v<R, value_type>) return Access::get(of_, moved(by));
        else return R(of_, moved(by));
    }

    iterator &operator++() { return *this += 1; }
    iterator &operator--() { return *this -= 1; }
    iterator operator++(int) { return std::exchange(*this, *this + 1); }
    iterator operator--(int) { return std::exchange(*this, *this - 1); }
    iterator &operator+=(difference_type by) {
        index_ = moved(by);
        return *this;
    }
    iterator &operator-=(difference_type by) {
        index_ -= static_cast<std::uint64_t>(by);
        return *this;
    }
    friend iterator operator+(const iterator &a, difference_type by) { return {a.of_, a.moved(by)}; }
    friend iterator operator+(difference_type by, const iterator &a) { return {a.of_, a.moved(by)}; }
    friend iterator operator-(iterator a, difference_type by) { return a -= by; }
    friend difference_type operator-(const iterator &a, const iterator &b) {
        return static_cast<difference_type>(a.index_ - b.index_);
    }
    friend bool operator==(const iterator &a, const iterator &b) { return a.index_ == b.index_; }
    friend bool operator!=(const iterator &a, const iterator &b) { return a.index_ != b.index_; }
    friend bool operator<(const iterator &a, const iterator &b) { return a.index_ < b.index_; }
    friend bool operator>(const iterator &a, const iterator &b) { return a.index_ > b.index_; }
    friend bool operator<=(const iterator &a, const iterator &b) { return a.index_ <= b.index_; }
    friend bool operator>=(const iterator &a, const iterator &b) { return a.index_ >= b.index_; }

    /// Returns the index of the element.
    [[nodiscard]] std::uint64_t index() const noexcept { return index_; }

  private:
    template <class, class> friend class iterator;

    std::uint64_t moved(difference_type by) const { return index_ + static_cast<std::uint64_t>(by); }

    typename Access::target of_;
    std::uint64_t index_ = 0;
};

// -- texts: reading, comparing and printing

template <class A, class B, std::enable_if_t<are_texts<A, B>, int> = 0> bool operator==(const A &a, const B &b) {
    return text_of(a) == text_of(b);
}
template <class A, class B, std::enable_if_t<are_texts<A, B>, int> = 0> bool operator!=(const A &a, const B &b) {
    return text_of(a) != text_of(b);
}
template <class A, class B, std::enable_if_t<are_texts<A, B>, int> = 0> bool operator<(const A &a, const B &b) {
    return text_of(a) < text_of(b);
}
template <class A, class B, std::enable_if_t<are_texts<A, B>, int> = 0> bool operator>(const A &a, const B &b) {
    return text_of(a) > text_of(b);
}
template <class A, class B, std::enable_if_t<are_texts<A, B>, int> = 0> bool operator<=(const A &a, const B &b) {
    return text_of(a) <= text_of(b);
}
template <class A, class B, std::enable_if_t<are_texts<A, B>, int> = 0> bool operator>=(const A &a, const B &b) {
    return text_of(a) >= text_of(b);
}
template <class T, class Traits, std::enable_if_t<is_text_read<T>, int> = 0>
std::basic_ostream<char, Traits> &operator<<(std::basic_ostream<char, Traits> &out, const T &text) {
    return out << text.str();
}

} // namespace detail

/// Checks whether bytes are the image of a segment: returns ZX_DONE, or the code of the class that rejects them.
[[nodiscard]] inline zx_code check_image(slice<std::uint8_t> image) {
    const zx_code code = zx_check(image.data(), image.size());
    if (code == ZX_NO_MEMORY || code == ZX_NULL_SLICE) throw_code(code);
    return code;
}

// ---- the segment

/// A segment, which the destructor frees. Only `save`, `save_file` and `close_file` save it. It can be moved, but not
/// copied. After a move from it, or after it is closed, each of its calls throws `closed`. A segment that was opened
/// from a file for writing, or that created it, holds the file until it is closed: anyone else who opens the file for
/// writing, in this program or another one, gets `file_in_use`.
class segment {
  public:
    /// Constructs a closed segment.
    segment() = default;
    segment(segment &&) noexcept = default;
    /// Frees the old segment, as the destructor does, within its transaction too: then that throws `closed`.
    segment &operator=(segment &&other) noexcept {
        if (this != &other) {
            end();
            state_ = std::move(other.state_);
        }
        return *this;
    }
    ~segment() { end(); }

    /// Creates an empty segment of `size` bytes: 144, or a multiple of 16 from 176 to 1073741824.
    [[nodiscard]] static segment create(std::uint64_t size) {
        segment made = allotted();
        check_code(zx_create(made.raw(), size));
        return made;
    }

    /// Opens a copy of the image, in a region of `capacity` bytes; 0 means the size of the image.
    [[nodiscard]] static segment open(slice<std::uint8_t> image, zaluxhoni::mode how = zaluxhoni::mode::write,
                                      std::uint64_t capacity = 0) {
        segment made = allotted();
        const std::uint64_t least = image.size() < 16 ? 16 : (image.size() + 15) / 16 * 16;
        std::uint64_t place = 0;
        const zx_code code = zx_open_explained(made.raw(), image.data(), image.size(), capacity != 0 ? capacity : least,
                                               static_cast<std::uint32_t>(how), &place);
        // an image that states more bytes than there are is rejected by that class
        if (code == ZX_SHORT_REGION && capacity == 0) throw_code(ZX_TRUNCATED, image.size());
        if (code != ZX_DONE) throw_code(code, place);
        return made;
    }

    /// Opens the segment of a file that exists. Throws `file_error` if the file is refused. While a writer holds the
    /// file it tries again, for as long as `wait`, before it throws `file_in_use`.
    [[nodiscard]] static segment open_file(const std::string &path, zaluxhoni::mode how = zaluxhoni::mode::write,
                                           std::chrono::milliseconds wait = {}) {
        return of_file(path, file_mode(how), 0, wait);
    }
    /// Opens a file for writing, or creates it with an empty segment of `size` bytes.
    [[nodiscard]] static segment open_or_create_file(const std::string &path, std::uint64_t size,
                                                     std::chrono::milliseconds wait = {}) {
        return of_file(path, ZX_OPEN_OR_CREATE, size, wait);
    }
    /// Creates a file with an empty segment of `size` bytes. Throws `file_exists` if something exists at the path.
    [[nodiscard]] static segment create_file(const std::string &path, std::uint64_t size) {
        return of_file(path, ZX_CREATE_ONLY, size);
    }

    /// Opens the segment of a file, and maps the file: opening copies nothing, and each change is in the file at once.
    /// zaluxhoni_files.h says what that costs.
    [[nodiscard]] static segment map_file(const std::string &path, zaluxhoni::mode how = zaluxhoni::mode::write,
                                          std::chrono::milliseconds wait = {}) {
        return of_file(path, file_mode(how) | ZX_MAPPED, 0, wait);
    }
    [[nodiscard]] static segment map_or_create_file(const std::string &path, std::uint64_t size,
                                                    std::chrono::milliseconds wait = {}) {
        return of_file(path, ZX_OPEN_OR_CREATE | ZX_MAPPED, size, wait);
    }
    [[nodiscard]] static segment create_mapped_file(const std::string &path, std::uint64_t size) {
        return of_file(path, ZX_CREATE_ONLY | ZX_MAPPED, size);
    }

    /// Opens the segment of a file whose changes are private until `commit` puts them into the log beside the file.
    /// Whenever the process is killed or the power fails, the next opening finds the last commit that was done, or the
    /// one under way.
    [[nodiscard]] static segment open_durable_file(const std::string &path) {
        return of_file(path, ZX_OPEN_ONLY | ZX_DURABLE, 0);
    }
    [[nodiscard]] static segment open_or_create_durable_file(const std::string &path, std::uint64_t size) {
        return of_file(path, ZX_OPEN_OR_CREATE | ZX_DURABLE, size);
    }
    [[nodiscard]] static segment create_durable_file(const std::string &path, std::uint64_t size) {
        return of_file(path, ZX_CREATE_ONLY | ZX_DURABLE, size);
    }

    /// Frees the segment without saving, and removes a file that it created and never saved. Everything that was asked
    /// of it throws `closed` from then on. Throws `file_in_step` within a transaction.
    void close() {
        if (state_ != nullptr) state_->check_no_step();
        end();
    }
    [[nodiscard]] bool is_open() const noexcept { return state_ != nullptr && state_->raw()->at != nullptr; }
    explicit operator bool() const noexcept { return is_open(); }
    /// Returns the handle for the calls of zaluxhoni.h.
    [[nodiscard]] zx_segment *raw() const { return state().raw(); }

    /// Returns the image.
    [[nodiscard]] std::vector<std::uint8_t> save() const {
        std::vector<std::uint8_t> image(size());
        save(image.data(), image.size());
        return image;
    }
    /// Copies the image to the start of a buffer: `size()` bytes.
    void save(std::uint8_t *image, std::size_t room) const { check_code(zx_save(raw(), image, room)); }

    /// Saves the segment in its file, unless the file has these bytes already. A new file replaces the old one when it
    /// is wholly on the disk. Whatever fails, the name leads to the whole old image or the whole new one. Throws
    /// `file_error` if the file is refused; only after `file_unsynced` it is saved. Within a transaction each call that
    /// saves throws `file_in_step`.
    void save_file() const { outside_step().check(zx_file_save(&state().file)); }
    /// Commits the changes of a durable file: when it returns, they are on the disk. It costs what was changed. For any
    /// other file it is `flush_file`. Throws `file_unsure` if nobody knows whether they are there.
    void commit() const { outside_step().check(zx_file_commit(&state().file)); }
    /// Waits until the changes of a mapped file are on the disk; saves any other file.
    void flush_file() const { outside_step().check(zx_file_flush(&state().file)); }
    /// Saves as `save_file` does, and frees the segment. For a mapped file it does not wait for the disk.
    void close_file() {
        if (!is_open()) throw closed();
        outside_step().check(zx_file_close(&state().file));
    }
    /// Saves the image to the file at a path, and creates that file if it does not exist. For the segment's own file it
    /// is `save_file()`.
    void save_file(const std::string &path) const {
        const zx_code code = zx_file_save_as(&outside_step().file, whole(path).c_str(), ZX_OPEN_OR_CREATE);
        if (code != ZX_DONE) throw_file_code(code, state().file, path);
    }

    /// Makes the segment longer by `extra` bytes: a multiple of 16, at least 32.
    void grow(std::uint64_t extra) { state().check(state().grow(extra)); }
    /// Cuts the free bytes off the end of the segment.
    void shrink() { state().check(zx_file_shrink(&state().file)); }
    /// Moves the segment into a region of `capacity` bytes.
    void relocate(std::uint64_t capacity) {
        check_code(zx_relocate(raw(), capacity));
        state().viewed.clear();
    }

    /// Lets the segment grow by itself: a call that finds no space makes it longer by half, and continues. If it cannot
    /// become long enough, the call throws `too_large` or `no_memory`, and the length is unchanged.
    void set_growing(bool grows) { state().grows = grows; }
    [[nodiscard]] bool is_growing() const { return state().grows; }
    /// Runs `call`. Each time it throws `no_space`, makes the segment longer by half and runs it again. If the segment
    /// cannot grow further, throws `too_large` or `no_memory`; the segment keeps the length that it has by then. A
    /// segment that grows ends its views, so `call` asks for the views that it passes.
    template <class Call> auto growing(Call call) -> decltype(call()) {
        // `call` may assign to this segment, or destroy it
        const std::shared_ptr<detail::state> of = shared();
        for (;;) {
            try {
                return call();
            } catch (const no_space &) {
                of->check(of->grow_by_half());
            }
        }
    }

    /// Runs `call` as one step: if it throws, restores the segment and passes the exception on. Steps may nest. Of a
    /// durable file the outermost step is committed; if that throws anything but `file_unsure`, the segment is restored.
    /// Otherwise it saves no file. It costs what is changed. A segment in memory, or opened by copy, is copied by its first
    /// step, by the next one after it moved to grow or the process forked, and always if it has less than 128 KiB. If
    /// memory, or room in a mapped file, is missing to restore the segment, it is closed. Within `call` the calls that
    /// save or close the segment throw `file_in_step`. If `call` destroys the segment, or assigns to it, the
    /// transaction throws `closed`.
    template <class Call> auto transaction(Call call) -> decltype(call()) {
        detail::snapshot before(shared());
        if constexpr (std::is_void_v<decltype(call())>) {
            call();
            before.keep();
        } else {
            auto result = call();
            before.keep();
            return result;
        }
    }

    [[nodiscard]] zaluxhoni::mode mode() const {
        std::uint32_t how = 0;
        check_code(zx_mode(raw(), &how));
        return static_cast<zaluxhoni::mode>(how);
    }
    [[nodiscard]] std::uint64_t size() const { return number_by(zx_size); }
    [[nodiscard]] std::uint64_t free_bytes() const { return number_by(zx_free_bytes); }
    [[nodiscard]] std::uint64_t region_left() const { return number_by(zx_region_left); }

    // -- objects: made, found, described and destroyed

    /// Makes an object of `count` times the value, and returns its handle: `construct<std::int64_t>("a", 5)`.
    template <class T> std::uint64_t construct(const key &at, value_of<T> value, std::uint64_t count = 1) {
        if constexpr (is_scalar<T>) {
            const zx_value passed = stored<T>::value(value);
            return made(zx_construct, at, count_of(count), &passed);
        } else {
            return construct_array<T>(at, std::vector<T>(count_of(count), value));
        }
    }
    /// Makes an array of 1 to 1048576 values; for a type that is no scalar, of at most that many bytes.
    template <class T> std::uint64_t construct_array(const key &at, slice<T> values) {
        state().viewed.detach(values);
        const zx_values passed = stored<T>::values(values.data(), values.size());
        return made(zx_construct_array, at, &passed);
    }
    template <class T> std::uint64_t construct_vector(const key &at, slice<T> values = {}) {
        state().viewed.detach(values);
        const zx_values passed = stored<T>::values(values.data(), values.size());
        return made(zx_construct_vector, at, &passed);
    }
    std::uint64_t construct_string(const key &at, std::string_view text) {
        return state().viewed.detach(
            text, [&](std::string_view own) { return made(zx_construct_string, at, bytes_of(own), own.size()); });
    }
    std::uint64_t construct_strings(const key &at, const texts &list = {}) {
        return state().viewed.detach(
            list, [&](const texts &own) { return made(zx_construct_strings, at, own.data(), own.size()); });
    }
    template <class K, class V> std::uint64_t construct_map(const key &at) {
        static_cast<void>(kind_of<std::map<K, V>>);
        return made(zx_construct_map, at, kind_of<K>, kind_of<V>);
    }

    /// Finds the object, which stays unchanged, or makes it. Throws `wrong_kind` if an object of another kind has the
    /// key.
    /// What it returns leads to the object: `*shop.find_or_construct<std::int64_t>("visits", 0) += 1`.
    template <class T>
    found_values<T> find_or_construct(const key &at, value_of<T> value, std::uint64_t count = 1);
    template <class T>
    found_object<zaluxhoni::vector<T>> find_or_construct_vector(const key &at, slice<T> values = {});
    found_object<zaluxhoni::string> find_or_construct_string(const key &at, std::string_view text);
    found_object<zaluxhoni::strings> find_or_construct_strings(const key &at, const texts &list = {});
    template <class K, class V> found_object<zaluxhoni::map<K, V>> find_or_construct_map(const key &at);

    /// Finds the object of a key, if there is one. T says its kind: a type that can be stored, `std::string`,
    /// `std::vector<std::string>`, `std::vector<std::int64_t>`, `std::map<std::int32_t, std::int64_t>`. Throws
    /// `wrong_kind` if an object of another kind has the key.
    template <class T> [[nodiscard]] std::optional<found> find(const key &at) const {
        std::optional<found> had = find_kind(at, kind_of<T>);
        if constexpr (is_storable<T>) {
            if (had) had->count = static_cast<std::uint32_t>(detail::whole<T>(had->count));
        }
        return had;
    }
    /// Tells whether an object has the key, whatever its kind.
    [[nodiscard]] bool contains(const key &at) const {
        const zx_key raw_key = at.raw();
        zx_info told{};
        std::uint8_t name[255];
        const zx_code code = zx_tell(raw(), &raw_key, &told, name, sizeof name);
        if (code != ZX_NOT_FOUND) check_code(code);
        return code == ZX_DONE;
    }

    /// Destroys the object of a name or kind, and returns whether it existed; or destroys the object of a handle, and
    /// throws `not_found` if there is none.
    bool destroy(const key &at) {
        const zx_key raw_key = at.raw();
        bool was_there = false;
        check_code(zx_destroy(raw(), &raw_key, &was_there));
        return was_there;
    }

    [[nodiscard]] info tell(const key &at) const {
        const zx_key raw_key = at.raw();
        info told{};
        check_code(detail::info_by(
            [&](zx_info *said, std::uint8_t *name, std::size_t room) {
                return zx_tell(raw(), &raw_key, said, name, room);
            },
            told));
        return told;
    }

    // -- one value of an array, a vector or a string

    template <class T> [[nodiscard]] T get(const key &at, std::uint64_t index = 0) const {
        const zx_key raw_key = at.raw();
        if constexpr (is_scalar<T>) {
            zx_value value{};
            check_code(zx_get(raw(), &raw_key, index, &value));
            return stored<T>::from(value);
        } else {
            T value{};
            check_code(stored<T>::read(raw(), &raw_key, index, &value, 1));
            return value;
        }
    }
    template <class T> void set(const key &at, std::uint64_t index, value_of<T> value) {
        const T of = value;
        const zx_key raw_key = at.raw();
        if constexpr (is_scalar<T>) {
            const zx_value passed = stored<T>::value(of);
            check_code(zx_set(raw(), &raw_key, index, &passed));
        } else {
            write<T>(at, index, slice<T>(&of, 1));
        }
    }

    // -- many values of an array or a vector, from `first` on: all of them or none

    template <class T> void read(const key &at, std::uint64_t first, T *row, std::size_t count) const {
        const zx_key raw_key = at.raw();
        check_code(stored<T>::read(raw(), &raw_key, first, row, count));
    }
    template <class T> void write(const key &at, std::uint64_t first, slice<T> values) {
        state().viewed.detach(values);
        const zx_key raw_key = at.raw();
        const zx_values passed = stored<T>::values(values.data(), values.size());
        check_code(zx_write_elements(raw(), &raw_key, detail::product(first, stored<T>::width), &passed));
    }

    // -- one object, by its type. A missing container is made, empty; a const segment throws `not_found` instead

    template <class T> [[nodiscard]] zaluxhoni::array<T> array(const key &at);
    template <class T> [[nodiscard]] const_array<T> array(const key &at) const;
    template <class T> [[nodiscard]] zaluxhoni::vector<T> vector(const key &at);
    template <class T> [[nodiscard]] const_vector<T> vector(const key &at) const;
    template <class K, class V> [[nodiscard]] zaluxhoni::map<K, V> map(const key &at);
    template <class K, class V> [[nodiscard]] const_map<K, V> map(const key &at) const;
    [[nodiscard]] zaluxhoni::string string(const key &at);
    [[nodiscard]] const_string string(const key &at) const;
    [[nodiscard]] zaluxhoni::strings strings(const key &at);
    [[nodiscard]] const_strings strings(const key &at) const;

    // -- lists

    [[nodiscard]] std::uint64_t num_named() const { return number_by(zx_num_named); }
    [[nodiscard]] std::uint64_t num_unique() const { return number_by(zx_num_unique); }
    /// Lists the named objects by the bytes of their names; `unique` lists the unique ones by kind code.
    [[nodiscard]] std::vector<info> named() const {
        std::vector<info> all;
        info told{};
        while (detail::named_at(raw(), all.size(), told)) all.push_back(told);
        return all;
    }
    [[nodiscard]] std::vector<info> unique() const {
        std::vector<info> all;
        info told{};
        while (is_inside(detail::info_by(
            [&](zx_info *said, std::uint8_t *, std::size_t) { return zx_unique_at(raw(), all.size(), said); }, told)))
            all.push_back(told);
        return all;
    }
    /// Returns the objects whose names begin with a text.
    [[nodiscard]] zaluxhoni::group group(std::string prefix) const;
    /// Lists blocks and gaps by offset. Each is searched from the first one, so the list takes quadratic time.
    [[nodiscard]] std::vector<zx_tile> tiles() const {
        std::vector<zx_tile> all;
        zx_tile tile{};
        while (is_inside(zx_tile_at(raw(), all.size(), &tile))) all.push_back(tile);
        return all;
    }

    // -- the two indexes, and the whole segment

    void reserve_named(std::uint64_t places) {
        state().change([&](zx_segment *raw) { return zx_reserve_named(raw, places); });
    }
    void reserve_unique(std::uint64_t places) {
        state().change([&](zx_segment *raw) { return zx_reserve_unique(raw, places); });
    }
    void shrink_indexes() { check_code(zx_shrink_indexes(raw())); }
    void zero_free() { check_code(zx_zero_free(raw())); }
    [[nodiscard]] bool sanity() const { return truth_by(zx_sanity); }
    [[nodiscard]] bool all_deallocated() const { return truth_by(zx_all_deallocated); }

  private:
    friend class object;
    friend class zaluxhoni::group;

    static segment allotted() {
        segment made;
        made.state_ = std::make_shared<detail::state>();
        return made;
    }

    static std::uint32_t file_mode(zaluxhoni::mode how) {
        switch (how) {
        case mode::write: return ZX_OPEN_ONLY;
        case mode::read: return ZX_OPEN_READ_ONLY;
        case mode::copy_on_write: return ZX_OPEN_COPY_ON_WRITE;
        }
        throw bad_mode();
    }

    static segment of_file(const std::string &path, std::uint32_t how, std::uint64_t size,
                           std::chrono::milliseconds wait = {}) {
        using clock = std::chrono::steady_clock;
        segment made = allotted();
        made.state_->path = path;
        const clock::time_point first = clock::now();
        zx_code code = zx_file_open(&made.state_->file, whole(path).c_str(), how, size);
        while (code == ZX_FILE_IN_USE && clock::now() - first < wait) {
            std::this_thread::sleep_for(std::chrono::milliseconds(10));
            code = zx_file_open(&made.state_->file, path.c_str(), how, size);
        }
        made.state_->check(code);
        return made;
    }

    /// Returns the path; throws if it has a byte 0.
    static const std::string &whole(const std::string &path) {
        if (path.find('\0') != std::string::npos) throw file_error(ZX_FILE_FAULT, EINVAL, path);
        return path;
    }

    detail::state &state() const {
        if (state_ == nullptr) throw closed();
        return *state_;
    }
    const std::shared_ptr<detail::state> &shared() const {
        if (state_ == nullptr) throw closed();
        return state_;
    }
    detail::state &outside_step() const {
        state().check_no_step();
        return state();
    }
    void end() noexcept {
        if (state_ != nullptr) zx_file_discard(&state_->file);
    }

    /// Returns the count; throws `bad_count` if no object can have so many values.
    static std::uint32_t count_of(std::uint64_t count) {
        if (count > UINT32_MAX) throw bad_count();
        return static_cast<std::uint32_t>(count);
    }

    std::optional<found> find_kind(const key &at, std::uint32_t kind) const {
        const zx_key raw_key = at.raw();
        found had{0, 0};
        if (!is_there(zx_find(raw(), &raw_key, kind, &had.handle, &had.count))) return std::nullopt;
        return had;
    }
    /// Returns the handle of an object of the kind. Throws `not_found` if there is none.
    std::uint64_t existing(const key &at, std::uint32_t kind) const {
        const std::optional<found> had = find_kind(at, kind);
        if (!had) throw not_found();
        return had->handle;
    }
    /// Returns the handle of an object of the kind, and makes the object if none has the key.
    template <class Make> std::uint64_t existing_or(Make make, const key &at, std::uint32_t kind) const {
        const std::optional<found> had = find_kind(at, kind);
        if (!had && at.is_handle()) throw not_found();
        return had ? had->handle : make().handle;
    }

    static bool is_inside(zx_code code) {
        if (code == ZX_OUT_OF_RANGE) return false;
        check_code(code);
        return true;
    }
    std::uint64_t number_by(zx_code (*call)(zx_segment *, std::uint64_t *)) const {
        std::uint64_t number = 0;
        check_code(call(raw(), &number));
        return number;
    }
    bool truth_by(zx_code (*call)(zx_segment *, bool *)) const {
        bool truth = false;
        check_code(call(raw(), &truth));
        return truth;
    }
    template <class Call, class... Args> std::uint64_t made(Call call, const key &at, Args... args) {
        const zx_key raw_key = at.raw();
        std::uint64_t handle = 0;
        state().change([&](zx_segment *raw) { return call(raw, &raw_key, args..., &handle); });
        return handle;
    }
    template <class Call, class... Args> found found_or_made(Call call, const key &at, Args... args) {
        const zx_key raw_key = at.raw();
        found had{0, 0};
        state().change([&](zx_segment *raw) { return call(raw, &raw_key, args..., &had.handle, &had.count); });
        return had;
    }

    // the handle itself never moves and is never copied. Objects that were asked of the segment share it, and find it
    // closed after the destructor
    std::shared_ptr<detail::state> state_;
};

/// The objects whose names begin with a text, by the rest of their names.
class group {
  public:
    group(std::shared_ptr<detail::state> of, std::string prefix) : of_(std::move(of)), prefix_(std::move(prefix)) {
        if (of_.get() == nullptr) throw closed();
    }

    [[nodiscard]] const std::string &prefix() const noexcept { return prefix_; }
    /// Returns the key of the object with this rest of a name. The object need not exist.
    [[nodiscard]] key operator[](std::string_view rest) const { return key(prefix_ + std::string(rest)); }
    [[nodiscard]] bool empty() const { return named().empty(); }
    [[nodiscard]] std::uint64_t size() const { return named().size(); }
    /// Lists them, with the rests of their names, in the order of their bytes.
    [[nodiscard]] std::vector<info> named() const {
        std::vector<info> all;
        info told{};
        for (std::uint64_t i = detail::named_from(of_->raw(), prefix_);
             detail::named_at(of_->raw(), i, told) && told.name.compare(0, prefix_.size(), prefix_) == 0; i++) {
            told.name.erase(0, prefix_.size());
            all.push_back(told);
        }
        return all;
    }

  private:
    detail::shared_state of_;
    std::string prefix_;
};

// ---- one object

/// The base of `vector`, `map` and their like: their segment and their handle. They are references: a copy refers to the
/// same object of the segment. After the segment is freed, or the reference is moved from, each call throws `closed`.
/// After the object is destroyed, calls throw `not_found`; once another object has its handle, they are for that object,
/// or throw `wrong_kind`.
class object {
  public:
    object(std::shared_ptr<detail::state> of, std::uint64_t handle) noexcept : of_(std::move(of)), handle_(handle) {}

    [[nodiscard]] std::uint64_t handle() const noexcept { return handle_; }

  protected:
    object(const segment &of, const key &at, std::uint32_t kind) : object(of.state_, of.existing(at, kind)) {}

    detail::spot spot() const noexcept { return {of_.get(), handle_}; }
    const detail::shared_state &state() const noexcept { return of_; }
    const detail::viewed_bytes &viewed() const noexcept { return of_->viewed; }
    measures measured() const {
        measures told{0, 0};
        spot().ask(zx_measure, &told.len, &told.places);
        return told;
    }

  private:
    detail::shared_state of_;
    std::uint64_t handle_;
};

/// Thrown when elements are asked of a `view` that is no longer current.
class outdated : public std::logic_error, public error {
  public:
    outdated() : std::logic_error("the segment has changed since the view was made"), error(ZX_DONE) {}
    const char *what() const noexcept override { return std::logic_error::what(); }

  private:
    const std::exception &standard() const noexcept override { return *this; }
};

/// The values of an array, a vector or a string in place, without a copy. It is a pointer and a count until the next
/// call that changes the segment. T is const for reading; otherwise the program may write the values there. It converts
/// to a `std::span`.
template <class T> class view {
  public:
    using element_type = T;
    using value_type = std::remove_const_t<T>;
    using iterator = T *;

    view(detail::shared_state of, const zx_elements &there) : of_(std::move(of)), there_(there) {}

    /// Tells whether the elements are still there: no call has changed the segment since, and none has saved what was
    /// written.
    [[nodiscard]] bool is_current() const noexcept { return at() != nullptr; }
    /// Returns the address of the first. This, `begin`, `end` and [] throw `outdated` if the view is no longer current.
    /// A pointer that they returned before is not checked.
    [[nodiscard]] T *data() const {
        T *const first = at();
        if (first == nullptr) throw outdated();
        return first;
    }
    [[nodiscard]] std::size_t size() const noexcept { return there_.count; }
    [[nodiscard]] bool empty() const noexcept { return size() == 0; }
    [[nodiscard]] T *begin() const { return data(); }
    [[nodiscard]] T *end() const { return data() + size(); }
    /// Throws `out_of_range` past the last one.
    [[nodiscard]] T &operator[](std::size_t index) const {
        if (index >= size()) throw out_of_range();
        return data()[index];
    }

  private:
    T *at() const noexcept {
        if constexpr (!std::is_const_v<T>) return static_cast<T *>(zx_elements_mut(of_->raw(), &there_));
        else return zx_is_current(of_->raw(), &there_) ? static_cast<T *>(there_.at) : nullptr;
    }

    detail::shared_state of_;
    zx_elements there_;
};

namespace detail {

/// Elements from index 0 on, for reading. `Of` is the derived class, which tells its size.
template <class Of, class Access> class const_row : public object, public in_segment {
  public:
    using value_type = typename Access::value_type;
    using size_type = std::uint64_t;
    using const_iterator = detail::iterator<Access, value_type>;
    using const_reverse_iterator = std::reverse_iterator<const_iterator>;

    using object::object;

    [[nodiscard]] std::uint64_t size() const { return Access::size(here(), static_cast<const Of &>(*this)); }
    [[nodiscard]] bool empty() const { return size() == 0; }
    [[nodiscard]] value_type get(std::uint64_t index) const { return Access::get_here(here(), index); }
    [[nodiscard]] value_type at(std::uint64_t index) const { return get(index); }
    [[nodiscard]] value_type operator[](std::uint64_t index) const { return get(index); }
    /// Return the first and the last element. Throw `out_of_range` if there is none.
    [[nodiscard]] value_type front() const { return get(0); }
    [[nodiscard]] value_type back() const { return get(size() - 1); }
    [[nodiscard]] const_iterator begin() const { return {here(), 0}; }
    [[nodiscard]] const_iterator end() const { return {here(), size()}; }
    [[nodiscard]] const_iterator cbegin() const { return begin(); }
    [[nodiscard]] const_iterator cend() const { return end(); }
    [[nodiscard]] const_reverse_iterator rbegin() const { return const_reverse_iterator(end()); }
    [[nodiscard]] const_reverse_iterator rend() const { return const_reverse_iterator(begin()); }
    [[nodiscard]] const_reverse_iterator crbegin() const { return rbegin(); }
    [[nodiscard]] const_reverse_iterator crend() const { return rend(); }

  protected:
    /// Tells where the elements are. It asks again only after a call that changed the segment.
    const typename Access::target &here() const noexcept {
        if (__builtin_expect(!Access::is_located(here_, state().get()), false)) locate();
        return here_;
    }
    /// Keeps where the elements are, after a call that appended one and changed nothing else. They stayed in place if
    /// the storage had room for one more.
    void appended() const noexcept {
        const std::uint64_t changes = state()->raw()->changes;
        if (here_.changes + 1 != changes) return;
        if (__builtin_expect(here_.count >= room_, false)) return locate_with_room();
        here_.count++;
        here_.changes = changes;
    }

  private:
    // not inlined, so that a loop keeps its own in registers
    [[gnu::noinline, gnu::cold]] void locate() const noexcept {
        here_ = Access::located(spot());
        room_ = 0;
    }
    [[gnu::noinline, gnu::cold]] void locate_with_room() const noexcept {
        locate();
        std::uint64_t len = 0;
        static_cast<void>(spot().code_of(zx_measure, &len, &room_));
    }

    mutable typename Access::target here_;
    // the number of elements that the storage has room for, as long as `here_` is kept; 0 if nobody asked
    mutable std::uint64_t room_ = 0;
};

/// Elements from index 0 on, for reading and writing.
template <class Reader, class Access> class row : public Reader {
  public:
    using reference = element<Access>;
    using iterator = detail::iterator<Access, reference>;
    using reverse_iterator = std::reverse_iterator<iterator>;

    using Reader::Reader;

    void set(std::uint64_t index, typename Access::passed_type value) const { Access::set(this->here(), index, value); }
    /// Calls `change` with a copy of the element, and then writes the copy:
    /// `v.modify(0, [](item &of) { of.stock++; })`. If `change` throws, writes nothing.
    template <class Change> void modify(std::uint64_t index, Change change) const { (*this)[index].modify(change); }
    [[nodiscard]] reference operator[](std::uint64_t index) const { return {this->here(), index}; }
    [[nodiscard]] reference front() const { return (*this)[0]; }
    [[nodiscard]] reference back() const { return (*this)[this->size() - 1]; }
    [[nodiscard]] iterator begin() const { return {this->here(), 0}; }
    [[nodiscard]] iterator end() const { return {this->here(), this->size()}; }
    [[nodiscard]] reverse_iterator rbegin() const { return reverse_iterator(end()); }
    [[nodiscard]] reverse_iterator rend() const { return reverse_iterator(begin()); }

  protected:
    /// Returns an iterator to the element at `index`.
    iterator at_index(std::uint64_t index) const { return {this->here(), index}; }
};

/// Reads the first `count` values by one call.
template <class T> std::vector<T> row_of(const spot &of, std::uint64_t count) {
    if constexpr (std::is_same_v<T, bool>) {
        const std::unique_ptr<bool[]> all = std::make_unique<bool[]>(count);
        of.ask(stored<bool>::read, std::uint64_t{0}, all.get(), count);
        return std::vector<bool>(all.get(), all.get() + count);
    } else {
        std::vector<T> all(count);
        of.ask(stored<T>::read, std::uint64_t{0}, all.data(), count);
        return all;
    }
}
/// Tells where the elements of an object are; throws `wrong_kind` if they are of another kind.
template <class T>
zx_elements elements_by(zx_code (*call)(zx_segment *, const zx_key *, zx_elements *), const spot &of) {
    static_assert(alignof(T) <= 8, "elements stand at multiples of 8 bytes");
    zx_elements there{};
    of.ask(call, &there);
    if (there.kind != stored<T>::kind) throw wrong_kind();
    there.count = whole<T>(there.count);
    of.of->viewed.add(there.at, there.count * sizeof(T));
    return there;
}

/// The values of an array or a vector, for reading.
template <class Of, class T> class const_values : public const_row<Of, values<T>> {
  public:
    using const_row<Of, values<T>>::const_row;

    /// Copies `count` values, from `first` on, by one call: all of them or none.
    void read(std::uint64_t first, T *row, std::size_t count) const {
        this->spot().ask(stored<T>::read, first, row, count);
    }
#if __cplusplus >= 202002L
    void read(std::uint64_t first, std::span<T> row) const { read(first, row.data(), row.size()); }
#endif
    [[nodiscard]] std::vector<T> to_vector() const {
        return row_of<T>(this->spot(), this->size());
    }
    /// Returns a view of its values.
    [[nodiscard]] zaluxhoni::view<const T> view() const {
        return {this->state(), elements_by<T>(zx_view, this->spot())};
    }
    /// Returns a view for reading, even of what may change.
    [[nodiscard]] zaluxhoni::view<const T> cview() const { return view(); }
    /// Returns the address of the first value. It holds until the next call that changes the segment, and nothing
    /// checks it after that; a `view` does.
    [[nodiscard]] const T *data() const { return view().data(); }
};

template <class T> void write_row(const spot &of, std::uint64_t first, slice<T> &values) {
    of.of->viewed.detach(values);
    const zx_values passed = stored<T>::values(values.data(), values.size());
    of.ask(zx_write_elements, product(first, stored<T>::width), &passed);
}

} // namespace detail

/// An array, for reading. Its length never changes.
template <class T> class const_array : public detail::const_values<const_array<T>, T> {
    using base = detail::const_values<const_array<T>, T>;

  public:
    using base::base;
    const_array(const segment &of, const key &at) : base(of, at, kind_of<T>) {
        if constexpr (!is_scalar<T>) static_cast<void>(measure());
    }

    [[nodiscard]] measures measure() const {
        std::uint64_t handle = 0;
        std::uint32_t count = 0;
        if (!is_there(this->spot().code_of(zx_find, kind_of<T>, &handle, &count))) throw not_found();
        const std::uint64_t values = detail::whole<T>(count);
        return {values, values};
    }
};

/// An array. Its length never changes.
template <class T> class array : public detail::row<const_array<T>, detail::values<T>> {
  public:
    using detail::row<const_array<T>, detail::values<T>>::row;

    /// Overwrites elements from `first` on, by one call: all of them or none.
    void write(std::uint64_t first, slice<T> values) const { detail::write_row(this->spot(), first, values); }
    /// Returns a view of its values, for writing too. Throws `read_only` in a segment that is open for reading.
    [[nodiscard]] zaluxhoni::view<T> view() const {
        return {this->state(), detail::elements_by<T>(zx_view_mut, this->spot())};
    }
    /// Returns the address of the first value, for writing too, as `view` does.
    [[nodiscard]] T *data() const { return view().data(); }
};

/// A vector, for reading.
template <class T> class const_vector : public detail::const_values<const_vector<T>, T> {
    using base = detail::const_values<const_vector<T>, T>;

  public:
    using base::base;
    const_vector(const segment &of, const key &at) : base(of, at, kind_of<std::vector<T>>) {}

    /// Returns length and capacity.
    [[nodiscard]] measures measure() const {
        const measures bytes = this->measured();
        return {detail::whole<T>(bytes.len), bytes.places / stored<T>::width};
    }
    [[nodiscard]] std::uint64_t capacity() const { return measure().places; }
};

/// A vector.
template <class T> class vector : public detail::row<const_vector<T>, detail::values<T>> {
    using base = detail::row<const_vector<T>, detail::values<T>>;

  public:
    using detail::row<const_vector<T>, detail::values<T>>::row;
    using typename base::iterator, typename base::const_iterator, typename base::reference;

    void push_back(value_of<T> value) const {
        const T of = value;
        if constexpr (std::is_same_v<T, std::int64_t>) {
            this->spot().push(of);
            this->appended();
        } else if constexpr (is_scalar<T>) {
            const zx_value passed = stored<T>::value(of);
            this->spot().lengthen(1, zx_push, &passed);
            this->appended();
        } else {
            append_range(slice<T>(&of, 1));
        }
    }
    /// Constructs a value of the arguments and appends it.
    template <class... Args> reference emplace_back(Args &&...args) const {
        push_back(T(std::forward<Args>(args)...));
        return this->back();
    }
    /// Removes the last value, and returns it. Throws `out_of_range` for an empty vector.
    T pop_back() const {
        if constexpr (is_scalar<T>) {
            zx_value value{};
            this->spot().ask(zx_pop, &value);
            // a value of another kind goes back into its place, which is still there, and then throws: checking the
            // kind first would cost every call a look-up
            if (value.kind != stored<T>::kind) this->spot().ask(zx_push, &value);
            return stored<T>::from(value);
        } else {
            const T last = this->get(this->size() - 1);
            // each of its bytes is an element. After a value was read, no call that removes one of them fails, but for a
            // segment that is only read, where the first one does
            zx_value byte{};
            for (std::uint64_t i = 0; i < stored<T>::width; i++) this->spot().ask(zx_pop, &byte);
            return last;
        }
    }
    /// Inserts a value, or several, before `index`, which may be the size.
    void insert(std::uint64_t index, value_of<T> value) const {
        const T of = value;
        if constexpr (is_scalar<T>) {
            const zx_value passed = stored<T>::value(of);
            this->spot().lengthen(1, zx_insert, index, &passed);
        } else {
            insert_range(index, slice<T>(&of, 1));
        }
    }
    void insert_range(std::uint64_t index, slice<T> values) const {
        std::vector<T> all = this->to_vector();
        if (index > all.size()) throw out_of_range();
        all.insert(all.begin() + static_cast<std::ptrdiff_t>(index), values.begin(), values.end());
        assign(all);
    }
    /// Inserts a value, or several, before the element of an iterator. Returns an iterator to the first of them.
    iterator insert(const_iterator at, value_of<T> value) const {
        insert(at.index(), value);
        return this->at_index(at.index());
    }
    iterator insert(const_iterator at, slice<T> values) const {
        insert_range(at.index(), std::move(values));
        return this->at_index(at.index());
    }
    /// Appends values by one call: all of them or none.
    void append_range(slice<T> values) const {
        this->viewed().detach(values);
        const zx_values passed = stored<T>::values(values.data(), values.size());
        this->spot().lengthen(values.size() * stored<T>::width, zx_extend, &passed);
    }
    /// Removes the value at `index`; the values from `first` on and before `last`.
    void erase(std::uint64_t index) const {
        if constexpr (is_scalar<T>) this->spot().ask(zx_erase, index);
        else erase(index, index + 1);
    }
    void erase(std::uint64_t first, std::uint64_t last) const {
        std::vector<T> all = this->to_vector();
        if (first > last || last > all.size()) throw out_of_range();
        all.erase(all.begin() + static_cast<std::ptrdiff_t>(first), all.begin() + static_cast<std::ptrdiff_t>(last));
        assign(all);
    }
    /// Removes the element of an iterator, or the elements from `first` on and before `last`. Returns an iterator to
    /// the element after them.
    iterator erase(const_iterator at) const {
        erase(at.index());
        return this->at_index(at.index());
    }
    iterator erase(const_iterator first, const_iterator last) const {
        erase(first.index(), last.index());
        return this->at_index(first.index());
    }
    void assign(slice<T> values) const {
        this->viewed().detach(values);
        const zx_values passed = stored<T>::values(values.data(), values.size());
        this->spot().change(zx_assign, &passed);
    }
    /// Overwrites elements from `first` on, by one call: all of them or none.
    void write(std::uint64_t first, slice<T> values) const { detail::write_row(this->spot(), first, values); }
    /// Returns a view of its values, for writing too. Throws `read_only` in a segment that is open for reading.
    [[nodiscard]] zaluxhoni::view<T> view() const {
        return {this->state(), detail::elements_by<T>(zx_view_mut, this->spot())};
    }
    /// Returns the address of the first value, for writing too, as `view` does.
    [[nodiscard]] T *data() const { return view().data(); }
    void reserve(std::uint64_t places) const {
        this->spot().change(zx_reserve, detail::product(places, stored<T>::width));
    }
    /// Sets the size: cuts values off, or appends copies of `value`.
    void resize(std::uint64_t size, value_of<T> value = T{}) const {
        const std::uint64_t now = this->size();
        if (size < now) return erase(size, now);
        this->spot().of->check_room(size, sizeof(T));
        append_range(std::vector<T>(size - now, value));
    }
    void shrink_to_fit() const { this->spot().ask(zx_trim); }
    void clear() const { this->spot().ask(zx_clear); }
};

/// Removes the values for which `is_unwanted` returns true, by one call. Returns the number of values that it removed.
template <class T, class Test> std::uint64_t erase_if(const vector<T> &of, Test is_unwanted) {
    std::vector<T> all = of.to_vector();
    const auto end = std::remove_if(all.begin(), all.end(), is_unwanted);
    const std::uint64_t count = static_cast<std::uint64_t>(all.end() - end);
    if (count == 0) return 0;
    all.erase(end, all.end());
    of.assign(all);
    return count;
}
/// Removes the values that are equal to `value`.
template <class T, class U> std::uint64_t erase(const vector<T> &of, const U &value) {
    return erase_if(of, [&](const T &each) { return each == value; });
}

/// A string, for reading: bytes, in any encoding.
class const_string : public detail::const_row<const_string, detail::values<std::uint8_t>>, public detail::read_as_text {
  public:
    using const_row::const_row;
    const_string(const segment &of, const key &at) : const_row(of, at, ZX_STRING) {}

    [[nodiscard]] measures measure() const { return measured(); }
    [[nodiscard]] std::uint64_t capacity() const { return measure().places; }
    [[nodiscard]] std::string str() const {
        return detail::text_by([&](std::uint8_t *text, std::size_t room, std::uint64_t *len) {
            return spot().code_of(zx_read_string, text, room, len);
        });
    }
    operator std::string() const { return str(); }
    /// Returns its bytes in place, until the next call that changes the segment.
    [[nodiscard]] std::string_view view() const {
        const zx_elements there = detail::elements_by<std::uint8_t>(zx_view, spot());
        return {static_cast<const char *>(there.at), there.count};
    }
    static constexpr std::size_t npos = std::string_view::npos;
    /// Returns the index of the first, or of the last, occurrence of a text that begins at `from` or after it, or at
    /// `from` or before it; `npos` if there is none.
    [[nodiscard]] std::size_t find(std::string_view text, std::size_t from = 0) const {
        return view().find(text, from);
    }
    [[nodiscard]] std::size_t rfind(std::string_view text, std::size_t from = npos) const {
        return view().rfind(text, from);
    }
    [[nodiscard]] bool contains(std::string_view text) const { return find(text) != npos; }
    [[nodiscard]] bool starts_with(std::string_view text) const { return view().substr(0, text.size()) == text; }
    [[nodiscard]] bool ends_with(std::string_view text) const {
        const std::string_view all = view();
        return all.size() >= text.size() && all.substr(all.size() - text.size()) == text;
    }
    [[nodiscard]] std::string substr(std::size_t from, std::size_t count = npos) const {
        const std::string_view all = view();
        if (from > all.size()) throw out_of_range();
        return std::string(all.substr(from, count));
    }
};

/// A string.
class string : public detail::row<const_string, detail::values<std::uint8_t>> {
  public:
    using row::row;

    void assign(std::string_view text) const {
        viewed().detach(
            text, [&](std::string_view own) { spot().change(zx_assign_string, bytes_of(own), own.size()); });
    }
    void append(std::string_view text) const {
        viewed().detach(
            text, [&](std::string_view own) { spot().lengthen(own.size(), zx_append, bytes_of(own), own.size()); });
    }
    const string &operator+=(std::string_view text) const {
        append(text);
        return *this;
    }
    void push_back(char byte) const { append({&byte, 1}); }
    void reserve(std::uint64_t places) const { spot().change(zx_reserve, places); }
    void shrink_to_fit() const { spot().ask(zx_trim); }
    void clear() const { spot().ask(zx_clear); }
};

/// A vector of strings, for reading.
class const_strings : public detail::const_row<const_strings, detail::lines> {
  public:
    using const_row::const_row;
    const_strings(const segment &of, const key &at) : const_row(of, at, ZX_STRINGS) {}

    [[nodiscard]] measures measure() const { return measured(); }
    [[nodiscard]] std::uint64_t capacity() const { return measure().places; }
    [[nodiscard]] std::vector<std::string> to_vector() const { return std::vector<std::string>(begin(), end()); }
};

/// A vector of strings.
class strings : public detail::row<const_strings, detail::lines> {
  public:
    using row::row;
    using row::iterator, row::const_iterator, row::reference;

    void push_back(std::string_view text) const {
        viewed().detach(
            text, [&](std::string_view own) { spot().change(zx_push_text, bytes_of(own), own.size()); });
    }
    void push_back(const reference &element) const { push_back(std::string_view(element.value())); }
    /// Removes the last string, and returns it. Throws `out_of_range` for an empty vector.
    std::string pop_back() const {
        std::string last = get(size() - 1);
        spot().ask(zx_pop_text);
        return last;
    }
    /// Inserts a string, or several, before `index`, which may be the size.
    void insert(std::uint64_t index, std::string_view text) const {
        viewed().detach(
            text, [&](std::string_view own) { spot().change(zx_insert_text, index, bytes_of(own), own.size()); });
    }
    void insert(std::uint64_t index, const reference &element) const {
        insert(index, std::string_view(element.value()));
    }
    void insert_range(std::uint64_t index, const texts &list) const {
        std::vector<std::string> all = to_vector();
        if (index > all.size()) throw out_of_range();
        const std::vector<std::string> added = list.copies();
        all.insert(all.begin() + static_cast<std::ptrdiff_t>(index), added.begin(), added.end());
        assign(all);
    }
    void append_range(const texts &list) const { insert_range(size(), list); }
    /// Removes the string at `index`; the strings from `first` on and before `last`.
    void erase(std::uint64_t index) const { spot().ask(zx_erase, index); }
    void erase(std::uint64_t first, std::uint64_t last) const {
        std::vector<std::string> all = to_vector();
        if (first > last || last > all.size()) throw out_of_range();
        all.erase(all.begin() + static_cast<std::ptrdiff_t>(first), all.begin() + static_cast<std::ptrdiff_t>(last));
        assign(all);
    }
    /// `emplace_back` returns the new text, `insert` an iterator to it, and `erase` an iterator to the text after the
    /// erased ones. Errors: as of `push_back`, and of `insert` and `erase` by an index.
    reference emplace_back(std::string_view text) const {
        push_back(text);
        return back();
    }
    iterator insert(const_iterator at, std::string_view text) const {
        insert(at.index(), text);
        return at_index(at.index());
    }
    iterator erase(const_iterator at) const {
        erase(at.index());
        return at_index(at.index());
    }
    iterator erase(const_iterator first, const_iterator last) const {
        erase(first.index(), last.index());
        return at_index(first.index());
    }
    void assign(const texts &list) const {
        viewed().detach(
            list, [&](const texts &own) { spot().change(zx_assign_texts, own.data(), own.size()); });
    }
    void reserve(std::uint64_t places) const { spot().change(zx_reserve, places); }
    void shrink_to_fit() const { spot().ask(zx_trim); }
    void clear() const { spot().ask(zx_clear); }
};

/// Removes the strings for which `is_unwanted` returns true, by one call. Returns the number of strings that it removed.
template <class Test> std::uint64_t erase_if(const strings &of, Test is_unwanted) {
    std::vector<std::string> all = of.to_vector();
    const auto end = std::remove_if(all.begin(), all.end(), is_unwanted);
    const std::uint64_t count = static_cast<std::uint64_t>(all.end() - end);
    if (count == 0) return 0;
    all.erase(end, all.end());
    of.assign(all);
    return count;
}

/// A map from scalars to scalars, in the order of its keys, for reading.
template <class K, class V> class const_map : public object {
    static_assert(is_scalar<K> && is_scalar<V>,
                  "keys and values of maps are bool, or integers of u8, i32, i64 and u64");

  public:
    using key_type = K;
    using mapped_type = V;
    using value_type = std::pair<K, V>;
    using size_type = std::uint64_t;

    /// Holds a copy of a pair. It moves to the pair with the least key above it, or with the greatest key below it,
    /// even if the map has changed meanwhile; a step back looks up at most some 64 keys. After six steps it
    /// reads pairs ahead, up to 32, until a call changes the segment.
    class iterator {
      public:
#if __cplusplus >= 202002L
        using iterator_concept = std::bidirectional_iterator_tag;
#endif
        // std::prev takes no other
        using iterator_category = std::bidirectional_iterator_tag;
        using value_type = std::pair<K, V>;
        using difference_type = std::ptrdiff_t;
        using pointer = detail::arrow<value_type>;
        using reference = value_type;

        iterator() = default;
        iterator(detail::spot of, std::optional<value_type> pair) : of_(of), pair_(pair) {}
        // a copy has no pairs ahead, so it costs no more than its pair
        iterator(const iterator &other) : of_(other.of_), pair_(other.pair_) {}
        iterator(iterator &&) noexcept = default;
        iterator &operator=(const iterator &other) {
            of_ = other.of_, pair_ = other.pair_, changes_ = never;
            return *this;
        }
        iterator &operator=(iterator &&) noexcept = default;
        ~iterator() = default;

        reference operator*() const { return *pair_; }
        pointer operator->() const { return pointer(*pair_); }
        [[gnu::always_inline]] iterator &operator++() {
            const std::uint64_t changes = of_.of->raw()->changes;
            if (changes != changes_) step(changes);
            else if (__builtin_expect(ahead_ && ahead_->at < ahead_->count, true)) pair_ = ahead_->next();
            else step_ahead();
            return *this;
        }
        iterator &operator--() {
            changes_ = never;
            pair_ = pair_ ? below(of_, pair_->first) : greatest(of_, std::numeric_limits<K>::max());
            return *this;
        }
        iterator operator++(int) {
            iterator before = *this;
            ++*this;
            return before;
        }
        iterator operator--(int) {
            iterator before = *this;
            --*this;
            return before;
        }
        /// Compares the keys, or whether both are at the end.
        friend bool operator==(const iterator &a, const iterator &b) {
            return a.pair_ && b.pair_ ? a.pair_->first == b.pair_->first : !a.pair_ && !b.pair_;
        }
        friend bool operator!=(const iterator &a, const iterator &b) { return !(a == b); }

      private:
        // a number that no segment counts to: no step was made since the iterator came to its pair
        static constexpr std::uint64_t never = std::numeric_limits<std::uint64_t>::max();
        // to read ahead costs as much as some ten steps, so a short walk makes its steps one by one
        static constexpr std::uint32_t steps_alone = 6;

        /// The pairs behind the one that is held: from `at` on, `count` of the `places` that were asked for.
        struct pairs_ahead {
            std::size_t at = 0, count = 0, places = 0;
            std::int64_t keys[32], values[32];

            value_type next() {
                const value_type pair(static_cast<K>(keys[at]), static_cast<V>(values[at]));
                at++;
                return pair;
            }
        };

        detail::spot of_;
        std::optional<value_type> pair_;
        // the segment's counter of changes at the last step: it looked at the kinds of the map, and read the pairs ahead
        std::uint64_t changes_ = never;
        // the steps that were made one by one since then
        std::uint32_t steps_ = 0;
        std::unique_ptr<pairs_ahead> ahead_;

        /// Makes a first step, alone or after a change.
        [[gnu::always_inline]] void step(std::uint64_t changes) {
            pair_ = next_of(of_, pair_->first);
            changes_ = changes, steps_ = 1;
            if (__builtin_expect(ahead_ != nullptr, false)) ahead_->at = ahead_->count = ahead_->places = 0;
        }
        /// Reads 16 pairs ahead, then 32 each time. The first steps, and all without memory for the pairs, are made one
        /// by one.
        [[gnu::noinline]] void step_ahead() {
            if (steps_ >= steps_alone && !ahead_) ahead_.reset(new (std::nothrow) pairs_ahead);
            if (!ahead_ || steps_ < steps_alone) {
                pair_ = next_of(of_, pair_->first);
                steps_++;
                return;
            }
            const bool is_end = ahead_->count < ahead_->places;
            if (!is_end) read_ahead();
            if (is_end || ahead_->count == 0) pair_.reset();
            else pair_ = ahead_->next();
        }
        void read_ahead() {
            const zx_value after = stored<K>::value(pair_->first);
            const std::size_t places = ahead_->places ? 32 : 16;
            std::size_t count = 0;
            check_code(of_.code_of(zx_read_pairs, &after, ahead_->keys, ahead_->values, places, &count));
            ahead_->at = 0, ahead_->count = count, ahead_->places = places;
        }
    };
    using const_iterator = iterator;
    using reverse_iterator = std::reverse_iterator<iterator>;
    using const_reverse_iterator = reverse_iterator;

    using object::object;
    const_map(const segment &of, const key &at) : object(of, at, kind_of<std::map<K, V>>) {}

    /// Returns the number of pairs; the capacity is 0.
    [[nodiscard]] measures measure() const { return measured(); }
    [[nodiscard]] std::uint64_t size() const { return measure().len; }
    [[nodiscard]] bool empty() const { return size() == 0; }

    /// Returns the value of a key, or nothing; `get`, `at` and [] throw `absent` instead.
    [[nodiscard]] std::optional<V> lookup(number<K> wanted) const { return detail::pairs<K, V>::find(spot(), wanted); }
    /// Returns an iterator to the pair of a key, or `end()`.
    [[nodiscard]] iterator find(number<K> wanted) const {
        const std::optional<V> value = lookup(wanted);
        return {spot(), value ? std::optional(value_type(wanted, *value)) : std::nullopt};
    }
    [[nodiscard]] V get(number<K> wanted) const { return detail::pairs<K, V>::get(spot(), wanted); }
    [[nodiscard]] V at(number<K> wanted) const { return get(wanted); }
    [[nodiscard]] V operator[](number<K> wanted) const { return get(wanted); }
    [[nodiscard]] bool contains(number<K> wanted) const { return lookup(wanted).has_value(); }
    /// Returns 1 if the key is there, and 0 otherwise.
    [[nodiscard]] size_type count(number<K> wanted) const { return contains(wanted) ? 1 : 0; }

    /// Returns the pair with the least key; with the least key above another.
    [[nodiscard]] std::optional<value_type> first() const { return first_of(spot()); }
    [[nodiscard]] std::optional<value_type> next(number<K> after) const { return next_of(spot(), after); }
    /// Returns the pair with the greatest key; with the greatest key below another. Each looks up at most some 64 keys.
    [[nodiscard]] std::optional<value_type> last() const { return greatest(spot(), std::numeric_limits<K>::max()); }
    [[nodiscard]] std::optional<value_type> previous(number<K> before) const { return below(spot(), before); }
    /// Returns an iterator to the first pair whose key is at least `from`; whose key is above it.
    [[nodiscard]] iterator lower_bound(number<K> from) const {
        const std::optional<V> value = lookup(from);
        return {spot(), value ? value_type(from, *value) : next(from)};
    }
    [[nodiscard]] iterator upper_bound(number<K> from) const { return {spot(), next(from)}; }

    [[nodiscard]] std::map<K, V> to_map() const { return std::map<K, V>(begin(), end()); }
    [[nodiscard]] std::vector<value_type> to_vector() const {
        std::vector<value_type> all;
        for (iterator it = begin(); it != end(); ++it) all.push_back(*it);
        return all;
    }
    [[nodiscard]] iterator begin() const { return {spot(), first()}; }
    [[nodiscard]] iterator end() const { return {spot(), std::nullopt}; }
    [[nodiscard]] iterator cbegin() const { return begin(); }
    [[nodiscard]] iterator cend() const { return end(); }
    [[nodiscard]] reverse_iterator rbegin() const { return reverse_iterator(end()); }
    [[nodiscard]] reverse_iterator rend() const { return reverse_iterator(begin()); }

  private:
    static std::optional<value_type> next_of(const detail::spot &of, K after) {
        const zx_value passed = stored<K>::value(after);
        zx_value at{}, value{};
        if (!is_there(of.code_of(zx_map_next, &passed, &at, &value))) return std::nullopt;
        return value_type(stored<K>::from(at), stored<V>::from(value));
    }
    static std::optional<value_type> first_of(const detail::spot &of) {
        zx_value at{}, value{};
        if (!is_there(of.code_of(zx_map_first, &at, &value))) return std::nullopt;
        return value_type(stored<K>::from(at), stored<V>::from(value));
    }
    static std::optional<value_type> below(const detail::spot &of, K before) {
        if (before == std::numeric_limits<K>::min()) return std::nullopt;
        return greatest(of, static_cast<K>(before - 1));
    }
    /// Returns the pair with the greatest key that is at most `high`.
    static std::optional<value_type> greatest(const detail::spot &of, K high) {
        std::optional<value_type> pair = first_of(of);
        if (!pair || pair->first > high) return std::nullopt;
        // the key that we want is at least that of the pair, and at most `high`
        while (pair->first < high) {
            const std::uint64_t low = static_cast<std::uint64_t>(pair->first);
            const K middle = static_cast<K>(low + (static_cast<std::uint64_t>(high) - low) / 2);
            const std::optional<value_type> above = next_of(of, middle);
            if (above && above->first <= high) pair = above;
            else high = middle;
        }
        return pair;
    }
};

/// A map.
template <class K, class V> class map : public const_map<K, V> {
  public:
    using const_map<K, V>::const_map;
    using typename const_map<K, V>::iterator, typename const_map<K, V>::value_type;

    /// Puts a value at a key, and returns whether the key is new.
    bool put(number<K> at, number<V> value) const { return detail::pairs<K, V>::put(this->spot(), at, value); }
    void set(number<K> at, number<V> value) const { put(at, value); }
    /// Puts the pair unless the key is there. Returns an iterator to the pair of the key, and whether the key is new.
    std::pair<iterator, bool> insert(const value_type &pair) const { return try_emplace(pair.first, pair.second); }
    std::pair<iterator, bool> try_emplace(number<K> at, number<V> value) const {
        const K wanted = at;
        const std::optional<V> had = this->lookup(wanted);
        if (!had) put(wanted, value);
        return {iterator(this->spot(), value_type(wanted, had ? *had : V(value))), !had};
    }
    std::pair<iterator, bool> emplace(number<K> at, number<V> value) const { return try_emplace(at, value); }
    /// Puts the pair. Returns an iterator to it, and whether the key is new.
    std::pair<iterator, bool> insert_or_assign(number<K> at, number<V> value) const {
        const bool is_new = put(at, value);
        return {iterator(this->spot(), value_type(at, value)), is_new};
    }
    /// Puts each pair of a range, such as a `std::map`, one after another.
    template <class R> void put_range(const R &range) const {
        for (const auto &[at, value] : range) put(at, value);
    }
    void put_range(std::initializer_list<std::pair<K, V>> list) const { put_range<>(list); }
    /// Returns an element to read or put. Reading makes no pair; `+=`, `++` and their like begin with 0 if the key is
    /// new.
    [[nodiscard]] detail::element<detail::pairs<K, V>> operator[](number<K> at) const { return {this->spot(), at}; }
    /// Removes a key, and returns whether it existed.
    bool erase(number<K> at) const {
        const zx_value passed = stored<K>::value(at);
        bool was_there = false;
        this->spot().ask(zx_map_erase, &passed, &was_there);
        return was_there;
    }
    /// Removes the pair of an iterator. Returns an iterator to the pair after it.
    iterator erase(iterator at) const {
        const K removed = at->first;
        ++at;
        erase(removed);
        return at;
    }
    /// Removes all keys, one after another.
    void clear() const {
        while (const auto pair = this->first()) erase(pair->first);
    }
};

/// Removes the pairs for which `is_unwanted` returns true, one after another. Returns their number.
template <class K, class V, class Test> std::uint64_t erase_if(const map<K, V> &of, Test is_unwanted) {
    std::uint64_t count = 0;
    for (auto pair = of.first(); pair; pair = of.next(pair->first)) {
        if (!is_unwanted(*pair)) continue;
        of.erase(pair->first);
        count++;
    }
    return count;
}

// ---- comparing whole objects

namespace detail {

template <class T> std::true_type is_row_of(const const_array<T> &);
template <class T> std::true_type is_row_of(const const_vector<T> &);
std::true_type is_row_of(const const_strings &);
template <class K, class V> std::true_type is_row_of(const const_map<K, V> &);
std::false_type is_row_of(...);

template <class T> inline constexpr bool is_read = decltype(is_row_of(std::declval<const T &>()))::value;

/// Returns the range itself, or its elements, read by one call.
template <class T> decltype(auto) all_of(const T &of) {
    if constexpr (is_read<T>) return of.to_vector();
    else return (of);
}

} // namespace detail

/// Compares elements in order: of arrays, vectors and maps of a segment, and of any other range.
template <class A, class B, std::enable_if_t<detail::is_read<A> || detail::is_read<B>, int> = 0>
auto operator==(const A &a, const B &b) -> decltype(std::begin(a) == std::end(a) && std::begin(b) == std::end(b)) {
    const auto &left = detail::all_of(a);
    const auto &right = detail::all_of(b);
    return std::equal(
        std::begin(left), std::end(left), std::begin(right), std::end(right), [](const auto &x, const auto &y) {
            using value = std::conditional_t<detail::is_read<A>, A, B>;
            return static_cast<typename value::value_type>(x) == static_cast<typename value::value_type>(y);
        });
}
template <class A, class B, std::enable_if_t<detail::is_read<A> || detail::is_read<B>, int> = 0>
auto operator!=(const A &a, const B &b) -> decltype(std::begin(a) == std::end(a) && std::begin(b) == std::end(b)) {
    return !(a == b);
}

// ---- what a segment gives

/// What `find_or_construct` returns: handle and count, and the values. `*` is the first one, as `[0]` is.
template <class T> class found_values : public found {
  public:
    found_values(const found &had, array<T> values) : found(had), values_(std::move(values)) {}

    [[nodiscard]] const array<T> &object() const noexcept { return values_; }
    [[nodiscard]] typename array<T>::reference operator[](std::uint64_t index) const { return values_[index]; }
    [[nodiscard]] typename array<T>::reference operator*() const { return values_[0]; }
    /// Reads a member of the first value; `(*found).modify(change)` writes.
    [[nodiscard]] detail::arrow<T> operator->() const { return values_[0].operator->(); }

  private:
    array<T> values_;
};

/// What `find_or_construct_vector` and its like return: handle and count, and by `*` and `->` the object.
template <class Object> class found_object : public found {
  public:
    found_object(const found &had, Object of) : found(had), object_(std::move(of)) {}

    [[nodiscard]] const Object &object() const noexcept { return object_; }
    [[nodiscard]] const Object &operator*() const noexcept { return object_; }
    [[nodiscard]] const Object *operator->() const noexcept { return &object_; }

  private:
    Object object_;
};

template <class T>
found_values<T> segment::find_or_construct(const key &at, value_of<T> value, std::uint64_t count) {
    found had{0, 0};
    if constexpr (is_scalar<T>) {
        const zx_value passed = stored<T>::value(value);
        had = found_or_made(zx_find_or_construct, at, count_of(count), &passed);
    } else {
        const std::optional<found> there = find<T>(at);
        had = there ? *there : found{construct<T>(at, value, count), count_of(count)};
    }
    return {had, zaluxhoni::array<T>(state_, had.handle)};
}
template <class T>
found_object<vector<T>> segment::find_or_construct_vector(const key &at, slice<T> values) {
    state().viewed.detach(values);
    const zx_values passed = stored<T>::values(values.data(), values.size());
    const found had = found_or_made(zx_find_or_construct_vector, at, &passed);
    return {had, zaluxhoni::vector<T>(state_, had.handle)};
}
inline found_object<string> segment::find_or_construct_string(const key &at, std::string_view text) {
    const found had = state().viewed.detach(text, [&](std::string_view own) {
        return found_or_made(zx_find_or_construct_string, at, bytes_of(own), own.size());
    });
    return {had, zaluxhoni::string(state_, had.handle)};
}
inline found_object<strings> segment::find_or_construct_strings(const key &at, const texts &list) {
    const found had = state().viewed.detach(list, [&](const texts &own) {
        return found_or_made(zx_find_or_construct_strings, at, own.data(), own.size());
    });
    return {had, zaluxhoni::strings(state_, had.handle)};
}
template <class K, class V> found_object<map<K, V>> segment::find_or_construct_map(const key &at) {
    static_cast<void>(kind_of<std::map<K, V>>);
    const found had = found_or_made(zx_find_or_construct_map, at, kind_of<K>, kind_of<V>);
    return {had, zaluxhoni::map<K, V>(state_, had.handle)};
}

template <class T> array<T> segment::array(const key &at) { return zaluxhoni::array<T>(*this, at); }
template <class T> const_array<T> segment::array(const key &at) const { return const_array<T>(*this, at); }

template <class T> vector<T> segment::vector(const key &at) {
    return {state_, existing_or([&] { return find_or_construct_vector<T>(at); }, at, kind_of<std::vector<T>>)};
}
template <class T> const_vector<T> segment::vector(const key &at) const { return const_vector<T>(*this, at); }

template <class K, class V> map<K, V> segment::map(const key &at) {
    return {state_, existing_or([&] { return find_or_construct_map<K, V>(at); }, at, kind_of<std::map<K, V>>)};
}
template <class K, class V> const_map<K, V> segment::map(const key &at) const { return const_map<K, V>(*this, at); }

inline string segment::string(const key &at) {
    return {state_, existing_or([&] { return find_or_construct_string(at, {}); }, at, ZX_STRING)};
}
inline const_string segment::string(const key &at) const { return const_string(*this, at); }

inline strings segment::strings(const key &at) {
    return {state_, existing_or([&] { return find_or_construct_strings(at); }, at, ZX_STRINGS)};
}
inline const_strings segment::strings(const key &at) const { return const_strings(*this, at); }

inline zaluxhoni::group segment::group(std::string prefix) const { return zaluxhoni::group(state_, std::move(prefix)); }

} // namespace zaluxhoni

// ---- what the standard library asks for

template <> struct std::hash<zaluxhoni::key> {
    std::size_t operator()(const zaluxhoni::key &of) const noexcept {
        const std::size_t numbers = std::hash<std::uint64_t>()(of.handle_ * 31 + of.kind_ * 5 + of.how_);
        return numbers * 31 + std::hash<std::string>()(of.name_);
    }
};
template <> struct std::hash<zaluxhoni::const_string> {
    std::size_t operator()(const zaluxhoni::const_string &of) const { return std::hash<std::string>()(of.str()); }
};
template <> struct std::hash<zaluxhoni::string> : std::hash<zaluxhoni::const_string> {};

#ifdef __cpp_lib_format
namespace zaluxhoni::detail {
/// Formats a text as a text.
template <class T> struct text_formatter : std::formatter<std::string_view, char> {
    template <class Context> auto format(const T &of, Context &context) const {
        const std::string text = of.str();
        return std::formatter<std::string_view, char>::format(text, context);
    }
};
} // namespace zaluxhoni::detail

template <>
struct std::formatter<zaluxhoni::const_string, char> : zaluxhoni::detail::text_formatter<zaluxhoni::const_string> {};
template <> struct std::formatter<zaluxhoni::string, char> : zaluxhoni::detail::text_formatter<zaluxhoni::string> {};
template <>
struct std::formatter<zaluxhoni::detail::element<zaluxhoni::detail::lines>, char>
    : zaluxhoni::detail::text_formatter<zaluxhoni::detail::element<zaluxhoni::detail::lines>> {};
/// Formats an element as its value.
template <class Access>
struct std::formatter<zaluxhoni::detail::element<Access>, char> : std::formatter<typename Access::value_type, char> {
    template <class Context> auto format(const zaluxhoni::detail::element<Access> &of, Context &context) const {
        return std::formatter<typename Access::value_type, char>::format(of.value(), context);
    }
};
#endif

#if __cplusplus >= 202002L
// iterators lead to the segment, and outlive the object that returned them
template <class T> inline constexpr bool std::ranges::enable_borrowed_range<zaluxhoni::view<T>> = true;
template <class T> inline constexpr bool std::ranges::enable_borrowed_range<zaluxhoni::const_array<T>> = true;
template <class T> inline constexpr bool std::ranges::enable_borrowed_range<zaluxhoni::array<T>> = true;
template <class T> inline constexpr bool std::ranges::enable_borrowed_range<zaluxhoni::const_vector<T>> = true;
template <class T> inline constexpr bool std::ranges::enable_borrowed_range<zaluxhoni::vector<T>> = true;
#endif

#endif
