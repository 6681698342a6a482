// A log that controllers share, in a file or on a server, for C++17: cindrolf_store.h with handles that close themselves, enums, views and
// exceptions. Link as for cindrolf_store.h (pkg-config cindrolf-store); there is only this header.
//
// A call that fails throws cindrolf::error, or an error derived from it: cindrolf::refused if the log refused, and cindrolf::unknown if it
// is not known whether the step is stored. One call at a time may use a store, so open the log once for each thread.
#ifndef CINDROLF_STORE_HPP
#define CINDROLF_STORE_HPP

#include "cindrolf_store.h"

#include <chrono>
#include <cstddef>
#include <cstdint>
#include <optional>
#include <stdexcept>
#include <string>
#include <type_traits>
#include <utility>
#include <vector>

namespace cindrolf {

// The steps by which a client changes a log.
enum class step : std::uint64_t {
    name = CINDROLF_STEP_NAME,
    become = CINDROLF_STEP_BECOME,
    abdicate = CINDROLF_STEP_ABDICATE,
    fetch = CINDROLF_STEP_FETCH,
    close_last = CINDROLF_STEP_CLOSE_LAST,
    finish = CINDROLF_STEP_FINISH,
    create = CINDROLF_STEP_CREATE,
    append = CINDROLF_STEP_APPEND,
    write = CINDROLF_STEP_WRITE,
    close_own = CINDROLF_STEP_CLOSE_OWN,
};

// How a call ended.
enum class status : int {
    ok = CINDROLF_STORE_OK,
    refused = CINDROLF_STORE_REFUSED,
    not_stored = CINDROLF_STORE_NOT_STORED,
    unknown = CINDROLF_STORE_UNKNOWN,
    unwitnessed = CINDROLF_STORE_UNWITNESSED,
    damaged = CINDROLF_STORE_DAMAGED,
    unreachable = CINDROLF_STORE_UNREACHABLE,
    busy = CINDROLF_STORE_BUSY,
    full = CINDROLF_STORE_FULL,
    forbidden = CINDROLF_STORE_FORBIDDEN,
    read_only = CINDROLF_STORE_READ_ONLY,
    missing = CINDROLF_STORE_MISSING,
    exists = CINDROLF_STORE_EXISTS,
    no_log = CINDROLF_STORE_NO_LOG,
    open_again = CINDROLF_STORE_OPEN_AGAIN,
    bad_argument = CINDROLF_STORE_BAD_ARGUMENT,
    bad_handle = CINDROLF_STORE_BAD_HANDLE,
    in_use = CINDROLF_STORE_IN_USE,
    internal = CINDROLF_STORE_INTERNAL,
};

// A view of values in a row, like C++20's std::span: made from a vector, an array, or a pointer and a length.
template <class T> class view {
public:
    constexpr view() = default;
    constexpr view(T *data, std::size_t size) : data_(data), size_(size) {}
    template <class C, class = std::enable_if_t<std::is_convertible_v<decltype(std::declval<C &>().data()), T *>>>
    constexpr view(C &&values) : data_(values.data()), size_(values.size()) {}
    template <std::size_t N> constexpr view(T (&values)[N]) : data_(values), size_(N) {}
    constexpr T *data() const { return data_; }
    constexpr std::size_t size() const { return size_; }
    constexpr bool empty() const { return size_ == 0; }
    constexpr T *begin() const { return data_; }
    constexpr T *end() const { return data_ + size_; }
    constexpr T &operator[](std::size_t at) const { return data_[at]; }

private:
    T *data_ = nullptr;
    std::size_t size_ = 0;
};

using words = view<const std::uint64_t>;

// The answer of a step that was not refused.
class answer {
public:
    enum class kind { done, was_closed, behind, stored };
    constexpr explicit answer(std::uint64_t number) : number_(number) {}
    constexpr kind what() const {
        return stored() ? kind::stored : number_ == CINDROLF_WAS_CLOSED ? kind::was_closed : behind() ? kind::behind : kind::done;
    }
    // Another leader was faster: ask the adviser.
    constexpr bool behind() const { return number_ == CINDROLF_BEHIND; }
    // A read is stored, with this number in the log and at this place of its ledger.
    constexpr bool stored() const { return number_ >= CINDROLF_ENTRY; }
    constexpr std::uint64_t entry() const { return (number_ - CINDROLF_ENTRY) >> 16; }
    constexpr std::uint64_t place() const { return number_ & 65535; }
    // The answer as the library gives it.
    constexpr std::uint64_t number() const { return number_; }

private:
    std::uint64_t number_;
};

// A call that failed.
class error : public std::runtime_error {
public:
    error(cindrolf::status code, const std::string &why) : std::runtime_error(why), code_(code) {}
    cindrolf::status code() const noexcept { return code_; }
    // Whether the step may be stored all the same. If false, it is not stored, and never will be.
    bool may_be_stored() const noexcept {
        return code_ == status::unknown || code_ == status::unwitnessed || code_ == status::internal;
    }

private:
    cindrolf::status code_;
};

// The log refused, and nothing is stored.
class refused : public error {
public:
    refused(std::uint64_t number, const std::string &sentence) : error(status::refused, sentence), number_(number) {}
    // The number of the refusal, such as CINDROLF_REFUSAL_LEDGER_FENCED.
    std::uint64_t number() const noexcept { return number_; }

private:
    std::uint64_t number_;
};

// It is not known whether the step is stored: settle the request, or read the log if the request is 0, before you try again.
class unknown : public error {
public:
    unknown(std::uint64_t request, const std::string &why) : error(status::unknown, why), request_(request) {}
    std::uint64_t request() const noexcept { return request_; }

private:
    std::uint64_t request_;
};

// A refusal as a sentence of the proved library.
inline std::string sentence(step taken, std::uint64_t client, std::uint64_t refusal) {
    char text[CINDROLF_TEXT_BYTES];
    const auto said = cindrolf_sentence(static_cast<std::uint64_t>(taken), client, refusal, text, sizeof text);
    return said.answer == CINDROLF_DONE ? std::string(text, said.length) : "refusal " + std::to_string(refusal);
}

// A log as it was at one moment. You can pass its words to every reading function of cindrolf.h.
class snapshot {
public:
    words state() const { return state_; }
    words entries() const { return {entries_.data(), static_cast<std::size_t>(taken_.entry_words)}; }
    words marks() const { return marks_; }
    words rights() const { return rights_; }
    std::uint64_t rows() const { return taken_.rows; }
    std::uint64_t clients() const { return taken_.clients; }
    // Calls a reading function of cindrolf.h, with what it takes after the two buffers.
    template <class F, class... A> auto read(F function, A... arguments) const {
        return function(state_.data(), state_.size(), entries_.data(), entries().size(), arguments...);
    }
    // The step that a client should take next; none if another client is named and this one does not lead.
    std::optional<step> advise(std::uint64_t client) const {
        const auto advised = read(cindrolf_advise, client);
        if (advised == CINDROLF_NO_STEP)
            return std::nullopt;
        if (advised > CINDROLF_REFUSED)
            throw refused(advised - CINDROLF_REFUSED, "refusal " + std::to_string(advised - CINDROLF_REFUSED) + " of the adviser");
        return static_cast<step>(advised);
    }
    // The words of all entries in the order of the chain: cindrolf_word_client and cindrolf_word_value give their parts.
    std::vector<std::uint64_t> chain() const {
        std::vector<std::uint64_t> output(entries().size());
        output.resize(read(cindrolf_read_chain, output.data(), output.size()).count);
        return output;
    }

private:
    friend class store;
    std::vector<std::uint64_t> state_ = std::vector<std::uint64_t>(CINDROLF_STATE_WORDS);
    std::vector<std::uint64_t> entries_ = std::vector<std::uint64_t>(CINDROLF_ENTRY_WORDS);
    std::vector<std::uint64_t> marks_ = std::vector<std::uint64_t>(CINDROLF_MARK_WORDS);
    std::vector<std::uint64_t> rights_ = std::vector<std::uint64_t>(CINDROLF_RIGHTS_WORDS);
    cindrolf_store_taken taken_{};
};

// A text for C. A zero in it would be its end.
inline const char *text(const std::string &given) {
    if (given.find('\0') != std::string::npos)
        throw error(status::bad_argument, "a text has a zero byte");
    return given.c_str();
}

// A step of a batch, as in struct cindrolf_store_asked.
using asked = cindrolf_store_asked;

// An open log. The destructor closes it.
class store {
public:
    // Opens a log: a file, or postgresql://HOST/DATABASE/LOG on a server.
    explicit store(const std::string &address) : store(cindrolf_store_open, address) {}
    static store read_only(const std::string &address) { return store(cindrolf_store_open_read_only, address); }
    // Makes a fresh log for 1 to 16 clients, of which client 0 is the named leader.
    static store create(const std::string &address, std::uint64_t clients, std::size_t entry_words = CINDROLF_ENTRY_WORDS) {
        const auto creates = [=](const char *at, cindrolf_store **handle, char *why, std::size_t size) {
            return cindrolf_store_create(at, clients, entry_words, handle, why, size);
        };
        return store(creates, address);
    }
    store(store &&other) noexcept : handle_(std::exchange(other.handle_, nullptr)) {}
    store &operator=(store &&other) noexcept {
        std::swap(handle_, other.handle_);
        return *this;
    }
    store(const store &) = delete;
    store &operator=(const store &) = delete;
    // No step depends on closing: what was answered is stored.
    ~store() { cindrolf_store_close(handle_, nullptr, 0); }
    // Closes the log, and throws if that failed.
    void close() {
        char why[CINDROLF_STORE_MESSAGE_BYTES];
        const int code = cindrolf_store_close(handle_, why, sizeof why);
        if (code != CINDROLF_STORE_IN_USE)
            handle_ = nullptr;
        if (code != CINDROLF_STORE_OK)
            throw error(static_cast<status>(code), why);
    }

    [[nodiscard]] answer take(step taken, std::uint64_t client, std::uint64_t value = 0) {
        std::uint64_t number = 0;
        const int code = cindrolf_store_take(handle_, static_cast<std::uint64_t>(taken), client, value, &number);
        return answered(code, number, taken, client);
    }
    [[nodiscard]] answer write_scores(std::uint64_t client, view<const std::uint16_t> scores) {
        std::uint64_t number = 0;
        const int code = cindrolf_store_write_scores(handle_, client, scores.data(), scores.size(), &number);
        return answered(code, number, step::write, client);
    }
    // Takes steps as one request, and returns the number of each answer: CINDROLF_REFUSED + n for refusal n, which is not thrown.
    [[nodiscard]] std::vector<std::uint64_t> take_all(view<const asked> steps) {
        std::vector<std::uint64_t> answers(steps.size());
        const int code = cindrolf_store_take_all(handle_, steps.data(), steps.size(), answers.data(), answers.size());
        if (code != CINDROLF_STORE_REFUSED)
            check(code);
        return answers;
    }
    // Takes the steps of a plan up to the budget as one request, and returns how many it took.
    std::uint64_t run_plan(words plan, std::uint64_t budget = UINT64_MAX) {
        std::uint64_t taken = 0;
        check(cindrolf_store_run_plan(handle_, plan.data(), plan.size(), budget, &taken));
        return taken;
    }
    void set_mark(std::uint64_t name) { done([&](std::uint64_t *number) { return cindrolf_store_set_mark(handle_, name, number); }); }
    void drop_mark(std::uint64_t name) { done([&](std::uint64_t *number) { return cindrolf_store_drop_mark(handle_, name, number); }); }
    void grant(std::uint64_t client, step right) {
        done([&](std::uint64_t *number) { return cindrolf_store_grant(handle_, client, static_cast<std::uint64_t>(right), number); });
    }
    void revoke(std::uint64_t client, step right) {
        done([&](std::uint64_t *number) { return cindrolf_store_revoke(handle_, client, static_cast<std::uint64_t>(right), number); });
    }
    void set_rights(words rights) {
        done([&](std::uint64_t *number) { return cindrolf_store_set_rights(handle_, rights.data(), rights.size(), number); });
    }

    // The log as it is now.
    snapshot look() {
        snapshot now;
        look(now);
        return now;
    }
    // The same in a snapshot that was used before, without new memory.
    void look(snapshot &now) {
        check(cindrolf_store_snapshot(handle_, now.state_.data(), now.state_.size(), now.entries_.data(), now.entries_.size(), now.marks_.data(),
                                      now.marks_.size(), now.rights_.data(), now.rights_.size(), &now.taken_));
    }
    // Waits until the log has rows that this store has neither read nor stored, and says whether it has.
    bool changed(std::chrono::milliseconds timeout) {
        std::uint64_t changed = 0;
        check(cindrolf_store_changed(handle_, static_cast<std::uint64_t>(timeout.count()), &changed));
        return changed != 0;
    }
    // What became of the request of `unknown`: how many rows come before its own, if it is stored.
    std::optional<std::uint64_t> settle(std::uint64_t request) {
        std::uint64_t found = 0, rows = 0;
        check(cindrolf_store_settle(handle_, request, &found, &rows));
        return found ? std::optional(rows) : std::nullopt;
    }
    // The last row that this store has read or stored, as N:CHAIN.
    std::string last_row() {
        char row[CINDROLF_STORE_ROW_BYTES];
        check(cindrolf_store_last_row(handle_, row, sizeof row));
        return row;
    }
    void has_row(const std::string &row) { check(cindrolf_store_has_row(handle_, text(row))); }
    // Checks the whole log; returns how many rows it has, and how many have a wrong stored answer.
    std::pair<std::uint64_t, std::uint64_t> check_all() {
        std::pair<std::uint64_t, std::uint64_t> counted{};
        check(cindrolf_store_check(handle_, &counted.first, &counted.second));
        return counted;
    }
    bool checkpoint() {
        std::uint64_t whole = 0;
        check(cindrolf_store_checkpoint(handle_, &whole));
        return whole != 0;
    }
    void copy(const std::string &address) { check(cindrolf_store_copy(handle_, text(address))); }
    void set_patience(std::chrono::milliseconds patience) {
        check(cindrolf_store_set_patience(handle_, static_cast<std::uint64_t>(patience.count())));
    }
    void set_process_name(const std::string &name) { check(cindrolf_store_set_process_name(handle_, text(name))); }
    void keep_witness(const std::string &file) { check(cindrolf_store_keep_witness(handle_, text(file))); }
    // The handle, for the functions of cindrolf_store.h.
    cindrolf_store *handle() const { return handle_; }

private:
    template <class F> store(F opens, const std::string &address) {
        char why[CINDROLF_STORE_MESSAGE_BYTES];
        const int code = opens(text(address), &handle_, why, sizeof why);
        if (code != CINDROLF_STORE_OK)
            throw error(static_cast<status>(code), why);
    }
    std::string message() const {
        char why[CINDROLF_STORE_MESSAGE_BYTES];
        cindrolf_store_message(handle_, why, sizeof why);
        return why;
    }
    void check(int code) const {
        if (code == CINDROLF_STORE_OK)
            return;
        const std::string why = message();
        if (code != CINDROLF_STORE_UNKNOWN)
            throw error(static_cast<status>(code), why);
        std::uint64_t request = 0;
        cindrolf_store_unknown_request(handle_, &request);
        throw unknown(request, why);
    }
    answer answered(int code, std::uint64_t number, step taken, std::uint64_t client) const {
        if (code == CINDROLF_STORE_REFUSED)
            throw refused(number - CINDROLF_REFUSED, sentence(taken, client, number - CINDROLF_REFUSED));
        check(code);
        return answer(number);
    }
    template <class F> void done(F call) const {
        std::uint64_t number = 0;
        const int code = call(&number);
        if (code == CINDROLF_STORE_REFUSED)
            throw refused(number - CINDROLF_REFUSED, message());
        check(code);
    }
    cindrolf_store *handle_ = nullptr;
};

// From now on no call of this process waits longer than a second: use it before the process ends. A signal handler may call it.
inline void end_waiting() { cindrolf_store_end_waiting(); }

} // namespace cindrolf

#endif
