// The header for C++17: handles that close themselves and move, answers, exceptions, views, snapshots and batches. Its argument is the
// folder that it works in.
#include "cindrolf_store.hpp"
#include "cindrolf_store.hpp"

#include <array>
#include <cstdio>
#include <functional>
#include <unistd.h>

using cindrolf::status;
using cindrolf::step;

static int wrong = 0;

static void expect(const char *what, bool holds) {
    if (!holds) {
        std::fprintf(stderr, "store.cpp: %s does not hold\n", what);
        wrong = 1;
    }
}

static void throws(const char *what, status expected, const std::function<void()> &call) {
    try {
        call();
        expect(what, false);
    } catch (const cindrolf::error &error) {
        if (error.code() != expected) {
            std::fprintf(stderr, "store.cpp: %s: status %d (%s)\n", what, static_cast<int>(error.code()), error.what());
            wrong = 1;
        }
    }
}

static void lead(cindrolf::store &log, std::uint64_t client) {
    cindrolf::snapshot now;
    for (log.look(now); now.advise(client) != step::write; log.look(now))
        if (log.take(*now.advise(client), client).behind())
            expect("nobody else leads", false);
}

static void opening() {
    throws("nothing there", status::missing, [] { cindrolf::store("nothing.db"); });
    auto log = cindrolf::store::create("run.db", 2);
    throws("twice", status::exists, [] { cindrolf::store::create("run.db", 2); });
    throws("17 clients", status::refused, [] { cindrolf::store::create("other.db", 17); });
    cindrolf::store other = std::move(log);
    throws("a store that was moved", status::bad_handle, [&] { log.look(); });
    log = std::move(other);
    expect("the clients", log.look().clients() == 2);
    other = cindrolf::store::read_only("run.db");
    throws("read only", status::read_only, [&] { (void)other.take(step::become, 0); });
    other.close();
    throws("a store that was closed", status::bad_handle, [&] { other.close(); });
}

static void handover() {
    cindrolf::store host("run.db"), guest("run.db");
    lead(host, 0);
    const auto stored = host.take(step::write, 0, 201);
    expect("stored", stored.what() == cindrolf::answer::kind::stored && stored.entry() == 0 && stored.place() == 0);
    expect("no step", !guest.look().advise(1));
    expect("named", guest.take(step::name, 1).what() == cindrolf::answer::kind::done);
    lead(guest, 1);
    try {
        (void)host.take(step::write, 0, 202);
        expect("the fence", false);
    } catch (const cindrolf::refused &refused) {
        expect("the refusal", refused.number() == CINDROLF_REFUSAL_LEDGER_FENCED && !refused.may_be_stored());
        expect("its sentence", std::string(refused.what()) == "write of client 0: another leader has fenced the ledger");
    }
    const std::array<std::uint16_t, 2> scores{40, 372};
    expect("scores", guest.write_scores(1, scores).entry() == 1);
    const auto chain = host.look().chain();
    expect("the chain", chain.size() == 2 && cindrolf_word_client(chain[1]) == 1 && cindrolf_word_value(chain[0]) == 201);
    expect("the total", host.look().read(cindrolf_run_total).parts == 201 + cindrolf_word_value(chain[1]));
    throws("no client", status::refused, [&] { host.look().advise(2); });
}

static void batches() {
    cindrolf::store log("run.db");
    const std::vector<cindrolf::asked> steps{{CINDROLF_STEP_WRITE, 1, 203, nullptr, 0, "read 7"}, {CINDROLF_STEP_WRITE, 2, 204, nullptr, 0, nullptr}};
    const auto answers = log.take_all(steps);
    expect("a batch", answers[0] == CINDROLF_ENTRY + 2 * 65536 + 1 && answers[1] == CINDROLF_REFUSED + 3);
    const std::uint64_t plan[] = {cindrolf_step_word(CINDROLF_STEP_WRITE, 1, 5), cindrolf_step_word(CINDROLF_STEP_WRITE, 1, 6)};
    expect("a plan", log.run_plan(plan, 1) == 1 && log.run_plan({}) == 0);
    const auto name = cindrolf_mark_name("pre-wash");
    log.set_mark(name);
    throws("a mark twice", status::refused, [&] { log.set_mark(name); });
    log.drop_mark(name);
    log.revoke(1, step::write);
    throws("no right", status::refused, [&] { (void)log.take(step::write, 1, 7); });
    expect("rights", log.look().rights()[1] == (CINDROLF_ALL_RIGHTS & ~CINDROLF_RIGHT_WRITE));
    log.grant(1, step::write);
    const auto rights = log.look();
    log.set_rights(rights.rights());
    log.set_patience(std::chrono::seconds(1));
    throws("a negative time", status::bad_argument, [&] { log.set_patience(std::chrono::seconds(-1)); });
    log.set_process_name("lane 2");
}

static void rows() {
    cindrolf::store log("run.db"), other("run.db");
    expect("no change", !other.changed(std::chrono::milliseconds(0)));
    (void)log.take(step::name, 0);
    expect("a change", other.changed(std::chrono::seconds(5)));
    const auto row = log.last_row();
    log.has_row(row);
    throws("no row", status::bad_argument, [&] { log.has_row("7"); });
    throws("a zero in a text", status::bad_argument, [&] { log.has_row(row + '\0'); });
    log.keep_witness("witness");
    log.copy("copy.db");
    (void)log.take(step::name, 1);
    throws("a copy that lacks a row", status::damaged, [] { cindrolf::store("copy.db").keep_witness("witness"); });
    const auto [count, answers] = log.check_all();
    expect("the check", count == log.look().rows() && answers == 0);
    expect("settled", !log.settle(7));
    expect("checkpoint", log.checkpoint());
    std::size_t entries = 0;
    const auto now = log.look();
    for (const auto word : now.entries())
        entries += word != 0;
    expect("entries", entries == 4);
}

int main(int count, char **words) {
    if (count != 2 || chdir(words[1]) != 0) {
        std::fprintf(stderr, "usage: store FOLDER\n");
        return 2;
    }
    opening();
    handover();
    batches();
    rows();
    cindrolf::end_waiting();
    return wrong;
}
