// A controller that shares a log with others. It reads one value a line and writes it with the steps that the adviser names; hands over to
// the next client after 16 of them; and on SIGINT or SIGTERM hands over, closes the log and ends.
#include <cindrolf_store.hpp>

#include <csignal>
#include <fcntl.h>
#include <iostream>
#include <set>
#include <unistd.h>

using cindrolf::step;

static volatile std::sig_atomic_t ending = 0;
static const int nothing = open("/dev/null", O_RDONLY);

struct controller {
    cindrolf::store log;
    std::uint64_t client;
    cindrolf::snapshot now;

    std::optional<step> advised() {
        log.look(now);
        return now.advise(client);
    }

    // Takes a step. If another client was faster it is refused, and the adviser knows what to do next; these four refusals are final.
    std::optional<cindrolf::answer> take(step taken, std::uint64_t who, std::uint64_t value = 0) {
        static const std::set<std::uint64_t> stay{CINDROLF_REFUSAL_NO_LEDGER_NUMBER, CINDROLF_REFUSAL_LOG_FULL, CINDROLF_REFUSAL_VALUE_TOO_WIDE,
                                                  CINDROLF_REFUSAL_MISSING_RIGHT};
        try {
            return log.take(taken, who, value);
        } catch (const cindrolf::refused &refused) {
            std::cout << "refused " << value << " at row " << std::stoull(log.last_row()) << ": " << refused.what() << std::endl;
            if (stay.count(refused.number()))
                throw;
            return std::nullopt;
        }
    }

    // Takes steps until the read is stored. While another client is named, it waits for a change.
    void write(std::uint64_t value) {
        while (!ending) {
            const auto next = advised();
            if (!next) {
                log.changed(std::chrono::seconds(1));
                continue;
            }
            const auto answer = take(*next, client, value);
            if (answer && answer->stored()) {
                std::cout << "stored " << value << " as entry " << answer->entry() << " place " << answer->place() << std::endl;
                return;
            }
        }
    }

    // The named client names the next one. A client that leads and is not named abdicates.
    void hand_over() {
        const auto next = advised();
        if (next && next != step::abdicate && now.clients() > 1)
            take(step::name, (client + 1) % now.clients());
        if (advised() == step::abdicate)
            take(step::abdicate, client);
    }
};

int main(int count, char **words) {
    if (count != 3) {
        std::cerr << "usage: shared ADDRESS CLIENT\n";
        return 2;
    }
    struct sigaction action = {};
    // From then on there are no more reads, and no call waits for long.
    action.sa_handler = [](int) {
        ending = 1;
        cindrolf::end_waiting();
        dup2(nothing, STDIN_FILENO);
    };
    sigaction(SIGINT, &action, nullptr);
    sigaction(SIGTERM, &action, nullptr);
    try {
        controller here{cindrolf::store(words[1]), std::stoull(words[2]), {}};
        std::uint64_t value;
        for (int written = 1; !ending && std::cin >> value; written++) {
            here.write(value);
            if (written % 16 == 0)
                here.hand_over();
        }
        here.hand_over();
        here.log.close();
    } catch (const std::exception &error) {
        // After cindrolf::unknown, read the log before you send the same read again.
        std::cerr << "controller: " << error.what() << '\n';
        return 1;
    }
}
