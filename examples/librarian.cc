/*
 * A librarian sends sounds, one after the other, to an instrument, over a line that loses, repeats and delays frames.
 * The classes Librarian and Instrument do what a C++ program has to do around the link's calls: copy them.
 * Exit status 0 only if three sounds arrived, the same byte for byte, and all else ended as it should.
 */
#include <algorithm>
#include <array>
#include <cstddef>
#include <cstdint>
#include <cstdio>
#include <functional>
#include <optional>
#include <random>
#include <stdexcept>
#include <string>
#include <utility>
#include <vector>

#include "semivrakh.h"
#include "semivrakh_words.h"

using Bytes = std::vector<std::uint8_t>;

static std::string in_words(std::uint8_t no)
{
    return "refused " + std::to_string(no) + ": " + semivrakh_words(no) + "; " + semivrakh_advice(no);
}

/* For calls that are refused only if the program is wrong. */
static void must_be_ok(const char *call, std::uint8_t no)
{
    if (no != SEMIVRAKH_OK) throw std::logic_error(std::string(call) + ": " + in_words(no));
}

/* A frame that comes late, twice or out of turn may be refused with one of these. Nothing has changed then, and nothing
 * need be done: what was lost is sent again. With the last of them the instrument refuses a librarian that was set back
 * to an old record: it gets no answer and gives up, and whoever reads the message pairs both ends anew. */
static bool is_ignored(const char *end, std::uint8_t no)
{
    const bool ignored = no == SEMIVRAKH_NO_TRANSFER || no == SEMIVRAKH_NOT_A_FRAME || no == SEMIVRAKH_OTHER_SESSION ||
                         no == SEMIVRAKH_IMPOSSIBLE || no == SEMIVRAKH_OTHER_LENGTH;
    if (ignored) std::printf("  the %s ignores a frame, refused %d: %s\n", end, no, semivrakh_words(no));
    return ignored;
}

/* A pair has a name of its own: two ends made afresh under an old name would use their keystream again. */
struct Pair {
    std::array<std::uint8_t, SEMIVRAKH_KEY_BYTES> key;
    std::array<std::uint8_t, SEMIVRAKH_PAIR_BYTES> name;
};

class Librarian {
public:
    using Record = std::array<std::uint8_t, SEMIVRAKH_SENDER_BYTES>;
    using Status = std::array<std::size_t, SEMIVRAKH_SENDER_NUMBERS>;
    using Save = std::function<void(const Record &)>;

    Librarian(const Pair &pair, Save save) : save_(std::move(save))
    {
        must_be_ok("making the librarian", semivrakh_sender_make(record_.data(), record_.size(), pair.key.data(),
                                                                 pair.key.size(), pair.name.data(), pair.name.size()));
    }

    /* Look at the answer: a refused beginning leaves the record as it was, and after a done transfer it says done. */
    [[nodiscard]] std::uint8_t begin(Bytes sound)
    {
        const auto no = semivrakh_sender_begin(record_.data(), record_.size(), sound.data(), sound.size());
        if (no != SEMIVRAKH_OK) return no;
        sound_ = std::move(sound); /* it is lent again to each sending */
        save_(record_);            /* before anything is sent: a session that was used must never be begun again */
        return SEMIVRAKH_OK;
    }

    Bytes frame() const
    {
        Bytes frame(SEMIVRAKH_FRAME_MOST);
        std::size_t length = 0;
        must_be_ok("sending", semivrakh_sender_send(record_.data(), record_.size(), sound_.data(), sound_.size(),
                                                    frame.data(), frame.size(), &length));
        frame.resize(length);
        return frame;
    }

    /* Answers if there was news. */
    bool hear(const Bytes &answer)
    {
        const auto before = record_;
        const auto no = semivrakh_sender_hear(record_.data(), record_.size(), answer.data(), answer.size());
        if (!is_ignored("librarian", no)) must_be_ok("hearing an answer", no);
        return record_ != before;
    }

    static Status status_of(const Record &record)
    {
        Status status{};
        must_be_ok("asking the librarian",
                   semivrakh_sender_status(record.data(), record.size(), status.data(), status.size()));
        return status;
    }
    bool is_in(std::size_t phase) const { return status_of(record_)[SEMIVRAKH_SENDER_PHASE] == phase; }
    bool is_sending() const { return is_in(SEMIVRAKH_OPENING) || is_in(SEMIVRAKH_SENDING); }

private:
    Record record_{};
    Bytes sound_;
    Save save_;
};

class Instrument {
public:
    explicit Instrument(const Pair &pair)
    {
        must_be_ok("making the instrument",
                   semivrakh_receiver_make(record_.data(), record_.size(), pair.key.data(), pair.key.size(),
                                           pair.name.data(), pair.name.size()));
    }

    /* The answer; none to a frame that is ignored. */
    std::optional<Bytes> hear(const Bytes &frame)
    {
        Bytes answer(SEMIVRAKH_ANSWER_MOST);
        std::size_t length = 0;
        const auto no = semivrakh_receiver_hear(record_.data(), record_.size(), frame.data(), frame.size(),
                                                room_.data(), room_.size(), answer.data(), answer.size(), &length);
        if (is_ignored("instrument", no)) return std::nullopt;
        must_be_ok("hearing a frame", no);
        keep_if_whole();
        answer.resize(length);
        return answer;
    }

    std::vector<Bytes> sounds; /* all that arrived, in turn */

private:
    /* The room holds a sound only once the status says that it is whole, and only until the next transfer's blocks
     * come. So it is copied at once, before the answer goes out that lets the librarian go on. */
    void keep_if_whole()
    {
        std::array<std::size_t, SEMIVRAKH_RECEIVER_NUMBERS> status{};
        must_be_ok("asking the instrument",
                   semivrakh_receiver_status(record_.data(), record_.size(), status.data(), status.size()));
        const auto session = status[SEMIVRAKH_RECEIVER_SESSION];
        if (status[SEMIVRAKH_RECEIVER_WHOLE] == 0 || session == kept_session_) return;
        sounds.emplace_back(room_.data(), room_.data() + status[SEMIVRAKH_RECEIVER_LENGTH]);
        kept_session_ = session;
    }

    std::array<std::uint8_t, SEMIVRAKH_RECEIVER_BYTES> record_{};
    Bytes room_ = Bytes(SEMIVRAKH_SOUND_MOST); /* the same in every call, and nobody else writes to it */
    std::size_t kept_session_ = 0;
};

/* One direction of the line. */
class Line {
public:
    Line(unsigned seed, unsigned loss) : random_(seed), loss_(loss) {}

    void put(const Bytes &frame)
    {
        const unsigned copies = below(100) < loss_ ? 0 : below(10) == 0 ? 2 : 1;
        frames_.insert(frames_.end(), copies, frame);
    }

    /* A tick passes. Any one of the frames on the way comes out, or none. */
    std::optional<Bytes> tick()
    {
        if (frames_.empty() || below(2) == 0) return std::nullopt;
        const auto place = frames_.begin() + below(frames_.size());
        const Bytes frame = *place;
        frames_.erase(place);
        return frame;
    }

private:
    unsigned below(std::size_t limit) { return static_cast<unsigned>(random_() % limit); }

    std::mt19937 random_;
    unsigned loss_; /* of a hundred frames */
    std::vector<Bytes> frames_;
};

/* Sends a sound. Answers in words what was in the way; nothing if the very same sound arrived. */
static std::string transfer(const Bytes &sound, Librarian &librarian, Line &there, Instrument &instrument, Line &back)
{
    constexpr unsigned patience = 6, give_up = 1000; /* ticks without news until it is sent again, and until the end */
    if (const auto no = librarian.begin(sound); no != SEMIVRAKH_OK) return in_words(no);
    for (unsigned quiet = 0; librarian.is_sending();) {
        if (quiet == give_up) return "given up after " + std::to_string(quiet) + " ticks without news";
        if (quiet % patience == 0) there.put(librarian.frame());
        if (const auto frame = there.tick())
            if (const auto answer = instrument.hear(*frame)) back.put(*answer);
        const auto answer = back.tick();
        quiet = answer && librarian.hear(*answer) ? 0 : quiet + 1;
    }
    if (!librarian.is_in(SEMIVRAKH_DONE)) return "the instrument has no room for it";
    if (instrument.sounds.empty() || instrument.sounds.back() != sound) return "ANOTHER SOUND ARRIVED";
    return "";
}

/* Another for each length, so that nothing of one sound can pass for another's. */
static Bytes noise(unsigned length)
{
    Bytes sound(length);
    std::generate(sound.begin(), sound.end(), std::mt19937(length));
    return sound;
}

int main()
try {
    if (semivrakh_version() != SEMIVRAKH_VERSION) throw std::logic_error("library and header are of two versions");
    const Pair pair{{'d', 'e', 'm', 'o', ' ', 'k', 'e', 'y', ' ', '0'}, {'d', 'e', 's', 'k', '-', '3'}};
    Librarian::Record drawer{}; /* a file, in earnest: what is still there after the power failed */
    Librarian librarian(pair, [&drawer](const Librarian::Record &record) { drawer = record; });
    Instrument instrument(pair);
    Line there(18, 15), broken(1, 100), back(3, 15);
    const auto arrives = [&](const Bytes &sound, Line &way) {
        const auto trouble = transfer(sound, librarian, way, instrument, back);
        std::printf("%zu bytes: %s\n", sound.size(), trouble.empty() ? "done, and the same arrived" : trouble.c_str());
        return trouble.empty();
    };

    const auto part = noise(1000); /* no whole number of blocks */
    const bool good = arrives({}, there) && !arrives(part, broken) && arrives(part, there) &&
                      arrives(noise(SEMIVRAKH_SOUND_MOST), there) && !arrives(noise(SEMIVRAKH_SOUND_MOST + 1), there);
    std::printf("%zu sounds arrived; the record in the drawer is of session %zu\n", instrument.sounds.size(),
                Librarian::status_of(drawer)[SEMIVRAKH_SENDER_SESSION]);
    return good && instrument.sounds.size() == 3 ? 0 : 1;
} catch (const std::exception &fault) {
    std::fprintf(stderr, "%s\n", fault.what());
    return 1;
}
