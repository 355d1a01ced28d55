// Motorola's queued serial module (QSM) as a value of C++: Module, over the calls of qsm.h. Header only, for C++11 and later on x86-64; link the archive
// that qsm.h names.
//
//     using namespace aurenjassa;
//     Module card;
//     card.write(Width::word, QSM_SCCR1, QSM_TE | QSM_RE);
//     Answer a = card.hold(Pins::all(), Level::one, 1000);
//     if (a.driven.has(Pin::txd)) ...
//
// A module is a value: a copy is a saved state, and goes its own way. Every call is answered, whatever is in it; what is refused is told in the answer,
// and nothing throws. Different modules may be used by different threads at once, one module by one thread at a time.
#ifndef QSM_HPP
#define QSM_HPP

#include "qsm.h"

#include <cstddef>
#include <cstdint>

namespace aurenjassa {

// Bytes of a bus access. Another width, as a bus may bring it, is refused by the module: `width_of`.
enum class Width : std::uint8_t { byte = 1, word = 2, long_word = 4 };

// The width of so many bytes, any number of them.
constexpr Width width_of(std::uint8_t bytes) noexcept
{
    return static_cast<Width>(bytes);
}

enum class Privilege : std::uint8_t { user, supervisor };

enum class Level : std::uint8_t { zero, one };

constexpr Level level_of(bool one) noexcept
{
    return one ? Level::one : Level::zero;
}

// The number of a refusal is that of qsm.h.
enum class Refusal : std::uint8_t {
    answered = QSM_ANSWERED,
    misshapen = QSM_MISSHAPEN,
    unmapped = QSM_UNMAPPED,
    unmodelled = QSM_UNMODELLED,
    guarded = QSM_GUARDED,
    unknown_kind = QSM_UNKNOWN_KIND,
    cut_record = QSM_CUT_RECORD,
    no_room = QSM_NO_ROOM,
    clock_limit = QSM_CLOCK_LIMIT
};

enum class Pin : std::uint8_t {
    miso = QSM_MISO,
    mosi = QSM_MOSI,
    sck = QSM_SCK,
    pcs0 = QSM_PCS0,
    pcs1 = QSM_PCS1,
    pcs2 = QSM_PCS2,
    pcs3 = QSM_PCS3,
    txd = QSM_TXD
};

// A set of pins: those that are at one, or those that are driven.
class Pins {
public:
    constexpr Pins() noexcept : bits_(0) {}
    constexpr Pins(Pin pin) noexcept : bits_(static_cast<std::uint8_t>(pin)) {}

    // As in the bytes of PORTQS, of a record and of an answer.
    static constexpr Pins of_bits(std::uint8_t bits) noexcept { return Pins(bits); }
    static constexpr Pins none() noexcept { return Pins(); }
    static constexpr Pins all() noexcept { return Pins(std::uint8_t{0xFF}); }

    constexpr std::uint8_t bits() const noexcept { return bits_; }
    constexpr bool has(Pin pin) const noexcept { return (bits_ & static_cast<std::uint8_t>(pin)) != 0; }

    constexpr Pins with(Pins more) const noexcept { return Pins(static_cast<std::uint8_t>(bits_ | more.bits_)); }
    constexpr Pins without(Pins less) const noexcept { return Pins(static_cast<std::uint8_t>(bits_ & ~less.bits_)); }
    // Those of one set that another has too.
    constexpr Pins within(Pins other) const noexcept { return Pins(static_cast<std::uint8_t>(bits_ & other.bits_)); }

    friend constexpr bool operator==(Pins a, Pins b) noexcept { return a.bits_ == b.bits_; }
    friend constexpr bool operator!=(Pins a, Pins b) noexcept { return a.bits_ != b.bits_; }

private:
    constexpr explicit Pins(std::uint8_t bits) noexcept : bits_(bits) {}

    std::uint8_t bits_;
};

constexpr Pins operator|(Pins a, Pins b) noexcept
{
    return a.with(b);
}

constexpr Pins operator|(Pin a, Pin b) noexcept
{
    return Pins(a).with(b);
}

// What a call gives, and the module's pins and request after it.
struct Answer {
    Refusal refusal;     // the module is as before unless it is `answered`
    std::uint32_t value; // what a read gives; else 0
    Pins levels;         // driven pins that are at one
    Pins driven;
    std::uint8_t level;  // of the interrupt request, 1 to 7; 0 where there is none
    std::uint8_t vector; // odd for the queue half, even for the serial half; 0 where there is none
    std::uint64_t clock; // clocks since reset

    bool answered() const noexcept { return refusal == Refusal::answered; }
    bool requested() const noexcept { return level != 0; }

    static Answer of(const struct qsm_answer &a) noexcept
    {
        return Answer{static_cast<Refusal>(a.refusal), a.value, Pins::of_bits(a.levels), Pins::of_bits(a.mask), a.level, a.vector, a.clock};
    }
};

// How far a trace was played: bytes of the records answered and of their answers, and why it stopped.
struct Played {
    std::size_t read;
    std::size_t written;
    Refusal stop; // `answered` at the end of the trace

    bool ended() const noexcept { return stop == Refusal::answered; }
};

class Module {
public:
    // Fresh from reset.
    Module() noexcept : state_(qsm_new()) {}

    Answer reset() noexcept { return Answer::of(qsm_reset(&state_)); }

    // Time passes at these levels. A pin that the module drives has no input.
    Answer hold(Pins pins, Level rxd, std::uint32_t clocks) noexcept
    {
        return Answer::of(qsm_hold(&state_, pins.bits(), rxd == Level::one, clocks));
    }

    Answer read(Width width, std::uint16_t offset, Privilege privilege = Privilege::supervisor) noexcept
    {
        return Answer::of(qsm_read(&state_, privilege == Privilege::supervisor, static_cast<std::uint8_t>(width), offset));
    }

    Answer write(Width width, std::uint16_t offset, std::uint32_t value, Privilege privilege = Privilege::supervisor) noexcept
    {
        return Answer::of(qsm_write(&state_, privilege == Privilege::supervisor, static_cast<std::uint8_t>(width), offset, value));
    }

    // What a read would give, with none of its effects.
    Answer peek(Width width, std::uint16_t offset, Privilege privilege = Privilege::supervisor) const noexcept
    {
        Module copy(*this);
        return copy.read(width, offset, privilege);
    }

    // Pins and request as they are.
    Answer now() const noexcept
    {
        Module copy(*this);
        return copy.hold(Pins::of_bits(state_.inputs), Level::one, 0);
    }

    // The least number of clocks at these levels after which pins or request show something else; 0 if they never do.
    std::uint64_t until_change(Pins pins, Level rxd) const noexcept { return qsm_until_change(state_, pins.bits(), rxd == Level::one); }

    // The noise figure of the word in SCDR; frames taken since the last reset, and those of them that were lost.
    std::uint8_t noise() const noexcept { return qsm_noise(&state_); }
    std::uint32_t taken() const noexcept { return qsm_taken(&state_); }
    std::uint32_t lost() const noexcept { return qsm_lost(&state_); }

    // Plays the records of a trace, and writes their answers, 18 bytes each, to the front of the log.
    Played play(const std::uint8_t *trace, std::size_t length, std::uint8_t *log, std::size_t room) noexcept
    {
        const struct qsm_played played = qsm_play(state_, trace, length, log, room);
        state_ = played.state;
        return Played{played.read, played.written, static_cast<Refusal>(played.stop)};
    }

    // For calls of qsm.h that have no form here.
    const struct qsm &state() const noexcept { return state_; }

private:
    struct qsm state_;
};

} // namespace aurenjassa

#endif
