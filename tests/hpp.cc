// A host in C++ over qsm.hpp: each call once or more, and its answer looked at.
#include "qsm.hpp"

#include <cstdio>
#include <cstring>
#include <type_traits>

using aurenjassa::Level;
using aurenjassa::Module;
using aurenjassa::Pin;
using aurenjassa::Pins;
using aurenjassa::Privilege;
using aurenjassa::Refusal;
using aurenjassa::Width;

static int failed = 0;

static void expect(bool test, const char *what)
{
    if (!test) {
        std::printf("not so: %s\n", what);
        failed = 1;
    }
}

// Nothing is taken for a width, a pin or a level by chance.
static_assert(!std::is_convertible<int, Width>::value && !std::is_convertible<int, Pins>::value && !std::is_convertible<bool, Level>::value, "strong");
static_assert(std::is_trivially_copyable<Module>::value, "a copy is a saved state");
static_assert((Pin::miso | Pin::txd).bits() == 0x81 && Pins::all().without(Pin::txd).bits() == 0x7F, "pins");
static_assert(Pins::all().within(Pin::sck | Pin::mosi) == (Pin::sck | Pin::mosi) && Pins::none() != Pins(Pin::sck), "pins");
static_assert(aurenjassa::level_of(true) == Level::one && aurenjassa::level_of(false) == Level::zero, "levels");

static void accesses()
{
    Module card;
    expect(card.read(Width::word, QSM_SCSR).value == (QSM_TDRE | QSM_TC), "after a reset TDRE and TC are set");
    expect(card.read(Width::word, QSM_SCSR, Privilege::user).value == 0, "SUPV stops a user");
    expect(card.read(aurenjassa::width_of(3), QSM_SCSR).refusal == Refusal::misshapen, "a width of 3 is refused");
    expect(card.read(Width::word, 0x02).refusal == Refusal::unmapped, "02 is not in the map");
    expect(card.write(Width::word, QSM_SPCR1, 0x8000).refusal == Refusal::unmodelled, "SPE with MSTR clear is refused");
    const aurenjassa::Answer on = card.write(Width::word, QSM_SCCR1, QSM_TE | QSM_RE);
    expect(on.answered() && on.driven == Pins(Pin::txd) && on.levels.has(Pin::txd), "TE makes TXD driven, at one");
    expect(card.write(Width::word, QSM_SCCR0, 55).refusal == Refusal::guarded, "SCBR is guarded");
    expect(card.read(Width::long_word, QSM_SCCR0).value == 0x0004000C, "a long is two words");
    expect(card.write(Width::byte, QSM_QILR, 0x07).answered() && card.peek(Width::byte, QSM_QILR).value == 0x07, "bytes");
    expect(card.write(Width::word, QSM_QSMCR, 0x0000, Privilege::user).answered(), "a user's write does nothing");
    expect(card.reset().driven == Pins::none(), "a reset lets go of TXD");
}

static void time()
{
    Module card;
    card.write(Width::byte, QSM_QILR, 0x07);
    card.write(Width::word, QSM_SCCR1, QSM_TE | 0x0040);
    expect(card.now().requested() && card.now().level == 7 && card.now().vector == 0x0E, "TC asks at once");
    card.write(Width::word, QSM_SCCR1, QSM_TE);
    const Module saved = card;
    expect(card.hold(Pins::all(), Level::one, 8).clock == 8, "a hold counts");
    expect(saved.now().clock == 0, "a copy stays");
    card.read(Width::word, QSM_SCSR);
    card.write(Width::word, QSM_SCDR, 0x00);
    const std::uint64_t clocks = card.until_change(Pins::all(), Level::one);
    expect(clocks == 1280, "the preamble takes 160 samples");
    expect(card.hold(Pins::all(), Level::one, static_cast<std::uint32_t>(clocks) - 1).levels.has(Pin::txd), "TXD is one until then");
    expect(!card.hold(Pins::all(), Level::one, 1).levels.has(Pin::txd), "and the start bit comes");
    expect(Module().until_change(Pins::none(), Level::one) == 0, "a module that is off never changes");
}

static void reception()
{
    Module card;
    card.write(Width::word, QSM_SCCR0, 1);
    card.write(Width::word, QSM_SCCR1, QSM_RE);
    for (int frames = 0; frames < 2; ++frames) {
        card.hold(Pins::all(), Level::one, 64);
        card.hold(Pins::all(), Level::zero, 32);
        card.hold(Pins::all(), Level::one, 2 * 16 * 9);
    }
    expect(card.taken() == 2 && card.lost() == 1 && card.noise() == 0, "the second frame finds SCDR full");
    const std::uint32_t shown = card.peek(Width::word, QSM_SCSR).value;
    expect((shown & QSM_RDRF) != 0 && (shown & QSM_OR) != 0, "RDRF and OR are set");
    card.peek(Width::word, QSM_SCDR);
    expect(card.peek(Width::word, QSM_SCSR).value == shown, "a peek changes nothing");
    card.read(Width::word, QSM_SCSR);
    expect(card.read(Width::word, QSM_SCDR).value == 0xFF, "the first word");
    expect((card.peek(Width::word, QSM_SCSR).value & (QSM_RDRF | QSM_OR)) == 0, "what was seen falls");
}

static void traces()
{
    const std::uint8_t trace[] = {0x01, 0x03, 0x82, 0x00, 0x0C, 0x05};
    std::uint8_t log[37];
    std::memset(log, 0xEE, sizeof log);
    Module card;
    card.write(Width::word, QSM_SCCR0, 7);
    const aurenjassa::Played played = card.play(trace, sizeof trace, log, sizeof log);
    expect(played.read == 5 && played.written == 36 && played.stop == Refusal::cut_record && !played.ended(), "the third record is cut");
    expect(log[18] == 0x11 && log[22] == 0x01 && log[23] == 0x80 && log[36] == 0xEE, "two answers");
    expect(card.peek(Width::word, QSM_SCCR0).value == 4 && card.state().sci.sccr0 == 4, "the module was reset by it");
    expect(card.play(trace, 5, log, 18).stop == Refusal::no_room, "no room for the second answer");
}

int main()
{
    accesses();
    time();
    reception();
    traces();
    return failed;
}
