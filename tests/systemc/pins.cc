// The module behind TLM-2.0, beside the module itself played clock by clock: random holds and accesses, and every change of the ports at its clock. Then
// the responses to accesses that the bus or the module does not take.
//
//   pins FIRST COUNT     seeds from FIRST on
#include "qsm_tlm.h"

#include <array>
#include <cstdio>
#include <cstdlib>
#include <map>
#include <random>
#include <tlm_utils/simple_initiator_socket.h>

using aurenjassa::Access_extension;
using aurenjassa::Answer;
using aurenjassa::Level;
using aurenjassa::Module;
using aurenjassa::Pins;
using aurenjassa::Privilege;
using aurenjassa::Qsm;
using aurenjassa::Refusal;
using sc_core::sc_time;

using Shown = std::array<unsigned, 4>; // levels, driven, level, vector
using Changes = std::map<std::uint64_t, Shown>;

static int failed = 0;

static void expect(bool test, const char *what)
{
    if (!test) {
        std::printf("not so: %s\n", what);
        failed = 1;
    }
}

static Shown shown(const Answer &a)
{
    return {a.levels.bits(), a.driven.bits(), a.level, a.vector};
}

// Only what differs from what stands before it.
static Changes changes(const Changes &all)
{
    Changes kept;
    Shown last{0, 0, 0, 0};
    for (const auto &[clock, now] : all) {
        if (now != last)
            kept[clock] = now;
        last = now;
    }
    return kept;
}

SC_MODULE(Bench) {
    tlm_utils::simple_initiator_socket<Bench> socket;
    sc_core::sc_signal<bool> rxd{"rxd"};
    sc_core::sc_signal<Qsm::Byte> inputs{"inputs"}, levels{"levels"}, driven{"driven"}, level{"level"}, vector{"vector"};
    Qsm *target = nullptr;
    unsigned first = 0, count = 0;
    const std::uint64_t period = 59605; // ps

    SC_CTOR(Bench) : socket("socket")
    {
        SC_THREAD(run);
        SC_METHOD(see);
        sensitive << levels << driven << level << vector;
    }

    void see() { seen_[sc_core::sc_time_stamp().value() / period] = {levels.read().to_uint(), driven.read().to_uint(), level.read().to_uint(), vector.read().to_uint()}; }

    void run()
    {
        responses();
        for (unsigned seed = first; seed < first + count; seed++)
            round(seed);
        sc_core::sc_stop();
    }

private:
    tlm::tlm_response_status access(tlm::tlm_command command, std::uint64_t address, unsigned char *data, unsigned length, Privilege privilege = Privilege::supervisor,
                                    sc_time local = sc_core::SC_ZERO_TIME, Refusal *refusal = nullptr)
    {
        tlm::tlm_generic_payload payload;
        auto *said = new Access_extension;
        said->privilege = privilege;
        payload.set_extension(said);
        payload.set_command(command);
        payload.set_address(address);
        payload.set_data_ptr(data);
        payload.set_data_length(length);
        payload.set_streaming_width(length);
        socket->b_transport(payload, local);
        expect(local == sc_core::SC_ZERO_TIME, "no local time is left");
        if (refusal)
            *refusal = said->refusal;
        return payload.get_response_status();
    }

    void responses()
    {
        unsigned char data[256] = {0};
        Refusal refusal;
        const auto read = tlm::TLM_READ_COMMAND, write = tlm::TLM_WRITE_COMMAND;
        expect(access(read, QSM_SCSR, data, 2) == tlm::TLM_OK_RESPONSE && data[0] == 0x01 && data[1] == 0x80, "SCSR after a reset");
        expect(access(read, QSM_SCSR, data, 3, Privilege::supervisor, sc_core::SC_ZERO_TIME, &refusal) == tlm::TLM_BURST_ERROR_RESPONSE && refusal == Refusal::misshapen,
               "a width of 3 is a burst error");
        expect(access(read, QSM_SCSR, data, 0) == tlm::TLM_BURST_ERROR_RESPONSE, "a width of 0 too");
        expect(access(read, QSM_SCSR, data, 200) == tlm::TLM_BURST_ERROR_RESPONSE, "a width of 200 too");
        expect(access(read, QSM_SCSR + 1, data, 2, Privilege::supervisor, sc_core::SC_ZERO_TIME, &refusal) == tlm::TLM_ADDRESS_ERROR_RESPONSE && refusal == Refusal::misshapen,
               "a word at an odd offset is an address error");
        expect(access(read, 0x02, data, 2, Privilege::supervisor, sc_core::SC_ZERO_TIME, &refusal) == tlm::TLM_ADDRESS_ERROR_RESPONSE && refusal == Refusal::unmapped, "02 is");
        expect(access(read, 0x10008, data, 2) == tlm::TLM_ADDRESS_ERROR_RESPONSE, "and 10008");
        data[0] = 0x80, data[1] = 0x00;
        expect(access(write, QSM_SPCR1, data, 2, Privilege::supervisor, sc_core::SC_ZERO_TIME, &refusal) == tlm::TLM_COMMAND_ERROR_RESPONSE && refusal == Refusal::unmodelled,
               "SPE with MSTR clear is a command error");
        expect(access(write, QSM_TRANSMIT, data, 2, Privilege::user) == tlm::TLM_OK_RESPONSE, "a user's write is answered");
        data[0] = 0xFF;
        expect(access(read, QSM_TRANSMIT, data, 2) == tlm::TLM_OK_RESPONSE && data[0] == 0, "and does nothing");

        tlm::tlm_generic_payload payload;
        unsigned char enable[2] = {0xFF, 0xFF};
        payload.set_read();
        payload.set_address(QSM_SCSR);
        payload.set_data_ptr(data);
        payload.set_data_length(2);
        payload.set_streaming_width(1);
        sc_time local;
        socket->b_transport(payload, local);
        expect(payload.get_response_status() == tlm::TLM_BURST_ERROR_RESPONSE, "streaming is not taken");
        payload.set_streaming_width(2);
        payload.set_byte_enable_ptr(enable);
        payload.set_byte_enable_length(2);
        socket->b_transport(payload, local);
        expect(payload.get_response_status() == tlm::TLM_BYTE_ENABLE_ERROR_RESPONSE, "byte enables are not taken");
        payload.set_byte_enable_ptr(nullptr);
        tlm::tlm_dmi direct;
        expect(!socket->get_direct_mem_ptr(payload, direct), "no direct memory");
        target->reset();
        expect(socket->transport_dbg(payload) == 2 && data[0] == 0x01 && data[1] == 0x80, "a debug read");
        payload.set_write();
        expect(socket->transport_dbg(payload) == 0, "no debug write");
        payload.set_read();
        payload.set_address(0x02);
        expect(socket->transport_dbg(payload) == 0, "no debug read of what is not there");
        // A debug read is no status read: TDRE doesn't fall.
        data[0] = 0, data[1] = 0x55;
        access(write, QSM_SCDR, data, 2);
        expect(access(read, QSM_SCSR, data, 2) == tlm::TLM_OK_RESPONSE && data[0] == 0x01, "a debug read marks nothing as seen");
    }

    // A random history since a reset, by the socket and the ports, and by a module clock by clock.
    void round(unsigned seed)
    {
        std::mt19937 random(seed);
        const auto below = [&](unsigned n) { return static_cast<unsigned>(random() % n); };
        wait(sc_time::from_value(period - sc_core::sc_time_stamp().value() % period));
        inputs.write(0), rxd.write(true);
        target->reset();
        wait(sc_core::SC_ZERO_TIME), wait(sc_core::SC_ZERO_TIME), wait(sc_core::SC_ZERO_TIME);
        seen_.clear();
        const std::uint64_t start = sc_core::sc_time_stamp().value() / period;
        Module plain;
        Changes expected;
        std::uint64_t clock = start;
        bool line = true;
        std::uint8_t pins = 0;
        const unsigned offsets[] = {QSM_QILR, QSM_SCCR0, QSM_SCCR1, QSM_SCSR, QSM_SCDR, QSM_PQSPAR, QSM_SPCR0, QSM_SPCR1, QSM_SPCR2, QSM_SPCR3, QSM_TRANSMIT, QSM_COMMANDS, 0x14};
        for (int event = 0; event < 60; event++) {
            sc_time local = sc_core::SC_ZERO_TIME;
            if (below(2)) {
                line = below(3) != 0, pins = static_cast<std::uint8_t>(below(256));
                const unsigned clocks = below(4) ? below(60) : below(3000);
                rxd.write(line), inputs.write(pins);
                for (unsigned i = 0; i < clocks; i++)
                    expected[++clock] = shown(plain.hold(Pins::of_bits(pins), aurenjassa::level_of(line), 1));
                if (clocks == 0)
                    plain.hold(Pins::of_bits(pins), aurenjassa::level_of(line), 0);
                // Half of the time the initiator runs ahead, and the access waits for it.
                if (below(2)) {
                    wait(sc_time::from_value(clocks * period));
                } else {
                    local = sc_time::from_value(clocks * period);
                    wait(sc_core::SC_ZERO_TIME);
                }
            }
            const std::uint16_t offset = static_cast<std::uint16_t>(offsets[below(13)]);
            unsigned char data[4] = {0}, wanted[4] = {0};
            const bool reading = below(3) == 0;
            std::uint32_t value = below(0x10000);
            if (offset == QSM_SCCR0)
                value = 1 + below(3);
            if (offset == QSM_SCCR1)
                value &= 0x1FFE;
            if (offset == QSM_SPCR0)
                value = 0x8002 + below(4) + (below(2) ? 0x2800 : 0) + (below(4) << 8);
            if (offset == QSM_SPCR1)
                value = 0x8000 | below(0x0800);
            data[0] = static_cast<unsigned char>(value >> 8), data[1] = static_cast<unsigned char>(value);
            Refusal refusal;
            access(reading ? tlm::TLM_READ_COMMAND : tlm::TLM_WRITE_COMMAND, offset, data, 2, Privilege::supervisor, local, &refusal);
            const Answer a = reading ? plain.read(aurenjassa::Width::word, offset) : plain.write(aurenjassa::Width::word, offset, value);
            wanted[0] = static_cast<unsigned char>(a.value >> 8), wanted[1] = static_cast<unsigned char>(a.value);
            expect(refusal == a.refusal && (!reading || !a.answered() || (data[0] == wanted[0] && data[1] == wanted[1])), "an access gives what the module gives");
            expected[clock] = shown(a);
        }
        wait(sc_core::SC_ZERO_TIME), wait(sc_core::SC_ZERO_TIME);
        if (changes(seen_) != changes(expected)) {
            failed = 1;
            const Changes got = changes(seen_), want = changes(expected);
            auto g = got.begin();
            auto w = want.begin();
            while (g != got.end() && w != want.end() && *g == *w)
                ++g, ++w;
            std::printf("seed %u: %zu changes, expected %zu; the first other one at clock %lld, expected at %lld\n", seed, got.size(), want.size(),
                        g == got.end() ? -1LL : static_cast<long long>(g->first - start), w == want.end() ? -1LL : static_cast<long long>(w->first - start));
        }
        total_ += changes(expected).size();
        if (seed + 1 == first + count)
            std::printf("%u histories: %zu changes of the ports\n", count, total_);
    }

    Changes seen_;
    std::size_t total_ = 0;
};

int sc_main(int argc, char **argv)
{
    if (argc != 3) {
        std::fprintf(stderr, "usage: pins FIRST COUNT\n");
        return 2;
    }
    Bench bench("bench");
    Qsm qsm("qsm", sc_time::from_value(bench.period));
    bench.first = static_cast<unsigned>(std::atoi(argv[1]));
    bench.count = static_cast<unsigned>(std::atoi(argv[2]));
    bench.target = &qsm;
    bench.socket.bind(qsm.socket);
    qsm.rxd(bench.rxd), qsm.inputs(bench.inputs), qsm.levels(bench.levels), qsm.driven(bench.driven), qsm.level(bench.level), qsm.vector(bench.vector);
    sc_core::sc_start();
    return failed;
}
