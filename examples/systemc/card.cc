// A virtual card in SystemC: a CPU with a firmware's loop, a sender on RXD, two axis converters on the queue's pins, and the module between them, over
// TLM-2.0. Lines of a part program come in at 9,600 baud; each X and Y of a line goes out as a set-point in hundredths of a millimetre.
//
//   card MICROSECONDS [FILES]     the firmware polls so often; FILES.trace and FILES.log get what the module did
#include "../feed.h"
#include "qsm_tlm.h"

#include <cstdio>
#include <cstdlib>
#include <fstream>
#include <string>
#include <tlm_utils/simple_initiator_socket.h>
#include <tlm_utils/tlm_quantumkeeper.h>

using aurenjassa::Pin;
using aurenjassa::Pins;
using aurenjassa::Qsm;
using sc_core::sc_time;

// So many clocks of the system clock, to the nearest picosecond.
static sc_time clocks(double count)
{
    return sc_time(count * 1e12 / CLOCK, sc_core::SC_PS);
}

// Sends the part program: start bit, eight bits with the lowest first, stop bit.
SC_MODULE(Sender) {
    sc_core::sc_out<bool> rxd;

    SC_CTOR(Sender) { SC_THREAD(send); }

    void send()
    {
        const sc_time bit(1e12 / BAUD, sc_core::SC_PS);
        rxd.write(true);
        wait(20 * bit);
        for (const char *c = program; *c; c++) {
            const unsigned frame = static_cast<unsigned>(*c) << 1 | 0x200;
            for (int i = 0; i < 10; i++) {
                rxd.write(frame >> i & 1);
                wait(bit);
            }
        }
        wait(20 * bit);
        sc_core::sc_stop();
    }
};

// A converter that is selected by one chip select at zero, and shifts in MOSI where SCK rises.
SC_MODULE(Converter) {
    sc_core::sc_in<Qsm::Byte> levels;

    Converter(sc_core::sc_module_name name, Pin select) : sc_core::sc_module(name), select_(select)
    {
        SC_HAS_PROCESS(Converter);
        SC_METHOD(see);
        sensitive << levels;
        dont_initialize();
    }

    void see()
    {
        const Pins pins = Pins::of_bits(static_cast<std::uint8_t>(levels.read().to_uint()));
        const bool selected = !pins.has(select_), clock = pins.has(Pin::sck);
        if (selected && clock && !clock_)
            shift_ = static_cast<std::uint16_t>(shift_ << 1 | pins.has(Pin::mosi)), bits_++;
        if (!selected && bits_ == 16)
            std::printf("  %s = %04X\n", basename(), static_cast<unsigned>(shift_));
        if (!selected)
            bits_ = 0;
        clock_ = clock;
    }

private:
    const Pin select_;
    std::uint16_t shift_ = 0;
    unsigned bits_ = 0;
    bool clock_ = false;
};

// The firmware: status, then data, every so often; at a line's end its set-points into the queue.
SC_MODULE(Cpu) {
    tlm_utils::simple_initiator_socket<Cpu> socket;

    Cpu(sc_core::sc_module_name name, unsigned microseconds) : sc_core::sc_module(name), socket("socket"), period_(microseconds, sc_core::SC_US)
    {
        SC_HAS_PROCESS(Cpu);
        SC_THREAD(run);
    }

    void run()
    {
        keeper_.set_global_quantum(sc_time(100, sc_core::SC_US));
        keeper_.reset();
        write(2, QSM_SCCR0, SCBR);
        write(2, QSM_SCCR1, QSM_RE);
        write(1, QSM_PORTQS, QSM_PCS0 | QSM_PCS1 | QSM_PCS2 | QSM_PCS3);
        write(2, QSM_PQSPAR, 0x7B7E);  // all pins the queue's, MISO an input
        write(2, QSM_SPCR0, 0x8008);   // MSTR, 16 bits, SCK at zero, MOSI taken where it rises
        for (;;) {
            keeper_.inc(period_);
            const std::uint32_t status = read(2, QSM_SCSR);
            if (status & (QSM_RDRF | QSM_OR))
                take(static_cast<char>(read(2, QSM_SCDR) & 0x7F), (status & QSM_OR) != 0);
            if (keeper_.need_sync())
                keeper_.sync();
        }
    }

private:
    void take(char c, bool overrun)
    {
        if (c != '\n') {
            line_ += c;
            lost_ |= overrun;
            return;
        }
        std::printf("  %s%s\n", line_.c_str(), lost_ ? "   <- overrun: a character is missing" : "");
        std::uint32_t entries = 0;
        for (const char axis : {'X', 'Y'}) {
            const std::size_t at = line_.find(axis);
            if (at == std::string::npos || lost_)
                continue;
            write(2, static_cast<std::uint16_t>(QSM_TRANSMIT + 2 * entries), static_cast<std::uint32_t>(std::atof(line_.c_str() + at + 1) * 100));
            write(1, static_cast<std::uint16_t>(QSM_COMMANDS + entries), 0x40 | (axis == 'X' ? 0xE : 0xD));
            entries++;
        }
        if (entries) {
            write(2, QSM_SPCR2, (entries - 1) << 8);
            write(2, QSM_SPCR1, 0x8404);
        }
        line_.clear();
        lost_ = overrun;
    }

    // An access that ends the simulation where the module refuses it: this firmware makes none such.
    std::uint32_t access(tlm::tlm_command command, unsigned width, std::uint16_t offset, std::uint32_t value)
    {
        unsigned char data[4];
        for (unsigned i = 0; i < width; i++)
            data[i] = static_cast<unsigned char>(value >> (8 * (width - 1 - i)));
        tlm::tlm_generic_payload payload;
        auto *said = new aurenjassa::Access_extension; // the payload's
        payload.set_extension(said);
        payload.set_command(command);
        payload.set_address(offset);
        payload.set_data_ptr(data);
        payload.set_data_length(width);
        payload.set_streaming_width(width);
        sc_time local = keeper_.get_local_time();
        socket->b_transport(payload, local);
        keeper_.set(local);
        if (payload.is_response_error()) {
            std::printf("access of %u at %04X: %s, refusal %u\n", width, static_cast<unsigned>(offset), payload.get_response_string().c_str(),
                        static_cast<unsigned>(said->refusal));
            std::exit(EXIT_FAILURE);
        }
        value = 0;
        for (unsigned i = 0; i < width; i++)
            value = value << 8 | data[i];
        return value;
    }

    std::uint32_t read(unsigned width, std::uint16_t offset) { return access(tlm::TLM_READ_COMMAND, width, offset, 0); }
    void write(unsigned width, std::uint16_t offset, std::uint32_t value) { access(tlm::TLM_WRITE_COMMAND, width, offset, value); }

    const sc_time period_;
    tlm_utils::tlm_quantumkeeper keeper_;
    std::string line_;
    bool lost_ = false;
};

static bool kept(const std::string &name, const std::vector<std::uint8_t> &bytes)
{
    std::ofstream file(name, std::ios::binary);
    file.write(reinterpret_cast<const char *>(bytes.data()), static_cast<std::streamsize>(bytes.size()));
    file.close();
    if (!file)
        std::fprintf(stderr, "card: %s can't be written\n", name.c_str());
    return static_cast<bool>(file);
}

int sc_main(int argc, char **argv)
{
    const int microseconds = argc > 1 ? std::atoi(argv[1]) : 0;
    if (argc < 2 || argc > 3 || microseconds < 1) {
        std::fprintf(stderr, "usage: card MICROSECONDS [FILES]\n");
        return 2;
    }
    sc_core::sc_report_handler::set_actions("/OSCI/SystemC", sc_core::SC_INFO, sc_core::SC_DO_NOTHING); // that sc_stop was called
    Sender sender("sender");
    Converter x("X", Pin::pcs0), y("Y", Pin::pcs1);
    Cpu cpu("cpu", static_cast<unsigned>(microseconds));
    Qsm qsm("qsm", clocks(1));
    sc_core::sc_signal<bool> rxd("rxd", true);
    sc_core::sc_signal<Qsm::Byte> inputs("inputs"), levels("levels"), driven("driven"), level("level"), vector("vector");
    cpu.socket.bind(qsm.socket);
    sender.rxd(rxd);
    qsm.rxd(rxd), qsm.inputs(inputs), qsm.levels(levels), qsm.driven(driven), qsm.level(level), qsm.vector(vector);
    x.levels(levels), y.levels(levels);
    std::vector<std::uint8_t> trace, log;
    qsm.record_to(&trace, &log);
    std::printf("A poll every %d us:\n", microseconds);
    sc_core::sc_start();
    std::printf("  %u characters taken, %u lost\n", static_cast<unsigned>(qsm.module().taken()), static_cast<unsigned>(qsm.module().lost()));
    if (argc > 2 && !(kept(std::string(argv[2]) + ".trace", trace) && kept(std::string(argv[2]) + ".log", log)))
        return 2;
    return 0;
}
