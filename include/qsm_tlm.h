// Motorola's queued serial module (QSM) as a target of SystemC's TLM-2.0, over qsm.hpp. Header only, for C++17 and SystemC 2.3 on x86-64.
//
//     aurenjassa::Qsm card("card", sc_core::sc_time(50, sc_core::SC_NS));   // a system clock of 20 MHz
//     cpu.socket.bind(card.socket);
//     card.rxd(rxd); card.inputs(inputs);
//     card.levels(levels); card.driven(driven); card.level(level); card.vector(vector);
//
// Loosely timed, and exact to the clock. Clock n of the module ends n periods after the start of the simulation. Time passes for it lazily: at an access,
// where an input changes, and where its own pins or request change, which it knows beforehand; never clock by clock. So the ports change at their own
// clock. An access waits for the initiator's local time first, so that inputs which change before it have been seen, and gives the initiator back a
// local time of zero.
//
// The bus. A transaction is a read or write of 1, 2 or 4 bytes, in address order (the module is big-endian), from the module's base on. It is made as
// supervisor unless an Access_extension says otherwise. What the module refuses is an error response, with the refusal's number in the extension, if the
// transaction has one: a width is a burst error, a place that is odd or not in the map an address error, a write that it doesn't let through a command
// error. Byte enables and streaming are not taken. transport_dbg reads with no side effect, and writes nothing. There is no direct memory.
#ifndef QSM_TLM_H
#define QSM_TLM_H

#include "qsm.hpp"

#include <cstdint>
#include <initializer_list>
#include <systemc>
#include <tlm>
#include <tlm_utils/simple_target_socket.h>
#include <vector>

namespace aurenjassa {

// Who makes an access, and what the module said of it.
struct Access_extension : tlm::tlm_extension<Access_extension> {
    Privilege privilege = Privilege::supervisor;
    Refusal refusal = Refusal::answered;

    tlm::tlm_extension_base *clone() const override { return new Access_extension(*this); }
    void copy_from(const tlm::tlm_extension_base &other) override { *this = static_cast<const Access_extension &>(other); }
};

class Qsm : public sc_core::sc_module {
public:
    using Byte = sc_dt::sc_uint<8>;

    tlm_utils::simple_target_socket<Qsm> socket;
    sc_core::sc_in<bool> rxd;
    sc_core::sc_in<Byte> inputs;   // levels of the pins from outside, as bits of Pins; those that the module drives don't count
    sc_core::sc_out<Byte> levels;  // levels of the pins that the module drives; 0 for the others
    sc_core::sc_out<Byte> driven;  // which these are
    sc_core::sc_out<Byte> level;   // of the interrupt request; 0: none
    sc_core::sc_out<Byte> vector;  // its vector

    // The period of the system clock, which is more than no time and a whole number of the simulator's time units.
    Qsm(sc_core::sc_module_name name, sc_core::sc_time period)
        : sc_core::sc_module(name), socket("socket"), rxd("rxd"), inputs("inputs"), levels("levels"), driven("driven"), level("level"), vector("vector"),
          period_(period.value())
    {
        if (period_ == 0)
            SC_REPORT_FATAL("qsm", "the system clock has no period");
        socket.register_b_transport(this, &Qsm::transport);
        socket.register_transport_dbg(this, &Qsm::debug);
        socket.register_get_direct_mem_ptr(this, &Qsm::direct);
        SC_HAS_PROCESS(Qsm);
        SC_METHOD(drive);
        sensitive << rxd << inputs << change_;
    }

    // A reset of the module, now.
    void reset()
    {
        catch_up();
        const Answer a = module_.reset();
        record({0x01});
        log(a);
        taken_ = false;
        change_.notify(sc_core::SC_ZERO_TIME);
    }

    // From now on the module's events are added to a trace, and their answers to a log: played on a module in the same state (one that is fresh, if
    // recording begins with the simulation), the trace gives the log.
    void record_to(std::vector<std::uint8_t> *trace, std::vector<std::uint8_t> *log)
    {
        trace_ = trace;
        log_ = log;
    }

    // The module as it is, up to the clock that has ended last.
    const Module &module()
    {
        catch_up();
        return module_;
    }

private:
    // The inputs that the next clocks have.
    struct Held {
        Pins pins;
        Level rxd;
    };

    // From this moment on the inputs are what the ports have.
    void see_inputs()
    {
        const Held seen = now();
        taken_ = taken_ && seen.pins == held_.pins;
        held_ = seen;
    }

    // An access of now finds the pins as they are: a hold of no clock, where they have changed since the last one.
    void give_inputs()
    {
        if (!taken_)
            pass(0);
    }

    Held now() const { return Held{Pins::of_bits(static_cast<std::uint8_t>(inputs.read().to_uint())), level_of(rxd.read())}; }

    // The clocks that have ended by now pass, at the levels that were there.
    Answer catch_up()
    {
        const std::uint64_t ended = sc_core::sc_time_stamp().value() / period_;
        Answer a = module_.now();
        while (passed_ < ended) {
            const std::uint64_t left = ended - passed_;
            a = pass(left > 0xFFFFFFFF ? 0xFFFFFFFF : static_cast<std::uint32_t>(left));
        }
        return a;
    }

    Answer pass(std::uint32_t clocks)
    {
        const Answer a = module_.hold(held_.pins, held_.rxd, clocks);
        if (!a.answered())
            SC_REPORT_FATAL("qsm", "the clocks since reset would pass 2^64 - 1");
        record({0x05, held_.pins.bits(), held_.rxd == Level::one, byte(clocks, 24), byte(clocks, 16), byte(clocks, 8), byte(clocks, 0)});
        log(a);
        passed_ += clocks;
        taken_ = true;
        return a;
    }

    // The one process that writes the ports: at the start, where an input changes, where the module's own pins or request do, and after an access.
    void drive()
    {
        const Answer a = catch_up();
        see_inputs();
        levels.write(a.levels.bits());
        driven.write(a.driven.bits());
        level.write(a.level);
        vector.write(a.vector);
        look_ahead();
    }

    // The module is looked at again when its pins or request change, if nothing comes before that.
    void look_ahead()
    {
        const std::uint64_t clocks = module_.until_change(held_.pins, held_.rxd);
        const std::uint64_t last = sc_core::sc_max_time().value() / period_;
        if (clocks == 0 || clocks > last || passed_ > last - clocks)
            return;
        change_.notify(sc_core::sc_time::from_value((passed_ + clocks) * period_ - sc_core::sc_time_stamp().value()));
    }

    void transport(tlm::tlm_generic_payload &access, sc_core::sc_time &local)
    {
        // What the inputs do up to the initiator's time comes first.
        if (local != sc_core::SC_ZERO_TIME)
            wait(local);
        local = sc_core::SC_ZERO_TIME;
        Access_extension *extension = access.get_extension<Access_extension>();
        const Privilege privilege = extension ? extension->privilege : Privilege::supervisor;
        const unsigned length = access.get_data_length();
        if (extension)
            extension->refusal = Refusal::answered;
        access.set_dmi_allowed(false);
        if (access.get_command() == tlm::TLM_IGNORE_COMMAND)
            return access.set_response_status(tlm::TLM_OK_RESPONSE);
        if (access.get_byte_enable_ptr())
            return access.set_response_status(tlm::TLM_BYTE_ENABLE_ERROR_RESPONSE);
        if (access.get_streaming_width() < length)
            return access.set_response_status(tlm::TLM_BURST_ERROR_RESPONSE);
        catch_up();
        see_inputs();
        give_inputs();
        const Answer a = made(access, privilege);
        if (extension)
            extension->refusal = a.refusal;
        access.set_response_status(response(a.refusal, length));
        change_.notify(sc_core::SC_ZERO_TIME);
    }

    // The access itself. One that no record can hold is refused here as the module would: 1 for its width, 2 for its place.
    Answer made(tlm::tlm_generic_payload &access, Privilege privilege)
    {
        const unsigned length = access.get_data_length();
        Answer none = module_.now();
        none.refusal = length > 127 ? Refusal::misshapen : access.get_address() > 0xFFFF ? Refusal::unmapped : Refusal::answered;
        if (!none.answered())
            return none;
        const std::uint8_t width = static_cast<std::uint8_t>(length);
        const std::uint16_t offset = static_cast<std::uint16_t>(access.get_address());
        const std::uint8_t mode = static_cast<std::uint8_t>(width | (privilege == Privilege::supervisor ? 0x80 : 0));
        if (access.is_read()) {
            const Answer a = module_.read(width_of(width), offset, privilege);
            record({0x03, mode, byte(offset, 8), byte(offset, 0)});
            log(a);
            if (a.answered())
                put(a.value, access.get_data_ptr(), length);
            return a;
        }
        const std::uint32_t value = length <= 4 ? got(access.get_data_ptr(), length) : 0;
        const Answer a = module_.write(width_of(width), offset, value, privilege);
        record({0x04, mode, byte(offset, 8), byte(offset, 0), byte(value, 24), byte(value, 16), byte(value, 8), byte(value, 0)});
        log(a);
        return a;
    }

    // Reads of bytes, words or longs, with no effect: what an access of now would give.
    unsigned debug(tlm::tlm_generic_payload &access)
    {
        const unsigned length = access.get_data_length();
        if (!access.is_read() || length > 127 || access.get_address() > 0xFFFF)
            return 0;
        catch_up();
        see_inputs();
        give_inputs();
        const Answer a = module_.peek(width_of(static_cast<std::uint8_t>(length)), static_cast<std::uint16_t>(access.get_address()));
        if (!a.answered())
            return 0;
        put(a.value, access.get_data_ptr(), length);
        return length;
    }

    bool direct(tlm::tlm_generic_payload &, tlm::tlm_dmi &) { return false; }

    static tlm::tlm_response_status response(Refusal refusal, unsigned length)
    {
        switch (refusal) {
        case Refusal::answered:
            return tlm::TLM_OK_RESPONSE;
        case Refusal::misshapen:
            return length == 2 || length == 4 ? tlm::TLM_ADDRESS_ERROR_RESPONSE : tlm::TLM_BURST_ERROR_RESPONSE;
        case Refusal::unmapped:
            return tlm::TLM_ADDRESS_ERROR_RESPONSE;
        default:
            return tlm::TLM_COMMAND_ERROR_RESPONSE;
        }
    }

    static std::uint8_t byte(std::uint32_t value, unsigned place) { return static_cast<std::uint8_t>(value >> place); }

    static void put(std::uint32_t value, unsigned char *data, unsigned length)
    {
        for (unsigned i = 0; i < length; i++)
            data[i] = byte(value, 8 * (length - 1 - i));
    }

    static std::uint32_t got(const unsigned char *data, unsigned length)
    {
        std::uint32_t value = 0;
        for (unsigned i = 0; i < length; i++)
            value = value << 8 | data[i];
        return value;
    }

    void record(std::initializer_list<std::uint8_t> bytes)
    {
        if (trace_)
            trace_->insert(trace_->end(), bytes);
    }

    void log(const Answer &a)
    {
        if (!log_)
            return;
        log_->insert(log_->end(), {0x11, static_cast<std::uint8_t>(a.refusal), byte(a.value, 24), byte(a.value, 16), byte(a.value, 8), byte(a.value, 0),
                                   a.levels.bits(), a.driven.bits(), a.level, a.vector});
        for (unsigned place = 64; place > 0; place -= 8)
            log_->push_back(static_cast<std::uint8_t>(a.clock >> (place - 8)));
    }

    const std::uint64_t period_; // in the simulator's units
    std::uint64_t passed_ = 0;   // clocks that have passed for the module
    Module module_;
    Held held_{Pins::none(), Level::one};
    bool taken_ = false; // the module has had a hold at these pins since its last reset
    sc_core::sc_event change_;
    std::vector<std::uint8_t> *trace_ = nullptr;
    std::vector<std::uint8_t> *log_ = nullptr;
};

} // namespace aurenjassa

#endif
