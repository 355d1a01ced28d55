// A host in C++: each function of the header is called once or more, and its answer looked at.
#include "qsm.h"

#include <cstdio>
#include <cstring>

static int failed = 0;

static void expect(bool test, const char *what)
{
    if (!test) {
        std::printf("not so: %s\n", what);
        failed = 1;
    }
}

int main()
{
    struct qsm card = qsm_new();
    expect(qsm_read(&card, true, 2, QSM_SCSR).value == (QSM_TDRE | QSM_TC), "after a reset TDRE and TC are set");
    expect(qsm_read(&card, false, 2, QSM_SCSR).value == 0, "SUPV stops a user");
    expect(qsm_read(&card, true, 2, QSM_SCSR + 1).refusal == QSM_MISSHAPEN, "a word at an odd offset is refused");
    expect(qsm_read(&card, true, 2, 0x02).refusal == QSM_UNMAPPED, "02 is not in the map");
    expect(qsm_write(&card, true, 2, QSM_SPCR1, 0x8000).refusal == QSM_UNMODELLED, "SPE with MSTR clear is refused");
    expect(qsm_write(&card, true, 2, QSM_SCCR1, QSM_TE).mask == QSM_TXD, "TE makes TXD driven");
    expect(qsm_write(&card, true, 2, QSM_SCCR0, 55).refusal == QSM_GUARDED, "SCBR is guarded while TE is set");

    struct qsm saved = card;
    expect(qsm_hold(&card, 0xFF, true, 1000).levels == QSM_TXD, "TXD is one in the preamble");
    expect(card.sci.transmitter.left != saved.sci.transmitter.left, "the preamble has begun, and not in the copy");
    struct qsm parts = saved;
    qsm_hold(&card, 0xFF, true, 65539);
    qsm_hold(&parts, 0xFF, true, 66536);
    qsm_hold(&parts, 0xFF, true, 3);
    expect(card.sci.prescaler == 3 && parts.sci.prescaler == 3, "holds of the same total come to the same clock");
    expect(card.clock == 66539 && parts.clock == 66539, "and are counted alike");
    card.clock = UINT64_MAX - 8;
    struct qsm_answer past = qsm_hold(&card, 0, true, 9);
    expect(past.refusal == QSM_CLOCK_LIMIT && past.clock == UINT64_MAX - 8 && card.inputs == 0xFF, "a hold past 2^64 - 1 changes nothing");
    expect(qsm_hold(&card, 0, true, 8).clock == UINT64_MAX, "one up to it is let");
    expect(qsm_reset(&card).mask == 0 && card.clock == 0, "a reset lets go of TXD, and counts anew");
    expect(qsm_version() == QSM_VERSION, "the header's struct is the archive's");

    const uint8_t trace[] = {0x01, 0x03, 0x82, 0x00, 0x0C, 0x05};
    const uint8_t answers[] = {0x11, 0, 0, 0, 0, 0, 0, 0, 0, 0, 0, 0, 0, 0, 0, 0, 0, 0, 0x11, 0, 0, 0, 0x01, 0x80, 0, 0, 0, 0, 0, 0, 0, 0, 0, 0, 0, 0,
                               0xEE};
    uint8_t log[sizeof answers];
    std::memset(log, 0xEE, sizeof log);
    struct qsm_played played = qsm_play(saved, trace, sizeof trace, log, sizeof log);
    expect(played.read == 5 && played.written == 36 && played.stop == QSM_CUT_RECORD, "the third record is cut");
    expect(std::memcmp(log, answers, sizeof log) == 0, "the first two are answered, the log's rest is as it was");

    uint8_t older[10] = {0x10}, newer[21] = {0x10, 0, 0, 0, 0, 0, 0, 0, 3, 1, 0x10};
    newer[20] = 0x10;
    uint64_t list[3] = {9, 9, 9};
    struct qsm_compared differ = qsm_compare(older, 10, newer, 20, list, 3);
    expect(differ.count == 1 && list[0] == 0 && list[1] == (QSM_FIELD_LEVEL | QSM_FIELD_VECTOR) && list[2] == 9, "level and vector differ");
    expect(differ.refusal == QSM_ANSWERED && differ.second && differ.start == 10 && differ.length == 10, "the second log is longer");
    list[0] = 9;
    differ = qsm_compare(older, 10, newer, 20, list, 1);
    expect(differ.refusal == QSM_NO_ROOM && differ.count == 0 && list[0] == 9, "one number is too few, and stays");
    differ = qsm_compare(older, 10, newer, 21, list, 0);
    expect(differ.refusal == QSM_CUT_RECORD && !differ.second && differ.length == 0, "a cut log is refused first");
    differ = qsm_compare(older, 9, log, 18, list, 1);
    expect(differ.refusal == QSM_UNKNOWN_KIND && differ.count == 0 && !differ.second && list[0] == 9, "kinds 10 and 11 are refused before that");

    static const uint8_t resets[] = {1, 1, 3};
    uint64_t marks[2] = {9, 9};
    struct qsm_indexed index = qsm_index_build(resets, sizeof resets, marks, 2);
    expect(index.refusal == QSM_ANSWERED && index.marks == 1 && index.records == 2 && index.stop == QSM_CUT_RECORD, "two resets have one mark");
    expect(qsm_index_find(resets, sizeof resets, marks, 2, index.marks, 1).place == 1, "the second reset is found");
    expect(qsm_index_extend(resets, 2, marks, 0, 0).refusal == QSM_NO_ROOM, "no room for a mark");

    uint8_t kept[25] = {0};
    const struct qsm_edition plain = {3, 0x0004, 0x000C, 0x8104, 0x0404}, slave = {9, 0x0004, 0x000C, 0x0104, 0x8404};
    struct qsm_editions_changed change = qsm_editions_add(kept, sizeof kept, 0, plain);
    expect(change.refusal == QSM_ANSWERED && change.used == QSM_EDITIONS_ADDED && kept[0] == 0x21 && kept[7] == 0x81, "an edition is added");
    expect(qsm_editions_add(kept, sizeof kept, change.used, plain).refusal == QSM_NO_EDITION, "an edition not above the last is refused");
    expect(qsm_editions_add(kept, sizeof kept, change.used, slave).refusal == QSM_UNMODELLED, "settings with SPE and without MSTR are refused");
    expect(qsm_editions_newest(kept, sizeof kept, change.used).edition.spcr0 == 0x8104, "the newest has the settings that were added");
    change = qsm_editions_withdraw(kept, sizeof kept, change.used, 3);
    expect(change.refusal == QSM_ANSWERED && change.used == QSM_EDITIONS_ADDED + QSM_EDITIONS_WITHDRAWN, "it is withdrawn");
    expect(qsm_editions_get(kept, sizeof kept, change.used, 3).refusal == QSM_NO_EDITION, "and not given any more");
    expect(qsm_editions_get(kept, sizeof kept, 26, 3).refusal == QSM_UNKNOWN_KIND, "zeros are no records");

    struct qsm_set_points points = {2, {3, 9}, {8, 12}, {0x5A, 0xABC}};
    struct qsm_planned planned = qsm_plan(points, 95);
    expect(planned.refusal == QSM_ANSWERED && planned.plan.clock == 95, "the quickest plan of two set-points takes 95 clocks");
    expect(qsm_plan_accepts(points, 95, planned.plan), "it is accepted");
    expect(qsm_plan(points, 94).refusal == QSM_NO_PLAN, "94 clocks are too few");
    planned.plan.words[1] ^= 1;
    expect(!qsm_plan_accepts(points, 95, planned.plan), "another word is not accepted");
    uint16_t last = qsm_plan_writes(planned.plan);
    expect(last == 7 && qsm_plan_write(planned.plan, 6).offset == QSM_SPCR1 && qsm_plan_write(planned.plan, 7).width == 0, "SPCR1 is the last of seven writes");
    struct qsm_drivers shared = qsm_drivers_new();
    expect(qsm_drivers_claim(&shared, false).refusal == QSM_NOT_YOURS, "no claim before the first reset");
    expect(qsm_drivers_reset(&shared, 0).refusal == QSM_NOT_YOURS && shared.split == 0, "a first reset needs a split");
    expect(qsm_drivers_reset(&shared, 4).refusal == QSM_ANSWERED && shared.split == 4, "which it fixes");
    expect(qsm_drivers_host_write(&shared, true, 2, QSM_SPCR0, 0x8104).refusal == QSM_ANSWERED, "the host reaches all registers");
    expect(qsm_drivers_host_read(&shared, true, 2, QSM_SPCR0).value == 0x8104, "and reads them");
    expect(qsm_drivers_read(&shared, false, true, 2, QSM_RECEIVE + 8).refusal == QSM_NOT_YOURS, "entry 4 is the spindle driver's");
    expect(qsm_drivers_read(&shared, true, true, 2, QSM_RECEIVE + 8).refusal == QSM_ANSWERED, "who reads its words");
    expect(qsm_drivers_write(&shared, false, true, 2, QSM_SPCR2, 0x0300).refusal == QSM_NOT_YOURS, "SPCR2 needs the claim");
    expect(qsm_drivers_claim(&shared, false).refusal == QSM_ANSWERED && shared.holder == 1, "which the axis driver takes");
    expect(qsm_drivers_write(&shared, false, true, 2, QSM_SPCR2, 0x0300).refusal == QSM_ANSWERED, "then it is written");
    expect(qsm_drivers_write(&shared, false, true, 2, QSM_SPCR1, 0x8404).refusal == QSM_ANSWERED, "SPE is set");
    expect(qsm_drivers_release(&shared, false).refusal == QSM_NOT_YOURS, "and there is no release");
    expect(qsm_drivers_hold(&shared, 0xFF, true, 1000).clock == 1000, "time passes");
    expect(qsm_drivers_reset(&shared, 9).refusal == QSM_ANSWERED && shared.split == 4 && shared.holder == 0, "a later reset keeps the split");

    return failed;
}
