// A fixture and a console in C++, by felosumay.hpp: a search finds the fixture, a command is rejected, a lamp is struck, and handles move;
// and a fixture with a parameter of its maker's own, and one with a mode.
#include "felosumay.hpp"
#include "felosumay_names.h"
#include <cstdio>
#include <vector>
#if __cplusplus >= 202002L
#include <span>
#endif

namespace {

constexpr felosumay::uid FIXTURE{0x7FF0, 1}, CONSOLE{0x7FF0, 2};
constexpr std::uint32_t KEY = 0x48656164; // "Head"

// Finds the fixtures of a line with one fixture, and says how many there are.
std::uint64_t discover(felosumay::responder &fixture) {
    felosumay::search search;
    felosumay::frame request, reply;
    felosumay_stepped stepped;
    std::uint64_t count = 0;
    if (search.make(CONSOLE, 76) != FELOSUMAY_DONE)
        return 0;
    while (search.next(request) == FELOSUMAY_DONE)
        if (fixture.step(request, reply, stepped) != FELOSUMAY_DONE || search.hear(reply) != FELOSUMAY_DONE)
            return 0;
    return search.count(count) == FELOSUMAY_DONE ? count : 0;
}

// A SET and its reply; a job that it starts is done at once.
felosumay_reply set(felosumay::collector &console, felosumay::responder &fixture, std::uint16_t pid, felosumay::bytes data) {
    const felosumay_command command = {FIXTURE.device, FIXTURE.maker, 0, pid, FELOSUMAY_SET};
    const felosumay_outcome done = {FELOSUMAY_JOB_DONE, 0, 0, 0, 0, 0};
    felosumay::frame request, answer;
    felosumay_stepped stepped{};
    felosumay_reply reply{};
    felosumay_heard heard{};
    bool kept = false;
    if (console.ask(command, data, request) != FELOSUMAY_DONE || fixture.step(request, answer, stepped) != FELOSUMAY_DONE ||
        console.hear(answer, heard) != FELOSUMAY_DONE || felosumay::read_reply(answer, reply) != FELOSUMAY_DONE)
        std::puts("no reply");
    if (stepped.started != 0 && fixture.arrive(stepped.job, done, kept) != FELOSUMAY_DONE)
        std::puts("astray");
    return reply;
}

// The least fixture, of which the maker adds the mode of a fan and an order to flash, and which has no lamp.
int add_parameter() {
    std::vector<felosumay_parameter> parameters(2);
    parameters[0].pid = 0x8000;
    parameters[0].kind = FELOSUMAY_DS_UNSIGNED_BYTE;
    parameters[0].commands = FELOSUMAY_CC_GET_SET;
    parameters[0].high = 2;
    parameters[0].start.count = 1;
    parameters[1] = parameters[0];
    parameters[1].pid = 0x8001;
    parameters[1].commands = FELOSUMAY_CC_SET;
    const std::uint16_t without[] = {FELOSUMAY_PID_LAMP_STATE};
    felosumay_profile profile{};
    profile.root.personality_count = profile.sub.personality_count = 1;
    profile.root.start = profile.sub.start = 1;
    profile.language_count = 1;
    felosumay::lend_parameters(profile, parameters);
    felosumay::lend_without(profile, without);

    felosumay::responder fixture;
    felosumay::value value;
    std::uint16_t reason = 0;
    const std::uint8_t fast[] = {2};
    if (felosumay::profile_fault(profile) != FELOSUMAY_NO_FAULT || fixture.make(FIXTURE, profile, 8) != FELOSUMAY_DONE ||
        fixture.place(0, 0x8000, fast) != FELOSUMAY_DONE || fixture.get_value(0, 0x8000, {}, value, reason) != FELOSUMAY_DONE)
        return 1;
    std::printf("fan mode %u\n", value.room[0]);
    felosumay::collector console;
    if (console.make(CONSOLE, FIXTURE, FELOSUMAY_STATUS_ADVISORY) != FELOSUMAY_DONE)
        return 1;
    set(console, fixture, 0x8001, fast);
    const felosumay::result asked = fixture.get_value(0, 0x8001, {}, value, reason);
    std::printf("flash: %s, %s\n", felosumay::status_name(asked).data(), felosumay::reason_name(reason).data());
    if (fixture.own_value(0x8001, value) != FELOSUMAY_DONE)
        return 1;
    std::printf("flash %u\n", value.room[0]);
    std::printf("no frame: fault %u\n", felosumay::frame_fault(fast));
    const felosumay::result lamp = fixture.get_value(0, FELOSUMAY_PID_LAMP_STATE, {}, value, reason);
    std::printf("no lamp: %s, %s\n", felosumay::status_name(lamp).data(), felosumay::reason_name(reason).data());
    parameters[0].high = -1;
    std::printf("upside down: fault %u\n", felosumay::profile_fault(profile));
    return 0;
}

// The least fixture with one more personality, which has a slot of its own.
int add_mode() {
    std::vector<felosumay_mode> modes(1);
    std::vector<felosumay_slot> slots(1);
    modes[0].footprint = 1;
    modes[0].slot_count = 1;
    slots[0].value = 0x80;
    felosumay_profile profile{};
    profile.root.personality_count = profile.sub.personality_count = 1;
    profile.root.start = profile.sub.start = 1;
    profile.language_count = 1;
    felosumay::lend_modes(profile, modes, slots);

    felosumay::responder fixture;
    felosumay::value value;
    std::uint16_t reason = 0;
    const std::uint8_t second[] = {2};
    if (fixture.make(FIXTURE, profile, 8) != FELOSUMAY_DONE ||
        fixture.place(0, FELOSUMAY_PID_DMX_PERSONALITY, second) != FELOSUMAY_DONE ||
        fixture.get_value(0, FELOSUMAY_PID_DEFAULT_SLOT_VALUE, {}, value, reason) != FELOSUMAY_DONE)
        return 1;
    std::printf("slot %u of personality 2: %u\n", value.room[1], value.room[2]);
    return 0;
}

// The first image of two bytes, which the first area holds then.
int keep_image() {
    const std::uint8_t payload[] = {1, 2};
    felosumay_image first{}, second{};
    felosumay::image_header header;
    std::uint8_t area = 7;
    if (felosumay::next_image(KEY, first, second, payload, header, area) != FELOSUMAY_DONE)
        return 1;
    std::vector<std::uint8_t> held(header.begin(), header.end());
    held.insert(held.end(), std::begin(payload), std::end(payload));
    if (felosumay::read_image(KEY, held, first) != FELOSUMAY_DONE || felosumay::newest_image(first, second, area) != FELOSUMAY_DONE)
        return 1;
    std::printf("image: area %u, check %02X%02X%02X%02X, %u bytes\n", area, held[0], held[1], held[2], held[3], first.length);
    return 0;
}

} // namespace

int main() {
    felosumay::responder made, fixture;
    felosumay::collector console;
    if (made.demo(FIXTURE, 0, 8) != FELOSUMAY_DONE || console.make(CONSOLE, FIXTURE, FELOSUMAY_STATUS_ADVISORY) != FELOSUMAY_DONE)
        return 1;
    fixture = std::move(made);
    std::uint64_t waiting = 0;
    std::printf("moved from: %s\n", felosumay::status_name(made.waiting(waiting)).data());
    std::printf("found %u\n", static_cast<unsigned>(discover(fixture)));

    const std::vector<std::uint8_t> far = {0x02, 0x01};
    felosumay_reply reply = set(console, fixture, FELOSUMAY_PID_DMX_START_ADDRESS, far);
    std::printf("%s: %s\n", felosumay::parameter_name(reply.pid).data(), felosumay::reason_name(reply.reason).data());
    const std::uint8_t on[] = {FELOSUMAY_LAMP_ON};
#if __cplusplus >= 202002L
    reply = set(console, fixture, FELOSUMAY_PID_LAMP_STATE, std::span<const std::uint8_t>(on));
#else
    reply = set(console, fixture, FELOSUMAY_PID_LAMP_STATE, on);
#endif
    std::printf("%s: type %u, %u tenths of a second\n", felosumay::parameter_name(reply.pid).data(), reply.type, reply.tenths);

    felosumay::frame request, answer;
    felosumay_stepped stepped;
    felosumay_message message;
    felosumay_heard heard{};
    if (console.poll(request) != FELOSUMAY_DONE || fixture.step(request, answer, stepped) != FELOSUMAY_DONE ||
        console.hear(answer, heard) != FELOSUMAY_DONE || console.next(message) != FELOSUMAY_DONE)
        return 1;
    std::printf("fetched %s\n", felosumay::parameter_name(message.pid).data());
    felosumay::value value;
    std::uint16_t reason = 0;
    if (fixture.get_value(0, FELOSUMAY_PID_LAMP_STATE, {}, value, reason) != FELOSUMAY_DONE)
        return 1;
    std::printf("lamp %u\n", value.room[0]);
    const felosumay::result refused = fixture.get_value(0, FELOSUMAY_PID_SENSOR_DEFINITION, far, value, reason);
    std::printf("no such sensor: %s, %s\n", felosumay::status_name(refused).data(), felosumay::reason_name(reason).data());
    return keep_image() != 0 || add_mode() != 0 ? 1 : add_parameter();
}
