// felosumay.h for C++17 and later: handles that free themselves, and bytes as spans. Each member makes the call of its name, and returns
// its result; none throws, and none takes memory besides the library's. A handle can be moved, not copied: what it was moved from holds
// nothing, like {}.
#ifndef FELOSUMAY_HPP
#define FELOSUMAY_HPP
#include "felosumay.h"
#include <array>
#include <cstddef>
#include <cstdint>
#include <iterator>
#include <string_view>
#include <type_traits>
#include <utility>

namespace felosumay {

using result = felosumay_result;

// The name of a result, such as "NO_ROOM"; of a parameter, such as "DMX_START_ADDRESS"; the words of a reason, such as "data out of
// range". Else "unknown".
inline std::string_view status_name(result status) noexcept { return felosumay_status_name(status); }
inline std::string_view parameter_name(std::uint16_t pid) noexcept { return felosumay_parameter_name(pid); }
inline std::string_view reason_name(std::uint16_t reason) noexcept { return felosumay_reason_name(reason); }

struct uid {
    std::uint16_t maker;
    std::uint32_t device;
};

// Bytes that it doesn't own: an array, a std::vector, a std::span or any other range of uint8_t with data() and size().
class bytes {
public:
    constexpr bytes() noexcept = default;
    constexpr bytes(const std::uint8_t *data, std::size_t size) noexcept : data_(data), size_(size) {}
    template <std::size_t N> constexpr bytes(const std::uint8_t (&array)[N]) noexcept : data_(array), size_(N) {}
    template <class Range, class = std::enable_if_t<std::is_convertible<decltype(std::declval<const Range &>().data()),
                                                                        const std::uint8_t *>::value>>
    constexpr bytes(const Range &range) noexcept : data_(range.data()), size_(range.size()) {}
    constexpr const std::uint8_t *data() const noexcept { return data_; }
    constexpr std::size_t size() const noexcept { return size_; }
    constexpr const std::uint8_t *begin() const noexcept { return data_; }
    constexpr const std::uint8_t *end() const noexcept { return data_ + size_; }

private:
    const std::uint8_t *data_ = nullptr;
    std::size_t size_ = 0;
};

// Bytes at the front of an array with room for the most that there can be.
template <std::size_t Room> struct buffer {
    std::array<std::uint8_t, Room> room{};
    std::uint64_t count = 0;
    const std::uint8_t *data() const noexcept { return room.data(); }
    std::size_t size() const noexcept { return static_cast<std::size_t>(count); }
    const std::uint8_t *begin() const noexcept { return data(); }
    const std::uint8_t *end() const noexcept { return data() + size(); }
};

using frame = buffer<FELOSUMAY_FRAME_BYTES>;
using value = buffer<FELOSUMAY_VALUE_BYTES>;

inline result read_reply(bytes heard, felosumay_reply &reply) noexcept {
    return felosumay_reply_read(heard.data(), heard.size(), &reply);
}

// The first test of a frame that the bytes fail, FELOSUMAY_FRAME_.., or FELOSUMAY_IS_FRAME.
inline std::uint8_t frame_fault(bytes heard) noexcept { return felosumay_frame_fault(heard.data(), heard.size()); }

// The first rule that a profile breaks, FELOSUMAY_FAULT_.., or FELOSUMAY_NO_FAULT.
inline std::uint8_t profile_fault(const felosumay_profile &profile) noexcept { return felosumay_profile_fault(&profile); }

// Which value of an older image, from a number on, a newer image doesn't have: what an update didn't take over.
inline result saved_left(bytes older, bytes newer, std::uint64_t from, felosumay_left &left) noexcept {
    return felosumay_saved_left(older.data(), older.size(), newer.data(), newer.size(), from, &left);
}

// What an area of flash holds; which of two areas has the newest image; and which one is erased for the next image, with the header to
// write there in front of the payload. felosumay_images.h loads and saves with them.
using image_header = std::array<std::uint8_t, FELOSUMAY_IMAGE_HEADER_BYTES>;
inline result read_image(std::uint32_t key, bytes area, felosumay_image &image) noexcept {
    return felosumay_images_read(key, area.data(), area.size(), &image);
}
inline result newest_image(const felosumay_image &first, const felosumay_image &second, std::uint8_t &area) noexcept {
    return felosumay_images_newest(&first, &second, &area);
}
inline result next_image(std::uint32_t key, const felosumay_image &first, const felosumay_image &second, bytes payload,
                         image_header &header, std::uint8_t &area) noexcept {
    return felosumay_images_next(key, &first, &second, payload.data(), payload.size(), header.data(), &area);
}

// Lend a profile the parameters of the maker's own, the PIDs of those that the fixture lacks, the names of choices, and the modes with their
// slots: from an array, a std::vector or any other range with data and size, which has to stay the same until the responder is made.
template <class Parameters> void lend_parameters(felosumay_profile &profile, const Parameters &parameters) noexcept {
    profile.parameters = std::data(parameters);
    profile.parameter_count = std::size(parameters);
}
template <class Pids> void lend_without(felosumay_profile &profile, const Pids &without) noexcept {
    profile.without = std::data(without);
    profile.without_count = std::size(without);
}
template <class Choices> void lend_choices(felosumay_profile &profile, const Choices &choices) noexcept {
    profile.choices = std::data(choices);
    profile.choice_count = std::size(choices);
}
template <class Modes, class Slots> void lend_modes(felosumay_profile &profile, const Modes &modes, const Slots &slots) noexcept {
    profile.modes = std::data(modes);
    profile.mode_count = std::size(modes);
    profile.mode_slots = std::data(slots);
    profile.mode_slot_count = std::size(slots);
}

// Extracts packets and levels from what a UART receives. It owns nothing, and may be copied.
class receiver {
public:
    void hear_break() noexcept { felosumay_receiver_break(&state_); }
    void hear_error() noexcept { felosumay_receiver_error(&state_); }
    // What a byte completes, FELOSUMAY_RECEIVED_..: `number` is how many bytes a packet has, or the slot of a level.
    std::uint8_t hear(std::uint8_t byte, std::uint16_t &number) noexcept { return felosumay_receiver_byte(&state_, byte, &number); }
    // The bytes of the packet that `hear` reported, `number` of them. They stay until the next call.
    bytes packet(std::uint16_t number) const noexcept { return bytes(state_.packet, number); }

private:
    felosumay_receiver state_{};
};

// A handle of C's that frees what it holds.
template <class Handle, void (*Free)(Handle *)> class owner {
public:
    owner() noexcept = default;
    owner(owner &&other) noexcept : handle_(std::exchange(other.handle_, Handle{})) {}
    owner &operator=(owner &&other) noexcept {
        if (this != &other) {
            Free(&handle_);
            handle_ = std::exchange(other.handle_, Handle{});
        }
        return *this;
    }
    owner(const owner &) = delete;
    owner &operator=(const owner &) = delete;
    ~owner() { Free(&handle_); }
    void free() noexcept { Free(&handle_); }
    // For the calls of felosumay.h itself.
    Handle *get() noexcept { return &handle_; }
    const Handle *get() const noexcept { return &handle_; }

private:
    Handle handle_{};
};

class responder : public owner<felosumay_responder, felosumay_responder_free> {
public:
    [[nodiscard]] result make(uid own, const felosumay_profile &profile, std::uint16_t queue_size,
                              std::uint16_t entries = 1024, std::uint32_t first_job = 0) noexcept {
        return felosumay_responder_new_with(get(), own.maker, own.device, &profile, queue_size, entries, first_job);
    }
    [[nodiscard]] result demo(uid own, std::uint16_t subs, std::uint16_t queue_size) noexcept {
        return felosumay_responder_demo(get(), own.maker, own.device, subs, queue_size);
    }
    // The reply is empty if there is none.
    [[nodiscard]] result step(bytes heard, frame &reply, felosumay_stepped &stepped) noexcept {
        result status = felosumay_responder_step(get(), heard.data(), heard.size(), reply.room.data(), &stepped);
        reply.count = stepped.replied != 0 ? stepped.count : 0;
        return status;
    }
    [[nodiscard]] result arrive(const felosumay_job &job, const felosumay_outcome &outcome, bool &kept) noexcept {
        std::uint8_t flag = 0;
        result status = felosumay_responder_arrive(get(), &job, &outcome, &flag);
        kept = flag != 0;
        return status;
    }
    [[nodiscard]] result change_start(std::uint16_t start) noexcept { return felosumay_responder_change_start(get(), start); }
    [[nodiscard]] result change_personality(std::uint8_t number) noexcept {
        return felosumay_responder_change_personality(get(), number);
    }
    [[nodiscard]] result change_label(std::string_view label) noexcept {
        return felosumay_responder_change_label(get(), reinterpret_cast<const std::uint8_t *>(label.data()), label.size());
    }
    [[nodiscard]] result room(bool &there) const noexcept {
        std::uint8_t flag = 0;
        result status = felosumay_responder_room(get(), &flag);
        there = flag != 0;
        return status;
    }
    [[nodiscard]] result place(std::uint16_t sub, std::uint16_t pid, bytes data) noexcept {
        return felosumay_responder_place(get(), sub, pid, data.data(), data.size());
    }
    [[nodiscard]] result note(std::uint16_t sub, std::uint8_t severity, std::uint16_t id, std::uint16_t v1, std::uint16_t v2,
                              bool &noted) noexcept {
        std::uint8_t flag = 0;
        result status = felosumay_responder_note(get(), sub, severity, id, v1, v2, &flag);
        noted = flag != 0;
        return status;
    }
    [[nodiscard]] result saved_size(std::uint64_t &count) const noexcept { return felosumay_responder_saved_size(get(), &count); }
    [[nodiscard]] result save(std::uint8_t *image, std::size_t size, std::uint64_t &count) const noexcept {
        return felosumay_responder_save(get(), image, size, &count);
    }
    [[nodiscard]] result restore(bytes image) noexcept { return felosumay_responder_restore(get(), image.data(), image.size()); }
    // If it is REFUSED, `reason` is that of the NACK.
    [[nodiscard]] result get_value(std::uint16_t sub, std::uint16_t pid, bytes argument, value &read,
                                   std::uint16_t &reason) const noexcept {
        return felosumay_responder_get(get(), sub, pid, argument.data(), argument.size(), read.room.data(), &read.count, &reason);
    }
    // Also the data of an order, which no GET reads.
    [[nodiscard]] result own_value(std::uint16_t pid, value &read) const noexcept {
        return felosumay_responder_own_value(get(), pid, read.room.data(), &read.count);
    }
    [[nodiscard]] result waiting(std::uint64_t &count) const noexcept { return felosumay_responder_waiting(get(), &count); }
    [[nodiscard]] result outstanding(std::uint64_t &count) const noexcept { return felosumay_responder_outstanding(get(), &count); }
    [[nodiscard]] result entries(std::uint64_t &count) const noexcept { return felosumay_responder_entries(get(), &count); }
    // A message that waits: the oldest has index 0.
    [[nodiscard]] result waiting_message(std::uint64_t index, felosumay_message &message) const noexcept {
        return felosumay_responder_waiting_message(get(), index, &message);
    }
    [[nodiscard]] result drop_oldest() noexcept { return felosumay_responder_drop_oldest(get()); }
    // The job that a worker is at.
    [[nodiscard]] result working(std::uint8_t worker, felosumay_job &job) const noexcept {
        return felosumay_responder_working(get(), worker, &job);
    }
    // In how many milliseconds the first estimate ends of the jobs that the workers are at. `deadlines` starts as {}.
    [[nodiscard]] result next_end(felosumay_deadlines &deadlines, std::uint32_t now, std::uint32_t &milliseconds) const noexcept {
        return felosumay_responder_next_end(get(), &deadlines, now, &milliseconds);
    }
};

class collector : public owner<felosumay_collector, felosumay_collector_free> {
public:
    [[nodiscard]] result make(uid own, uid target, std::uint8_t wants) noexcept {
        return felosumay_collector_new(get(), own.maker, own.device, target.maker, target.device, wants);
    }
    [[nodiscard]] result ask(const felosumay_command &command, bytes load, frame &request) noexcept {
        return felosumay_collector_ask(get(), &command, load.data(), load.size(), request.room.data(), &request.count);
    }
    [[nodiscard]] result poll(frame &request) noexcept {
        return felosumay_collector_poll(get(), request.room.data(), &request.count);
    }
    [[nodiscard]] result hear(bytes heard, felosumay_heard &as) noexcept {
        return felosumay_collector_hear(get(), heard.data(), heard.size(), &as);
    }
    [[nodiscard]] result over() noexcept { return felosumay_collector_over(get()); }
    [[nodiscard]] result next(felosumay_message &message) noexcept { return felosumay_collector_next(get(), &message); }
};

class search : public owner<felosumay_search, felosumay_search_free> {
public:
    [[nodiscard]] result make(uid own, std::uint32_t limit) noexcept {
        return felosumay_search_new(get(), own.maker, own.device, limit);
    }
    [[nodiscard]] result next(frame &request) const noexcept {
        return felosumay_search_next(get(), request.room.data(), &request.count);
    }
    [[nodiscard]] result hear(bytes heard) noexcept { return felosumay_search_hear(get(), heard.data(), heard.size()); }
    [[nodiscard]] result resume(std::uint32_t limit) noexcept { return felosumay_search_resume(get(), limit); }
    [[nodiscard]] result count(std::uint64_t &found) const noexcept { return felosumay_search_count(get(), &found); }
    [[nodiscard]] result found(std::uint64_t index, felosumay_found &fixture) const noexcept {
        return felosumay_search_found(get(), index, &fixture);
    }
    [[nodiscard]] result unsure(std::uint64_t index, felosumay_found &fixture) const noexcept {
        return felosumay_search_unsure(get(), index, &fixture);
    }
};

} // namespace felosumay

#endif
