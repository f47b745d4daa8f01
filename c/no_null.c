/* The header hands on no NULL: this program has functions of its own in the place of those of the library that take something to
 * read, and passes each call NULL with length 0, and then bytes that are there, which have to come as they are. */
#include "felosumay.h"
#include <stdio.h>

static const void *passed; /* what is passed to be read */
static uint64_t passed_count;
static int calls, wrong;

static felosumay_result look(const void *address, uint64_t count) {
    int is_right = count == 0 ? address != NULL && (uintptr_t)address % 8 == 0 : address == passed;
    calls++;
    if (count != passed_count || !is_right) {
        printf("the read call number %d has another address or count\n", calls);
        wrong = 1;
    }
    return FELOSUMAY_DONE;
}

/* The five lists of a profile. */
static felosumay_result look_at_lists(const void *parameters, uint64_t parameter_count, const void *without, uint64_t without_count,
                                      const void *choices, uint64_t choice_count, const void *modes, uint64_t mode_count,
                                      const void *mode_slots, uint64_t mode_slot_count) {
    look(parameters, parameter_count);
    look(without, without_count);
    look(choices, choice_count);
    look(modes, mode_count);
    return look(mode_slots, mode_slot_count);
}

uint8_t felosumay_profile_fault_nonnull(const felosumay_profile *profile, const felosumay_parameter *parameters,
                                        uint64_t parameter_count, const uint16_t *without, uint64_t without_count,
                                        const felosumay_choice *choices, uint64_t choice_count, const felosumay_mode *modes,
                                        uint64_t mode_count, const felosumay_slot *mode_slots, uint64_t mode_slot_count) {
    (void)profile;
    return look_at_lists(parameters, parameter_count, without, without_count, choices, choice_count, modes, mode_count, mode_slots,
                         mode_slot_count);
}

felosumay_result felosumay_responder_new_with_nonnull(felosumay_responder *responder, uint16_t maker, uint32_t device,
                                                      const felosumay_profile *profile, const felosumay_parameter *parameters,
                                                      uint64_t parameter_count, const uint16_t *without, uint64_t without_count,
                                                      const felosumay_choice *choices, uint64_t choice_count,
                                                      const felosumay_mode *modes, uint64_t mode_count,
                                                      const felosumay_slot *mode_slots, uint64_t mode_slot_count,
                                                      uint16_t queue_size, uint16_t entries, uint32_t first_job) {
    (void)responder, (void)maker, (void)device, (void)profile, (void)queue_size, (void)entries, (void)first_job;
    return look_at_lists(parameters, parameter_count, without, without_count, choices, choice_count, modes, mode_count, mode_slots,
                         mode_slot_count);
}

felosumay_result felosumay_responder_step_nonnull(felosumay_responder *responder, const uint8_t *bytes, uint64_t length,
                                                  uint8_t reply[FELOSUMAY_FRAME_BYTES], felosumay_stepped *stepped) {
    (void)responder, (void)reply, (void)stepped;
    return look(bytes, length);
}

felosumay_result felosumay_responder_change_label_nonnull(felosumay_responder *responder, const uint8_t *label, uint64_t length) {
    (void)responder;
    return look(label, length);
}

felosumay_result felosumay_responder_place_nonnull(felosumay_responder *responder, uint16_t sub, uint16_t pid, const uint8_t *data,
                                                   uint64_t length) {
    (void)responder, (void)sub, (void)pid;
    return look(data, length);
}

felosumay_result felosumay_responder_restore_nonnull(felosumay_responder *responder, const uint8_t *image, uint64_t length) {
    (void)responder;
    return look(image, length);
}

felosumay_result felosumay_images_read_nonnull(uint32_t key, const uint8_t *bytes, uint64_t length, felosumay_image *image) {
    (void)key, (void)image;
    return look(bytes, length);
}

felosumay_result felosumay_images_next_nonnull(uint32_t key, const felosumay_image *first, const felosumay_image *second,
                                               const uint8_t *payload, uint64_t length, uint8_t header[FELOSUMAY_IMAGE_HEADER_BYTES],
                                               uint8_t *area) {
    (void)key, (void)first, (void)second, (void)header, (void)area;
    return look(payload, length);
}

felosumay_result felosumay_responder_get_nonnull(const felosumay_responder *responder, uint16_t sub, uint16_t pid,
                                                 const uint8_t *argument, uint64_t length, uint8_t value[FELOSUMAY_VALUE_BYTES],
                                                 uint64_t *count, uint16_t *reason) {
    (void)responder, (void)sub, (void)pid, (void)value, (void)count, (void)reason;
    return look(argument, length);
}

uint8_t felosumay_frame_fault_nonnull(const uint8_t *bytes, uint64_t length) {
    return look(bytes, length);
}

felosumay_result felosumay_reply_read_nonnull(const uint8_t *bytes, uint64_t length, felosumay_reply *reply) {
    (void)reply;
    return look(bytes, length);
}

felosumay_result felosumay_collector_ask_nonnull(felosumay_collector *collector, const felosumay_command *command,
                                                 const uint8_t *load, uint64_t length, uint8_t request[FELOSUMAY_FRAME_BYTES],
                                                 uint64_t *count) {
    (void)collector, (void)command, (void)request, (void)count;
    return look(load, length);
}

felosumay_result felosumay_collector_hear_nonnull(felosumay_collector *collector, const uint8_t *bytes, uint64_t length,
                                                  felosumay_heard *heard) {
    (void)collector, (void)heard;
    return look(bytes, length);
}

felosumay_result felosumay_search_hear_nonnull(felosumay_search *search, const uint8_t *bytes, uint64_t length) {
    (void)search;
    return look(bytes, length);
}

static felosumay_profile profile;
static felosumay_parameter parameters[2];
static const uint8_t bytes[3] = {1, 2, 3};

/* Each call with what is passed. */
static void call_each(void) {
    const uint8_t *read = (const uint8_t *)passed;
    uint64_t count = passed_count;
    profile.parameters = (const felosumay_parameter *)passed;
    profile.without = (const uint16_t *)passed;
    profile.choices = (const felosumay_choice *)passed;
    profile.modes = (const felosumay_mode *)passed;
    profile.mode_slots = (const felosumay_slot *)passed;
    profile.parameter_count = profile.without_count = profile.choice_count = profile.mode_count = profile.mode_slot_count = count;
    felosumay_profile_fault(&profile);
    felosumay_responder_new(NULL, 0, 0, &profile, 0);
    felosumay_responder_new_with(NULL, 0, 0, &profile, 0, 0, 0);
    felosumay_responder_step(NULL, read, count, NULL, NULL);
    felosumay_responder_change_label(NULL, read, count);
    felosumay_responder_place(NULL, 0, 0, read, count);
    felosumay_responder_restore(NULL, read, count);
    felosumay_images_read(0, read, count, NULL);
    felosumay_images_next(0, NULL, NULL, read, count, NULL, NULL);
    felosumay_responder_get(NULL, 0, 0, read, count, NULL, NULL, NULL);
    felosumay_frame_fault(read, count);
    felosumay_reply_read(read, count, NULL);
    felosumay_collector_ask(NULL, NULL, read, count, NULL, NULL);
    felosumay_collector_hear(NULL, read, count, NULL);
    felosumay_search_hear(NULL, read, count);
}

int main(void) {
    call_each();
    passed = bytes;
    call_each(); /* no bytes of three that are there */
    passed_count = 3;
    call_each();
    passed = parameters;
    passed_count = 2;
    call_each();
    if (calls != 4 * 27)
        printf("%d calls, not 4 times 27\n", calls);
    return wrong != 0 || calls != 4 * 27;
}
