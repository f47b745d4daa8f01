/* Measures the memory of a responder: what it holds on the heap, and how much stack it takes to make one and to hear a
 * frame. See bench/memory, which builds and calls this.
 *
 * A run stands on a stack of its own, which is painted. The last thing before the first frame is heard is an allocation:
 * there the stack below is painted again, so that what is no paint afterwards was touched by hearing frames.
 */
#include <pthread.h>
#include <stdbool.h>
#include <stdint.h>
#include <stdio.h>
#include <stdlib.h>
#include <string.h>
#include <sys/mman.h>

enum { STACK = 1 << 20, PAINT = 0xA5, MOST_BLOCKS = 64, MOST_PACKED = 64 };

/* ---- the heap: the linker gives the calls of these functions to the ones below (--wrap) */

static struct {
    void *at;
    size_t size;
} blocks[MOST_BLOCKS];
static size_t held, most_held;

static uint8_t *stack, *caller, *last_allocation;

static void *keep(void *at, void *old, size_t size)
{
    size_t place = 0;
    while (place < MOST_BLOCKS - 1 && blocks[place].at != old)
        place++;
    held += size - blocks[place].size;
    most_held = held > most_held ? held : most_held;
    blocks[place].at = size > 0 ? at : NULL;
    blocks[place].size = size;
    return at;
}

__attribute__((noinline)) static void paint_below(uint8_t *here)
{
    last_allocation = here;
    if (stack == NULL) /* no stack is measured */
        return;
    for (volatile uint8_t *place = stack; place < here - 512; place++)
        *place = PAINT;
}

void *__real_malloc(size_t size);
void *__real_realloc(void *block, size_t size);
void __real_free(void *block);

static int is_counted;

void *__wrap_malloc(size_t size)
{
    if (!is_counted)
        return __real_malloc(size);
    paint_below(__builtin_frame_address(0));
    return keep(__real_malloc(size), NULL, size);
}

void *__wrap_realloc(void *block, size_t size)
{
    if (!is_counted)
        return __real_realloc(block, size);
    paint_below(__builtin_frame_address(0));
    return keep(__real_realloc(block, size), block, size);
}

void __wrap_free(void *block)
{
    if (is_counted && block != NULL)
        keep(NULL, block, 0);
    __real_free(block);
}

/* ---- the responder: crates/rdm_bench */

struct tally {
    uint64_t bytes;
    uint64_t total;
};

uint8_t rdm_bench_run(bool own, uint16_t subs, const uint8_t *preface, size_t preface_length, const uint8_t *packed,
                      size_t length, uint32_t rounds, uint8_t reports, struct tally *tally);

uint8_t rdm_bench_make(uint16_t queue_size, uint16_t entries);

static struct {
    uint16_t subs;
    uint32_t rounds;
    uint8_t packed[MOST_PACKED];
    size_t length;
} run;

struct request {
    const char *name;
    uint16_t sub;
    uint8_t class;
    uint16_t pid;
    uint8_t length;
    uint8_t data[3];
};

/* A request of controller 7FF0:00000002 to device 7FF0:00000001. */
static void set_request(const struct request *request)
{
    uint8_t *frame = run.packed + 2;
    uint8_t header[] = {0xCC, 0x01, (uint8_t)(24 + request->length), 0x7F, 0xF0, 0, 0, 0, 1, 0x7F, 0xF0, 0, 0, 0, 2, 0, 1, 0,
                        (uint8_t)(request->sub >> 8), (uint8_t)request->sub, request->class,
                        (uint8_t)(request->pid >> 8), (uint8_t)request->pid, request->length};
    size_t length = sizeof header + request->length;
    memcpy(frame, header, sizeof header);
    memcpy(frame + sizeof header, request->data, request->length);
    uint16_t sum = 0;
    for (size_t i = 0; i < length; i++)
        sum = (uint16_t)(sum + frame[i]);
    frame[length++] = (uint8_t)(sum >> 8);
    frame[length++] = (uint8_t)sum;
    run.packed[0] = (uint8_t)(length >> 8);
    run.packed[1] = (uint8_t)length;
    run.length = length + 2;
}

static void *play(void *unused)
{
    struct tally tally;
    caller = __builtin_frame_address(0);
    is_counted = 1;
    uint8_t fault = rdm_bench_run(false, run.subs, run.packed, 0, run.packed, run.length, run.rounds, 1, &tally);
    is_counted = 0;
    if (fault != 0)
        exit(1);
    return unused;
}

static void on_its_own_stack(void)
{
    pthread_t thread;
    pthread_attr_t attributes;
    memset(stack, PAINT, STACK);
    held = most_held = 0;
    pthread_attr_init(&attributes);
    pthread_attr_setstack(&attributes, stack, STACK);
    pthread_create(&thread, &attributes, play, NULL);
    pthread_join(thread, NULL);
}

static long touched_below_the_last_allocation(void)
{
    uint8_t *place = stack;
    while (*place == PAINT)
        place++;
    return (long)(last_allocation - place);
}

/* The most stack that hearing one of these takes; the job that one starts is reported at once. */
static long deepest(void)
{
    static const struct request requests[] = {
        {"GET IDENTIFY_DEVICE", 0, 0x20, 0x1000, 0, {0}},
        {"SET IDENTIFY_DEVICE", 0, 0x30, 0x1000, 1, {1}},
        {"GET DEVICE_INFO", 0, 0x20, 0x0060, 0, {0}},
        {"GET SUPPORTED_PARAMETERS", 0, 0x20, 0x0050, 0, {0}},
        {"SET DEVICE_LABEL", 0, 0x30, 0x0082, 3, "abc"},
        {"SET FACTORY_DEFAULTS", 0, 0x30, 0x0090, 0, {0}},
        {"GET SLOT_DESCRIPTION", 0, 0x20, 0x0121, 2, {0, 1}},
        {"GET SENSOR_DEFINITION", 0, 0x20, 0x0200, 1, {0}},
        {"GET SENSOR_VALUE", 0, 0x20, 0x0201, 1, {0}},
        {"SET SENSOR_VALUE", 0, 0x30, 0x0201, 1, {0xFF}},
        {"SET LAMP_STATE", 0, 0x30, 0x0403, 1, {1}},
        {"QUEUED_MESSAGE", 0, 0x20, 0x0020, 1, {2}},
        {"STATUS_MESSAGES", 0, 0x20, 0x0030, 1, {2}},
        {"CLEAR_STATUS_ID", 0, 0x30, 0x0032, 0, {0}},
        {"SET IDENTIFY_DEVICE of all sub-devices", 0xFFFF, 0x30, 0x1000, 1, {1}},
    };
    long most = 0;
    run.rounds = 1;
    for (size_t i = 0; i < sizeof requests / sizeof *requests; i++) {
        set_request(&requests[i]);
        on_its_own_stack();
        long depth = touched_below_the_last_allocation();
        most = depth > most ? depth : most;
    }
    return most;
}

/* What making a responder with no sub-devices takes on the heap. */
static size_t heap_of(uint16_t queue_size, uint16_t entries)
{
    stack = NULL;
    held = most_held = 0;
    is_counted = 1;
    uint8_t fault = rdm_bench_make(queue_size, entries);
    is_counted = 0;
    if (fault != 0 || held != 0)
        exit(1);
    return most_held;
}

int main(void)
{
    static const uint16_t subs[] = {0, 1, 512};
    static const uint16_t sizes[][2] = {{8, 1024}, {8, 64}, {8, 1}, {1, 1}, {1024, 1024}};
    stack = mmap(NULL, STACK, PROT_READ | PROT_WRITE, MAP_PRIVATE | MAP_ANONYMOUS, -1, 0);
    if (stack == MAP_FAILED)
        return 1;
    for (size_t i = 0; i < sizeof subs / sizeof *subs; i++) {
        run.subs = subs[i];
        run.length = 0;
        on_its_own_stack();
        printf("heap, sub-devices %u\t%zu\n", subs[i], most_held);
        printf("stack to make it, sub-devices %u\t%ld\n", subs[i], (long)(caller - last_allocation));
        printf("stack to receive a frame, sub-devices %u\t%ld\n", subs[i], deepest());
    }
    for (size_t i = 0; i < sizeof sizes / sizeof *sizes; i++)
        printf("heap, queue %u, status entries %u\t%zu\n", sizes[i][0], sizes[i][1], heap_of(sizes[i][0], sizes[i][1]));
    return 0;
}
