/* The port's side. Its functions are those of the kit's module, with __ for ::. A struct is passed by its address, a
   lent list by the address of its place and length; where a struct is returned, its address comes first. */
#include "../bench.h"
#include "layout.h" /* made of the module by layout.awk */
#include <stdint.h>
#include <stdio.h>
#include <stdlib.h>
#include <string.h>

typedef struct { _Alignas(4) uint8_t bytes[state_sound__sound_arg0]; } State;
typedef struct { _Alignas(4) uint8_t bytes[driver_start__start_arg3]; } Driver;
typedef struct { uint8_t bits; } Events;
typedef struct { uint32_t *at; uint64_t length; } List;
typedef struct { uint8_t *at; uint64_t length; } Bytes;
typedef struct {
    uint8_t requested, index, incoming, ep_type;
    uint16_t max_packet_size;
    uint8_t interval_ms, max_burst;
    uint16_t max_streams;
    uint8_t mult;
} Request;

/* An answer's kind is its place in the enum, and 0 is a refusal. */
typedef struct { uint8_t kind, refusal; } Answer;
typedef struct { uint8_t kind, value; } Query; /* a flag or an event */
typedef struct { uint8_t kind; uint32_t value; } Number;
typedef struct { uint8_t kind; uint64_t value; } Moved;
typedef struct { uint8_t kind; uint32_t config[4]; } Allocated;
typedef struct { uint8_t bus; uint16_t slots; } Wakes;

typedef struct { Answer answer; Driver driver; } NewResult;
typedef struct { Allocated answer; Driver driver; } AllocateResult;
typedef struct { State state; Answer answer; Events events; Wakes wakes; } StartResult;
typedef struct { State state; Answer answer; uint64_t end; Wakes wakes; } Result; /* of begin, the orders and power */
typedef struct { State state; Number answer; Wakes wakes; } TakeResult;
typedef struct { State state; Number answer; uint64_t end; Wakes wakes; } AbandonResult;
typedef struct { State state; Moved answer; uint64_t end; Wakes wakes; } MoveResult;
typedef struct { State state; Moved answer; Wakes wakes; } MovedResult;
typedef struct { State state; uint64_t end; } Ended; /* of the report and the bus reset */
typedef struct { Answer answer; Events events; Wakes wakes; } RaiseResult;
typedef struct { Query answer; Events events; Wakes wakes; } PollResult;
typedef struct { Query answer; Wakes wakes; } QueryResult;

typedef struct { State state; Events events; Answer answer; uint64_t end; Wakes wakes; } InterruptResult;
typedef struct { uint8_t kind; _Alignas(4) uint8_t bytes[16]; } Reading; /* what it holds begins at a multiple of 4 */
typedef struct { uint8_t setup, status, transfer; uint32_t endpoint; uint8_t incoming, others[4]; } TransferStatus;

/* A call as the module has it. It doesn't compile where a struct here has another size than there. */
#define CALL(name, result, ...) \
    _Static_assert(sizeof(result) == name##_result, "the layout of what " #name " returns"); \
    void name(result *, __VA_ARGS__)
/* The same, and the state is the first part of what is returned. */
#define STATE_CALL(name, result, ...) \
    _Static_assert(offsetof(result, state) == name##_state, "where the state lies in what " #name " returns"); \
    CALL(name, result, __VA_ARGS__)
_Static_assert(sizeof(Request) == driver_allocate__allocate_arg3, "the layout of a request");
_Static_assert(sizeof(Events) == state_sound__sound_arg1, "the layout of the events");

_Static_assert(sizeof(State) == state__fresh__fresh_result, "the layout of the state");
void state__fresh__fresh(State *);
CALL(driver_new__new, NewResult, uint32_t address, uint32_t length);
CALL(driver_allocate__allocate, AllocateResult, const Driver *, _Bool incoming, const Request *);
STATE_CALL(driver_start__start, StartResult, const State *, const Events *, const Driver *, uint16_t size);
STATE_CALL(transfer_begin__begin, Result, const List *, const State *, const Events *, uint8_t index, _Bool incoming,
    uint32_t address, uint32_t length, _Bool zlp, _Bool too_long, _Bool unfit);
STATE_CALL(transfer_report__report, Ended, const List *, uint64_t at, const State *, uint8_t index, _Bool incoming,
    uint32_t packets, uint32_t last);
STATE_CALL(transfer_take__take, TakeResult, const State *, const Events *, uint8_t index, _Bool incoming, _Bool unfit,
    uint32_t most);
STATE_CALL(transfer_abandon__abandon, AbandonResult, const List *, const State *, const Events *, uint8_t index, _Bool incoming);
STATE_CALL(endpoint_send__send, MoveResult, const List *, const State *, const Events *, uint8_t index, _Bool single,
    _Bool needs_zlp, const Bytes *, uint32_t address, const Bytes *own, uint32_t own_address, uint64_t position);
STATE_CALL(endpoint_sent__sent, MovedResult, const State *, const Events *, uint8_t index, _Bool single, _Bool needs_zlp,
    const Bytes *, const Bytes *own, uint32_t own_address, uint64_t position);
STATE_CALL(endpoint_receive__receive, MoveResult, const List *, const State *, const Events *, uint8_t index, _Bool single,
    const Bytes *, uint32_t address, const Bytes *own, uint32_t own_address, uint64_t position);
STATE_CALL(endpoint_received__received, MovedResult, const State *, const Events *, uint8_t index, _Bool single,
    const Bytes *, const Bytes *own, uint32_t own_address, uint64_t position);
STATE_CALL(bus_order__endpoint_set_stalled, Result, const List *, const State *, const Events *, uint8_t index,
    _Bool incoming, _Bool stalled);
STATE_CALL(bus_order__endpoint_set_enabled, Result, const List *, const State *, const Events *, uint8_t index,
    _Bool incoming, _Bool enabled);
CALL(bus_query__is_stalled, QueryResult, const State *, const Events *, uint8_t index, _Bool incoming);
CALL(bus_query__is_enabled, QueryResult, const State *, const Events *, uint8_t index, _Bool incoming);
STATE_CALL(bus_power_on__power_on, Result, const List *, const State *, const Events *, uint32_t revision);
STATE_CALL(bus_power_off__power_off, Result, const List *, const State *, const Events *);
STATE_CALL(bus_reset__bus_reset, Ended, const List *, uint64_t at, const State *);
CALL(bus_events__raise, RaiseResult, const State *, const Events *, uint8_t event);
CALL(bus_events__poll, PollResult, const State *, const Events *);
STATE_CALL(interrupt_begin__interrupt, InterruptResult, const List *, const State *, const Events *);
CALL(interrupt__answer, InterruptResult, const List *, const State *, const Events *, const Reading *);
_Static_assert(sizeof(Reading) == interrupt__answer_arg4, "the layout of a reading");
_Bool state_sound__sound(const State *, const Events *);

enum { BULK = 2, RESET = 1, POWER = 8, REVISION = 3, WIDTH = 5 };
enum { OWN = 1024, OWN_IN = 0x200A0000 + 512, OWN_OUT = OWN_IN + OWN }; /* the own buffers of endpoint 1 */
enum { MEMORY = 0x200A0000, PIECE = 0x200B0000, SHORT = 8 * 1024, LONG = 2 * 255 * 1024 };

static uint32_t numbers[640];
static const List list = {numbers, 640};
static uint8_t memory[SHORT], own_memory[OWN];
static const Bytes own = {own_memory, OWN};
static const Events events = {POWER}, two = {POWER | RESET};
static Driver driver;
static State fresh, off, on; /* never started; started; powered on, with its endpoints enabled */
static int records = -1;

static void want(int met, const char *what) {
    if (met) return;
    fprintf(stderr, "the port doesn't answer as the row wants: %s\n", what);
    exit(1);
}
/* So many records, by where the list ends. */
static void want_records(uint64_t end, int wanted, const char *what) {
    want(end == (uint64_t)wanted * WIDTH, what);
    records = wanted;
}
static int is(const char *row, const char *name) { return !strcmp(row, name); }

void side_setup(int slots) {
    static NewResult made;
    static AllocateResult given;
    static StartResult started;
    static Result r;
    driver_new__new(&made, MEMORY, 0x4000);
    want(made.answer.kind == 1, "making a driver");
    driver = made.driver;
    for (int i = 0; i < slots; i++) {
        Request request = {1, i / 2 + 1, i % 2 == 0, BULK, 1024, 0, 0, 0, 0};
        driver_allocate__allocate(&given, &driver, request.incoming, &request);
        want(given.answer.kind == 1, "allocating an endpoint");
        driver = given.driver;
    }
    state__fresh__fresh(&fresh);
    driver_start__start(&started, &fresh, &events, &driver, 512);
    want(started.answer.kind == 1 && started.events.bits == POWER, "starting");
    off = started.state;
    bus_power_on__power_on(&r, &list, &off, &events, REVISION);
    want(r.answer.kind == 1 && r.wakes.bus == 1 && r.wakes.slots == 0xFFFF, "power on");
    on = r.state;
    for (int i = 0; i < slots; i++) {
        bus_order__endpoint_set_enabled(&r, &list, &on, &events, i / 2 + 1, i % 2 == 0, 1);
        want(r.answer.kind == 1, "enabling an endpoint");
        on = r.state;
    }
}

/* The state with a transfer begun. */
static State begun(State s, int index, int incoming, uint32_t length) {
    static Result r;
    transfer_begin__begin(&r, &list, &s, &events, index, incoming, PIECE, length, 0, 0, 0);
    want(r.answer.kind == 1, "a transfer begun before the call");
    return r.state;
}

enum { LINK_FLAGS, LINK_STATUS, TRANSFER_STATUS = 4, SETUP_BYTES, CHAIN_PACKETS = 8, LAST_LENGTH };
enum { AWAITS = 1, ENDED = 2 };

static Reading numbered(int kind, uint32_t number) {
    Reading reading = {kind, {0}};
    memcpy(reading.bytes, &number, sizeof number);
    return reading;
}

/* A whole interrupt in which the link has nothing to say: the transfer status, then what follows it. */
static void converse(State s, TransferStatus status, int followers, const Reading *follows, int wanted, const char *row) {
    static InterruptResult r[6];
    Reading flags = {LINK_FLAGS, {0}}, link = {LINK_STATUS, {0, 1, 0}}, transfer = {TRANSFER_STATUS, {0}};
    memcpy(transfer.bytes, &status, sizeof status);
    bench_on();
    interrupt_begin__interrupt(&r[0], &list, &s, &events);
    interrupt__answer(&r[1], &list, &r[0].state, &r[0].events, &flags);
    interrupt__answer(&r[2], &list, &r[1].state, &r[1].events, &link);
    interrupt__answer(&r[3], &list, &r[2].state, &r[2].events, &transfer);
    for (int i = 0; i < followers; i++) interrupt__answer(&r[4 + i], &list, &r[3 + i].state, &r[3 + i].events, &follows[i]);
    bench_off();
    uint64_t end = 0;
    for (int i = 0; i < 4 + followers; i++) {
        want(r[i].answer.kind == (i < 3 + followers ? AWAITS : ENDED), row);
        end += r[i].end;
    }
    want_records(end, wanted, row);
}

int side_run(const char *row) {
    static Result r;
    static Ended ended;
    static State s;
    s = on;
    if (is(row, "empty")) {
        bench_on();
        bench_off();
        records = 0;
    } else if (is(row, "begin_in") || is(row, "begin_out") || is(row, "begin_out_busy")) {
        int incoming = is(row, "begin_in"), busy = is(row, "begin_out_busy");
        if (busy)
            for (int e = 2; e <= 7; e++) s = begun(s, e, 0, SHORT);
        bench_on();
        transfer_begin__begin(&r, &list, &s, &events, 1, incoming, PIECE, SHORT, 0, 0, 0);
        bench_off();
        want(r.answer.kind == 1, row);
        want_records(r.end, incoming ? 5 : busy ? 11 : 5, row);
    } else if (is(row, "report_in_on") || is(row, "report_in_done")) {
        int on = is(row, "report_in_on");
        s = begun(s, 1, 1, on ? LONG : SHORT);
        bench_on();
        transfer_report__report(&ended, &list, 0, &s, 1, 1, 0, 0);
        bench_off();
        want_records(ended.end, on ? 6 : 1, row);
    } else if (is(row, "report_out_on") || is(row, "report_out_done")) {
        int on = is(row, "report_out_on");
        s = begun(s, 1, 0, on ? LONG : SHORT);
        bench_on();
        transfer_report__report(&ended, &list, 0, &s, 1, 0, on ? 255 : 8, 1024);
        bench_off();
        want_records(ended.end, on ? 6 : 1, row);
    } else if (is(row, "irq_in_on") || is(row, "irq_in_done")) {
        int on = is(row, "irq_in_on");
        s = begun(s, 1, 1, on ? LONG : SHORT);
        converse(s, (TransferStatus){0, 0, 1, 1, 1, {0}}, 0, NULL, on ? 6 : 1, row);
    } else if (is(row, "irq_out_on") || is(row, "irq_out_done")) {
        int on = is(row, "irq_out_on");
        Reading follows[2] = {numbered(CHAIN_PACKETS, on ? 255 : 8), numbered(LAST_LENGTH, 1024)};
        s = begun(s, 1, 0, on ? LONG : SHORT);
        converse(s, (TransferStatus){0, 0, 1, 1, 0, {0}}, 2, follows, on ? 6 : 1, row);
    } else if (is(row, "irq_setup")) {
        Reading bytes = {SETUP_BYTES, {0x80, 6, 0, 1, 0, 0, 18, 0}};
        converse(s, (TransferStatus){1, 0, 0, 0, 0, {0}}, 1, &bytes, 3, row);
    } else if (is(row, "irq_status")) {
        converse(s, (TransferStatus){0, 1, 0, 0, 0, {0}}, 0, NULL, 4, row);
    } else if (is(row, "take_busy") || is(row, "take_done")) {
        static TakeResult t;
        int done = is(row, "take_done");
        s = begun(s, 1, 1, SHORT);
        if (done) {
            transfer_report__report(&ended, &list, 0, &s, 1, 1, 0, 0);
            s = ended.state;
        }
        bench_on();
        transfer_take__take(&t, &s, &events, 1, 1, 0, UINT32_MAX);
        bench_off();
        want(done ? t.answer.kind == 2 && t.answer.value == SHORT : t.answer.kind == 1, row);
        want_records(0, 0, row);
    } else if (is(row, "send") || is(row, "send_copied") || is(row, "sent") || is(row, "receive") || is(row, "received")) {
        /* of what isn't reached a packet is copied, by way of the own buffer */
        static MoveResult m;
        static MovedResult t;
        int incoming = row[0] == 's', far = is(row, "send_copied") || is(row, "received");
        int taken = is(row, "sent") || is(row, "received");
        uint32_t at = far ? 1 : PIECE, length = far ? OWN : SHORT;
        Bytes bytes = {memory, length};
        if (!taken) bench_on();
        if (incoming) endpoint_send__send(&m, &list, &s, &events, 1, 0, 0, &bytes, at, &own, OWN_IN, 0);
        else endpoint_receive__receive(&m, &list, &s, &events, 1, 0, &bytes, at, &own, OWN_OUT, 0);
        if (!taken) bench_off();
        want(m.answer.kind == 1 && m.answer.value == length, row);
        if (taken) {
            transfer_report__report(&ended, &list, 0, &m.state, 1, incoming, far ? 1 : 8, 1024);
            s = ended.state;
            bench_on();
            if (incoming) endpoint_sent__sent(&t, &s, &events, 1, 0, 0, &bytes, &own, OWN_IN, 0);
            else endpoint_received__received(&t, &s, &events, 1, 0, &bytes, &own, OWN_OUT, 0);
            bench_off();
            want(t.answer.kind == 4 && t.answer.value == length, row);
        }
        want_records(taken ? 0 : m.end, taken ? 0 : 5, row);
    } else if (is(row, "abandon_busy") || is(row, "abandon_idle")) {
        static AbandonResult a;
        int busy = is(row, "abandon_busy");
        if (busy) s = begun(s, 1, 1, SHORT);
        bench_on();
        transfer_abandon__abandon(&a, &list, &s, &events, 1, 1);
        bench_off();
        want(a.answer.kind == 1 && a.answer.value == (busy ? 100 : 0), row);
        want_records(a.end, busy ? 3 : 0, row);
    } else if (is(row, "stall_idle") || is(row, "stall_busy") || is(row, "unstall")) {
        int stalled = !is(row, "unstall"), busy = is(row, "stall_busy");
        if (busy) s = begun(s, 1, 1, SHORT);
        bench_on();
        bus_order__endpoint_set_stalled(&r, &list, &s, &events, 1, 1, stalled);
        bench_off();
        want(r.answer.kind == 1 && r.wakes.slots == 1 << 3, row);
        want_records(r.end, !stalled ? 4 : busy ? 5 : 2, row);
    } else if (is(row, "enable") || is(row, "disable")) {
        int enabled = is(row, "enable");
        bench_on();
        bus_order__endpoint_set_enabled(&r, &list, &s, &events, 1, 1, enabled);
        bench_off();
        want(r.answer.kind == 1 && r.wakes.slots == 1 << 3, row);
        want_records(r.end, enabled ? 10 : 5, row);
    } else if (is(row, "is_stalled") || is(row, "is_enabled")) {
        QueryResult query;
        int enabled = is(row, "is_enabled");
        bench_on();
        if (enabled) bus_query__is_enabled(&query, &s, &events, 1, 1);
        else bus_query__is_stalled(&query, &s, &events, 1, 1);
        bench_off();
        want(query.answer.kind == 1 && query.answer.value == enabled, row);
        want_records(0, 0, row);
    } else if (is(row, "power_on")) {
        s = off;
        bench_on();
        bus_power_on__power_on(&r, &list, &s, &events, REVISION);
        bench_off();
        want(r.answer.kind == 1, row);
        want_records(r.end, 127, row);
    } else if (is(row, "power_off")) {
        bench_on();
        bus_power_off__power_off(&r, &list, &s, &events);
        bench_off();
        want(r.answer.kind == 2, row);
        want_records(r.end, 8, row);
    } else if (is(row, "start")) {
        static StartResult started;
        bench_on();
        driver_start__start(&started, &fresh, &events, &driver, 512);
        bench_off();
        want(started.answer.kind == 1 && started.events.bits == POWER, row);
        want_records(0, 0, row);
    } else if (is(row, "bus_reset")) {
        bench_on();
        bus_reset__bus_reset(&ended, &list, 0, &s);
        bench_off();
        want_records(ended.end, 83, row);
    } else if (is(row, "raise")) {
        RaiseResult raised;
        bench_on();
        bus_events__raise(&raised, &s, &events, RESET);
        bench_off();
        want(raised.answer.kind == 1 && raised.events.bits == two.bits, row);
        want_records(0, 0, row);
    } else if (is(row, "poll")) {
        PollResult polled;
        bench_on();
        bus_events__poll(&polled, &s, &two);
        bench_off();
        want(polled.answer.kind == 2 && polled.answer.value == 0 && polled.events.bits == RESET, row);
        want_records(0, 0, row);
    } else if (is(row, "sound") || is(row, "sound_busy")) {
        if (is(row, "sound_busy"))
            for (int i = 2; i < 16; i++) s = begun(s, i / 2, i % 2, SHORT);
        bench_on();
        _Bool sound = state_sound__sound(&s, &events);
        bench_off();
        want(sound, row);
        want_records(0, 0, row);
    } else if (is(row, "copy")) {
        void *(*volatile copy)(void *, const void *, size_t) = memcpy; /* not put in place by the compiler */
        bench_on();
        copy(&s, &off, sizeof s);
        bench_off();
        want(!memcmp(&s, &off, sizeof s), row);
        want_records(0, 0, row);
    } else {
        return 1;
    }
    return 0;
}

int side_records(void) { return records; }
size_t side_state_size(void) { return sizeof(State); }
