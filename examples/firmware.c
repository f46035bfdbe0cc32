/*
 * A dash's main loop over the bridge, on a simulated bus.
 *
 * The dash (number 0) reads 128 bytes of table 7 of a device (number 5) and writes 20 bytes into its table 3. The bus loses
 * one reply, delivers another late, and carries frames of a third device (number 9). Then the bytes that the
 * bridge shows are compared with the device's tables; the program exits 1 where they differ.
 * Then come three checked writes: the device takes what it is sent, is unplugged, and misses a CMD. A plain write would be done in all
 * three, since that means sent, no more.
 * Then comes a slow answer to a read that was closed meanwhile, which no other read may take for its own: a slot rests for 60 turns after
 * each REQ, so the next reads get other slots. Once all free slots rest an opening is refused with number 19; the dash takes turns and tries
 * again.
 * Then a board (number 2) asks the device the same twice, once with a reserved bit of the request set. It gets the same answer; the device
 * keeps count of each sender's requests, and of those whose reserved bits were clear.
 * Then the dash tunes: it writes today's map into table 3 and burns it; a BURN of table 7, which is read only, is refused; then it writes
 * another map and does not burn that. The device is switched off and loses its working memory; at power-up its host loads that from flash. The
 * dash reads today's map, not yesterday's, and table 7 is as at the start.
 * Up to here the device is of family 3. Last, it is a Megasquirt-2 (family 2), which keeps a single table in working memory. The dash writes a map into
 * table 3, does not burn it and reads table 7: table 3 then has the map burnt before. It writes another map, burns that and reads table 7: it is kept.
 *
 *     gcc -std=c11 -Iinclude examples/firmware.c crates/honeygimlet/out/libhoneygimlet.a -o target/firmware
 */
#include "honeygimlet.h"

#include <inttypes.h>
#include <stdbool.h>
#include <stdio.h>
#include <stdlib.h>
#include <string.h>

enum { DASH = 0, BOARD = 2, DEVICE = 5, OTHER = 9 };
enum { READ_TABLE = 7, READ_OFFSET = 64, READ_COUNT = 128 };
enum { WRITE_TABLE = 3, WRITE_OFFSET = 6, WRITE_COUNT = 20 };
enum { MAP_COUNT = 12 }; /* bytes of a fuel map, at WRITE_OFFSET of table 3 */

/* ---- The bus: every frame reaches every node but its sender, some turns after it was sent ---- */

typedef struct {
    unsigned due; /* the turn in which it arrives */
    uint8_t sender;
    hg_frame frame;
} bus_event;

static bus_event bus[64];
static size_t bus_count;

static void bus_send(unsigned due, uint8_t sender, hg_frame frame)
{
    if (bus_count == sizeof bus / sizeof bus[0]) {
        puts("the bus is full");
        exit(1);
    }
    bus[bus_count++] = (bus_event){due, sender, frame};
}

/* Takes the oldest frame that is due. */
static bool bus_take(unsigned turn, bus_event *event)
{
    for (size_t i = 0; i < bus_count; i++) {
        if (bus[i].due <= turn) {
            *event = bus[i];
            bus_count--;
            memmove(&bus[i], &bus[i + 1], (bus_count - i) * sizeof bus[0]);
            return true;
        }
    }
    return false;
}

/* ---- The device: a table holder, and its host ---- */

static hg_directory directory; /* all tables empty at first */
static hg_holder_state state; /* the family, and the current table */
static uint8_t memory[512 + 32], flash[512 + 32]; /* working memory, and flash of the same layout */
static uint8_t *const write_table = memory, *const write_flash = flash;         /* table 3: 32 bytes, read and write */
static uint8_t *const read_table = memory + 32, *const read_flash = flash + 32; /* table 7: 512 bytes, read only */

static bool unplugged;  /* nothing reaches the device */
static unsigned missed; /* which CMD from now on the device misses, counted from 1; 0: none */
static unsigned slow;   /* how many turns late its next reply is */
static unsigned answered[16], clear[16]; /* each sender's requests that it answered, and those of them whose reserved bits were clear */

/* At power-up the host loads working memory from flash, and no table is current. */
static void power_up(uint8_t family)
{
    hg_first_state fresh = hg_bus_first_state(family);
    if (fresh.number != 0) {
        printf("the family is refused with number %u\n", fresh.number);
        exit(1);
    }
    state = fresh.state;
    memcpy(memory, flash, sizeof memory);
    unplugged = false;
}

/* Switched off, working memory is lost; flash is not. */
static void switch_off(void)
{
    memset(memory, 0xFF, sizeof memory);
    unplugged = true;
}

/* Flash has yesterday's map. */
static void device_start(void)
{
    directory.own = DEVICE;
    directory.sizes[WRITE_TABLE] = 32;
    directory.rights[WRITE_TABLE] = 2;
    directory.sizes[READ_TABLE] = 512;
    directory.rights[READ_TABLE] = 1;
    memcpy(write_flash + WRITE_OFFSET, "fuel map old", MAP_COUNT);
    for (size_t i = 0; i < 512; i++)
        read_flash[i] = (uint8_t)(i * 7 + 3);
    power_up(3);
}

/* Serves a frame. The third reply is lost, the sixth arrives 25 turns late. */
static void device_frame(unsigned turn, hg_frame frame)
{
    static unsigned replies;
    hg_parts parts = hg_bus_unpack(frame.id).parts;
    if (unplugged)
        return;
    if (missed && parts.kind == HG_CMD && --missed == 0) {
        printf("turn %3u  device  misses 0x%08" PRIX32 "\n", turn, frame.id);
        return;
    }
    hg_holder_answer answer = hg_bus_serve(directory, state, memory, sizeof memory, flash, sizeof flash, frame);
    hg_served served = answer.served;
    state = answer.state; /* after a refusal too: then it is as it was */
    if (parts.kind == HG_BURN) /* answered 0, a real host now writes the table to its flash chip, before the acknowledgement goes out */
        printf("turn %3u  device  %s table %u, number %u\n", turn, served.number == 0 ? "burns" : "does not burn", parts.table, served.number);
    if (!served.frames)
        return;
    if (parts.kind == HG_REQ) {
        answered[parts.from]++;
        clear[parts.from] += served.clear;
    }
    replies++;
    if (replies == 3)
        printf("turn %3u  bus     loses the reply 0x%08" PRIX32 "\n", turn, served.frame.id);
    else
        bus_send(turn + (replies == 6 ? 25 : 1) + slow, DEVICE, served.frame);
    slow = 0;
}

/* ---- The third device ---- */

static void other_sends(unsigned turn, hg_parts parts, uint8_t len)
{
    hg_packed packed = hg_bus_pack(parts);
    hg_frame frame = {packed.id, len, {0xEE, 0xEE, 0xEE, 0xEE, 0xEE, 0xEE, 0xEE, 0xEE}};
    if (packed.number == 0)
        bus_send(turn, OTHER, frame);
}

static void other_turn(unsigned turn)
{
    if (turn == 2) /* the place and length that the dash awaits, but not its device: 17 */
        other_sends(turn, (hg_parts){.offset = 0, .kind = HG_RSP, .from = OTHER, .to = DASH, .table = 6}, 8);
    if (turn == 4) /* the device and place, but another length: 17 */
        other_sends(turn, (hg_parts){.offset = 8, .kind = HG_RSP, .from = DEVICE, .to = DASH, .table = 6}, 5);
    if (turn == 6) /* a request, which the dash does not serve: 5 */
        other_sends(turn, (hg_parts){.offset = 0, .kind = HG_REQ, .from = OTHER, .to = DASH, .table = 6}, 3);
    if (turn == 9) /* to somebody else: 4 */
        other_sends(turn, (hg_parts){.offset = 0, .kind = HG_RSP, .from = OTHER, .to = 1, .table = 6}, 8);
}

/* ---- The board: asks the device too, and keeps the last reply to it ---- */

static hg_frame board_got;

/* Asks for two bytes of table 7, with bits set in the third request byte that packing leaves 0. */
static void board_asks(unsigned turn, uint16_t offset, uint8_t bits)
{
    hg_packed packed = hg_bus_pack((hg_parts){.offset = offset, .kind = HG_REQ, .from = BOARD, .to = DEVICE, .table = READ_TABLE});
    hg_request_bytes asked = hg_bus_request_bytes((hg_request){.table = 6, .count = 2, .offset = 128});
    hg_frame frame = {packed.id, 3, {asked.bytes[0], asked.bytes[1], asked.bytes[2] | bits}};
    printf("turn %3u  board   REQ 0x%08" PRIX32 ": request bytes %02X %02X %02X\n", turn, frame.id, frame.bytes[0], frame.bytes[1],
           frame.bytes[2]);
    board_got = (hg_frame){0};
    if (packed.number == 0 && asked.number == 0)
        bus_send(turn + 1, BOARD, frame);
}

static void board_frame(hg_frame frame)
{
    hg_parts parts = hg_bus_unpack(frame.id).parts;
    if (parts.to == BOARD && parts.kind == HG_RSP)
        board_got = frame;
}

/* ---- The dash: one bridge and its two buffers, in the loop's own storage ---- */

static hg_bridge bridge;
static uint8_t first[HG_BUFFER], second[HG_BUFFER]; /* the second has what checked writes send */
static unsigned turn;
static hg_frame extended; /* the last XTND to the dash */

static void reset(void)
{
    hg_changed fresh = hg_bridge_reset(bridge, DASH);
    if (fresh.number != 0) {
        printf("reset refused with number %u\n", fresh.number);
        exit(1);
    }
    bridge = fresh.bridge;
}

/* The slot that a ticket's transfer holds. */
static unsigned slot_of(uint32_t ticket)
{
    unsigned k = 0;
    while (k < 3 && bridge.slots[k].ticket != ticket)
        k++;
    return k;
}

static uint32_t opened(const char *what, hg_opened answer)
{
    if (answer.number != 0) {
        printf("%s refused with number %u\n", what, answer.number);
        exit(1);
    }
    bridge = answer.bridge;
    printf("          dash    opens a %s, ticket %" PRIu32 ", slot %u\n", what, answer.ticket, slot_of(answer.ticket));
    return answer.ticket;
}

static bool closed(uint32_t ticket)
{
    uint8_t number = hg_bridge_close_in_place(&bridge, ticket);
    printf("          dash    closes ticket %" PRIu32 ", number %u\n", ticket, number);
    return number == 0;
}

static void dash_turn(void)
{
    hg_yielded sent = hg_bridge_turn_in_place(&bridge, first, sizeof first, second, sizeof second);
    if (sent.number != 0) {
        printf("turn %3u  dash    the bridge is unsound, number %u\n", turn, sent.number);
        exit(1);
    }
    if (!sent.frames)
        return;
    hg_parts parts = hg_bus_unpack(sent.frame.id).parts;
    uint8_t count = parts.kind == HG_REQ ? sent.frame.bytes[2] & 15 : sent.frame.len;
    printf("turn %3u  dash    %s 0x%08" PRIX32 ": %u bytes, table %u, offset %u, send %u\n", turn,
           parts.kind == HG_REQ ? "REQ" : "CMD", sent.frame.id, count, parts.table, parts.offset,
           parts.kind == HG_REQ ? bridge.slots[bridge.last].sends : 1u);
    bus_send(turn + 1, DASH, sent.frame);
}

/* The bridge takes RSP alone; an XTND is for the dash itself. */
static void dash_frame(hg_frame frame)
{
    hg_parts parts = hg_bus_unpack(frame.id).parts;
    if (parts.to == DASH && parts.kind == HG_XTND) {
        extended = frame;
        return;
    }
    hg_yielded got = hg_bridge_frame_in_place(&bridge, first, sizeof first, second, sizeof second, frame);
    if (got.number == 0)
        printf("turn %3u  dash    takes  0x%08" PRIX32 "\n", turn, frame.id);
    else
        printf("turn %3u  dash    refuses 0x%08" PRIX32 " with number %u\n", turn, frame.id, got.number);
}

static void loop_turn(void)
{
    bus_event event;
    turn++;
    dash_turn();
    other_turn(turn);
    while (bus_take(turn, &event)) {
        if (event.sender != DEVICE)
            device_frame(turn, event.frame);
        if (event.sender != DASH)
            dash_frame(event.frame);
        if (event.sender != BOARD)
            board_frame(event.frame);
    }
}

/* Whether a read is done and shows the bytes that it should, which `whose` names. */
static bool read_done(uint32_t ticket, const uint8_t *bytes, size_t count, const char *whose)
{
    hg_span shown = hg_bridge_span(bridge, first, sizeof first, ticket);
    if (shown.number != 0) {
        printf("turn %3u  dash    the read ended with number %u\n", turn, shown.number);
        return false;
    }
    bool same = shown.len == count && memcmp(first + shown.start, bytes, count) == 0;
    printf("turn %3u  dash    the read is done: %zu bytes, %s%s\n", turn, shown.len, same ? "" : "NOT ", whose);
    return same;
}

/* Whether a read, once it has ended, shows the bytes that it should, and can be closed. */
static bool read_shows(uint32_t ticket, const uint8_t *bytes, size_t count, const char *whose)
{
    while (hg_bridge_status(bridge, ticket) == HG_NOT_FINISHED)
        loop_turn();
    return read_done(ticket, bytes, count, whose) && closed(ticket);
}

/* A read and a write at the same time; false where the device's tables are not what they should be. */
static bool read_and_write(void)
{
    uint8_t text[WRITE_COUNT];
    memcpy(text, "twenty bytes, no end", sizeof text);
    uint32_t read = opened("read", hg_bridge_open_read(bridge, first, sizeof first, second, sizeof second, DEVICE, READ_TABLE, READ_OFFSET, READ_COUNT));
    uint32_t write = opened("write", hg_bridge_open_write(bridge, first, sizeof first, second, sizeof second, DEVICE, WRITE_TABLE, WRITE_OFFSET,
                                                          text, sizeof text));

    /* A transfer ends within 72 turns for each started eight bytes. */
    bool written = false;
    while (hg_bridge_status(bridge, read) == HG_NOT_FINISHED || hg_bridge_status(bridge, write) == HG_NOT_FINISHED) {
        loop_turn();
        if (!written && hg_bridge_status(bridge, write) == HG_DONE) {
            written = true;
            printf("turn %3u  dash    the write is sent\n", turn);
        }
    }

    bool same = read_done(read, read_table + READ_OFFSET, READ_COUNT, "the table's");
    bool stored = memcmp(write_table + WRITE_OFFSET, text, sizeof text) == 0;
    printf("          device  has %s\n", stored ? "the bytes written" : "NOT the bytes written");
    return same && stored && closed(read) && closed(write);
}

/* How a checked write ended, by its status. */
static const char *ending(uint8_t number)
{
    switch (number) {
    case HG_DONE: return "is done, read back equal";
    case HG_GAVE_UP: return "gave up, nobody answers";
    case HG_DIFFERENT: return "was read back different";
    default: return "ended";
    }
}

/* A checked write, alone; false where it ends otherwise, or says done of bytes that the device does not have. */
static bool check(const char *text, uint8_t expected)
{
    uint8_t bytes[MAP_COUNT], number;
    memcpy(bytes, text, sizeof bytes);
    uint32_t ticket = opened("checked write", hg_bridge_open_check(bridge, first, sizeof first, second, sizeof second, DEVICE, WRITE_TABLE,
                                                                   WRITE_OFFSET, bytes, sizeof bytes));
    /* It ends within 76 turns for each started eight bytes. */
    while ((number = hg_bridge_status(bridge, ticket)) == HG_NOT_FINISHED)
        loop_turn();
    bool stored = memcmp(write_table + WRITE_OFFSET, bytes, sizeof bytes) == 0;
    printf("turn %3u  dash    the checked write %s: number %u\n", turn, ending(number), number);
    printf("          device  has %s\n", stored ? "the bytes" : "other bytes");
    return number == expected && stored == (number == HG_DONE) && closed(ticket);
}

/* A reset clears the rests: the dash lets them run out first, so that no request went out in the last 60 turns before it. */
static void rested_reset(void)
{
    static const uint8_t none[4];
    while (memcmp(bridge.rests, none, sizeof none) != 0)
        loop_turn();
    printf("turn %3u  dash    resets the bridge, of which no slot rests\n", turn);
    reset();
}

static hg_opened open_eight(uint16_t offset)
{
    return hg_bridge_open_read(bridge, first, sizeof first, second, sizeof second, DEVICE, READ_TABLE, offset, 8);
}

/* Opens a read of eight bytes of table 7. While all free slots rest it takes turns and tries again, at most 60 turns. */
static uint32_t open_rested(uint16_t offset)
{
    hg_opened answer = open_eight(offset);
    if (answer.number == HG_RESTING) {
        printf("turn %3u  dash    is refused a slot with number %u: all free ones rest\n", turn, answer.number);
        do {
            loop_turn();
            answer = open_eight(offset);
        } while (answer.number == HG_RESTING);
        printf("turn %3u  dash    is given one\n", turn);
    }
    return opened("read", answer);
}

static bool read_eight(uint32_t ticket, uint16_t offset)
{
    return read_shows(ticket, read_table + offset, 8, "the table's");
}

/* A read is closed before its answer, which comes 20 turns late; false where anybody gets its bytes. */
static bool late_answer(void)
{
    uint8_t before[HG_BUFFER];
    slow = 20;
    uint32_t early = open_rested(0);
    loop_turn();
    if (!closed(early))
        return false;
    for (uint16_t offset = 100; offset <= 200; offset += 50)
        if (!read_eight(open_rested(offset), offset))
            return false;
    memcpy(before, first, sizeof before);
    uint32_t last = open_rested(250); /* the late answer comes while it waits for a slot */
    if (memcmp(before, first, sizeof before) != 0)
        return false;
    puts("          dash    has stored nothing meanwhile");
    return read_eight(last, 250);
}

/* The board asks, and is answered two turns later; false where that is not the table's two bytes. */
static bool board_read(uint16_t offset, uint8_t bits)
{
    board_asks(turn, offset, bits);
    loop_turn();
    loop_turn();
    bool same = board_got.len == 2 && memcmp(board_got.bytes, read_table + offset, 2) == 0;
    printf("turn %3u  board   takes  0x%08" PRIX32 ": %u bytes, %s\n", turn, board_got.id, board_got.len, same ? "the table's" : "NOT the table's");
    return same;
}

/* Bit 4 of the third request byte is set, then not; false where an answer is wrong, or what the device counted. */
static bool reserved_bit(void)
{
    if (!board_read(READ_OFFSET, 0x10) || !board_read(READ_OFFSET, 0))
        return false;
    printf("          device  answered %u requests of the dash, %u of them clear; %u of the board, %u of them clear\n", answered[DASH], clear[DASH],
           answered[BOARD], clear[BOARD]);
    return clear[DASH] == answered[DASH] && answered[BOARD] == 2 && clear[BOARD] == 1;
}

/* The dash asks for a burn, and is answered two turns later; false where the acknowledgement is missing or wrong, or comes where none is due. */
static bool burn(uint8_t table, bool expected)
{
    hg_packed asked = hg_bus_pack((hg_parts){.offset = 0, .kind = HG_BURN, .from = DASH, .to = DEVICE, .table = table});
    hg_packed awaited = hg_bus_pack((hg_parts){.offset = 0, .kind = HG_XTND, .from = DEVICE, .to = DASH, .table = table});
    printf("turn %3u  dash    BURN 0x%08" PRIX32 ": table %u\n", turn, asked.id, table);
    extended = (hg_frame){0};
    if (asked.number == 0)
        bus_send(turn + 1, DASH, (hg_frame){.id = asked.id, .len = 0});
    loop_turn();
    loop_turn();
    if (extended.len == 0) {
        printf("turn %3u  dash    has %s acknowledgement\n", turn, expected ? "NOT the" : "no");
        return !expected;
    }
    bool same = expected && extended.id == awaited.id && extended.len == 2 && extended.bytes[0] == 0x0E && extended.bytes[1] == 0x01;
    printf("turn %3u  dash    takes  0x%08" PRIX32 ": bytes %02X %02X, %s\n", turn, extended.id, extended.bytes[0], extended.bytes[1],
           same ? "the acknowledgement" : "NOT the acknowledgement");
    return same;
}

/* Whether flash, or working memory after power-up or a reload, is as it should be: table 3 as it was burnt, table 7 as at the start. */
static bool has_burnt(const char *where, const uint8_t *bytes, const uint8_t *wanted)
{
    bool same = memcmp(bytes, wanted, sizeof flash) == 0;
    printf("          device  has in %s %s\n", where, same ? "the map burnt, and table 7 as at the start" : "NOT what it should");
    return same;
}

/* The dash reads the map; false where it is another than the one burnt. */
static bool read_map(const char *burnt)
{
    uint32_t ticket = opened("read", hg_bridge_open_read(bridge, first, sizeof first, second, sizeof second, DEVICE, WRITE_TABLE,
                                                         WRITE_OFFSET, MAP_COUNT));
    return read_shows(ticket, (const uint8_t *)burnt, MAP_COUNT, "the map burnt");
}

/* The device is off for a turn, then on again; false where the dash does not read the map that it burnt. */
static bool off_and_on(const uint8_t *wanted)
{
    switch_off();
    puts("          device  is switched off");
    loop_turn();
    puts("          device  is switched on");
    power_up(3);
    return read_map("fuel map new") && has_burnt("working memory", memory, wanted);
}

/* Today's map is burnt, a later one is not; false where the device has another one after it was switched off, or lost table 7. */
static bool tune(void)
{
    uint8_t wanted[sizeof flash];
    memcpy(wanted, flash, sizeof wanted);
    read_table[0]++; /* the device changes table 7 in working memory, and nobody burns that */
    if (!check("fuel map new", HG_DONE))
        return false;
    memcpy(wanted, write_table, 32);
    if (!burn(WRITE_TABLE, true) || !has_burnt("flash", flash, wanted) || !burn(READ_TABLE, false) || !has_burnt("flash", flash, wanted))
        return false;
    return check("fuel map odd", HG_DONE) && off_and_on(wanted);
}

/* Writes a map, burns it or not, and reads table 7 before the map; false where that is not the one which is now in flash. */
static bool touch_another(const char *map, bool burns, const char *in_flash)
{
    uint8_t wanted[sizeof flash];
    memcpy(wanted, flash, sizeof wanted);
    memcpy(wanted + WRITE_OFFSET, in_flash, MAP_COUNT);
    rested_reset();
    if (!check(map, HG_DONE) || (burns && !burn(WRITE_TABLE, true)) || !read_eight(open_rested(0), 0) || !read_map(in_flash))
        return false;
    printf("          dash    wrote \"%s\", %s, and reads \"%s\"\n", map, burns ? "burnt" : "not burnt", in_flash);
    return has_burnt("flash", flash, wanted) && has_burnt("working memory", memory, wanted);
}

/* On a Megasquirt-2 a map that is not burnt is gone once another table is read, and a burnt one is not; false where it is otherwise. */
static bool forget(void)
{
    puts("          device  is a Megasquirt-2 from now on");
    power_up(2);
    return touch_another("fuel map odd", false, "fuel map new") && touch_another("fuel map top", true, "fuel map top");
}

int main(void)
{
    device_start();
    reset();
    if (!read_and_write() || !check("fuel map one", HG_DONE))
        return 1;
    puts("          device  is unplugged");
    unplugged = true;
    if (!check("fuel map two", HG_GAVE_UP))
        return 1;
    puts("          device  is plugged in again");
    unplugged = false;
    missed = 2;
    if (!check("fuel map six", HG_DIFFERENT))
        return 1;
    rested_reset();
    return late_answer() && reserved_bit() && tune() && forget() ? 0 : 1;
}
