/*
 * A small store with Nectarnook in it: two units on one medium, unit 0 guarded (CAPKEY), unit 1 not (NOSEC). `make embed` builds and runs
 * it; what it prints stands in examples/embed.txt.
 *
 * In the order of the file: what the store keeps; the medium; the store, which takes commands and data and does what each answer asks for;
 * the other side of the wire, a security manager that signs capabilities; and the scenes. A store takes over the first three.
 */
#include <stdio.h>
#include <stdlib.h>
#include <string.h>

#include "nectarnook.h"

/* ---- what the store keeps */

#define BLOCKS 16
#define BLOCK_LEN 16
#define COMMAND_MOST (16 + 78)
#define SENSE_LEN 18

/* A command as it came: the CDB, and behind it the capability that it brought. */
struct command {
    uint32_t unit;
    size_t len;
    uint8_t bytes[COMMAND_MOST];
};

/* What goes back to the initiator. There is no status while a command waits for its data. */
struct response {
    int has_status;
    unsigned status;
    unsigned reason;
    uint32_t slot;
    uint8_t sense[SENSE_LEN];
    const uint8_t *data;
    size_t data_len;
};

static uint8_t units[NN_UNITS_LEN] = NN_FRESH_UNITS;
static uint8_t slots[NN_SLOTS_LEN] = NN_FRESH_SLOTS;
static uint8_t reply[NN_REPLY_LEN];
static uint8_t medium[2][BLOCKS][BLOCK_LEN];

/* The command in each slot. A close answers for it, and does not hand it back. */
static struct command waiting[NN_SLOTS_LEN / NN_RECORD_LEN];

/* ---- numbers are big-endian */

static uint32_t number_at(const uint8_t *at, size_t width)
{
    uint32_t number = 0;
    while (width-- > 0)
        number = number << 8 | *at++;
    return number;
}

static void put_number(uint8_t *at, size_t width, uint64_t number)
{
    while (width-- > 0) {
        at[width] = (uint8_t)(number & 0xff);
        number >>= 8;
    }
}

/* ---- responses */

/* Fixed-format sense data (SPC): current error, the sense key in byte 2, ten bytes after byte 7, code and qualifier in bytes 12 and 13. */
static void check_condition(struct response *r, unsigned key, unsigned code, unsigned qualifier)
{
    memset(r->sense, 0, SENSE_LEN);
    r->sense[0] = 0x70;
    r->sense[2] = (uint8_t)key;
    r->sense[7] = SENSE_LEN - 8;
    r->sense[12] = (uint8_t)code;
    r->sense[13] = (uint8_t)qualifier;
    r->has_status = 1;
    r->status = NN_STATUS_CHECK_CONDITION;
}

static void status(struct response *r, unsigned byte, const uint8_t *data, size_t data_len)
{
    r->has_status = 1;
    r->status = byte;
    r->data = data;
    r->data_len = data_len;
}

/* ---- the medium: READ(10) and WRITE(10). A unit that was not built never comes here (reason 1). */

static void run(struct response *r, const struct command *c, const uint8_t *data, size_t data_len)
{
    int reads = c->bytes[0] == 0x28, writes = c->bytes[0] == 0x2a;
    uint32_t first = number_at(c->bytes + 2, 4);
    uint32_t blocks = number_at(c->bytes + 7, 2);

    if (!reads && !writes) {
        check_condition(r, 0x5, 0x24, 0x00); /* what this small medium does not do */
    } else if (first > BLOCKS || blocks > BLOCKS - first) {
        check_condition(r, 0x5, 0x21, 0x00); /* logical block address out of range */
    } else if (reads) {
        status(r, NN_STATUS_GOOD, medium[c->unit][first], blocks * BLOCK_LEN);
    } else if (data != NULL && data_len == blocks * BLOCK_LEN) {
        memcpy(medium[c->unit][first], data, data_len);
        status(r, NN_STATUS_GOOD, NULL, 0);
    } else {
        check_condition(r, 0x5, 0x24, 0x00); /* the data are not the blocks that it asks for */
    }
}

/* ---- the store */

/* Does what an answer asks for. */
static struct response act(uint64_t result, const struct command *c, const uint8_t *data, size_t data_len)
{
    struct response r;

    memset(&r, 0, sizeof r);
    r.reason = NN_REASON(result);
    switch (NN_ANSWER(result)) {
    case NN_A0: /* done: a page stands in the reply, or a parameter list was obeyed */
        status(&r, NN_STATUS(result), reply, NN_COUNT(result));
        break;
    case NN_A1: /* it waits for its data, and the initiator for its status */
        r.slot = NN_SLOT(result);
        waiting[r.slot] = *c;
        break;
    case NN_A2: /* allowed: the medium runs it, and has the last word on its status */
        run(&r, c, data, data_len);
        break;
    case NN_A3: /* refused */
        check_condition(&r, NN_SENSE_KEY(result), NN_CODE(result), NN_QUALIFIER(result));
        break;
    case NN_A4: /* no slot is free */
        status(&r, NN_STATUS(result), NULL, 0);
        break;
    default: /* H1 to H5: this program called wrongly. Never answer GOOD for it. */
        fprintf(stderr, "embed: H%u\n", NN_ANSWER(result) & 0x0f);
        exit(2);
    }
    return r;
}

/* A command has come by a path with this security token. */
static struct response take_command(const struct command *c, const uint8_t *token, size_t token_len, uint64_t clock)
{
    uint64_t result = nn_open(units, sizeof units, slots, sizeof slots, reply, sizeof reply, c->unit, c->bytes, c->len, token, token_len,
                              clock);
    return act(result, c, NULL, 0);
}

/* The data of the command in a slot, one that a response named, have come. */
static struct response take_data(uint32_t slot, const uint8_t *data, size_t data_len, uint64_t clock)
{
    uint64_t result = nn_close(units, sizeof units, slots, sizeof slots, reply, sizeof reply, slot, data, data_len, clock);
    return act(result, &waiting[slot], data, data_len);
}

/* ---- the other side: a security manager, which knows the keys, and an initiator */

#define WORKING_VERSION 3
#define TAG 7
#define NEW_TAG 8
#define DATA_READ 0x80
#define DATA_WRITE 0x40
#define ATTR_READ 0x20
#define SEC_MGMT 0x08

static const uint8_t *const identifiers[2] = { (const uint8_t *)"image store no 1", (const uint8_t *)"image store no 2" };
static const uint8_t *const auth_key = (const uint8_t *)"authentication key 1";
static const uint8_t *const gen_key = (const uint8_t *)"generation key no. 1";
static const uint8_t *const token = (const uint8_t *)"token of path 01";
static uint8_t working_key[NN_KEY_LEN];

/* A bare READ(10) or WRITE(10) of one block. */
static struct command block_command(uint32_t unit, uint8_t code, uint32_t block)
{
    struct command c;

    memset(&c, 0, sizeof c);
    c.unit = unit;
    c.len = 10;
    c.bytes[0] = code;
    put_number(c.bytes + 2, 4, block);
    put_number(c.bytes + 7, 2, 1);
    return c;
}

/* A bare SECURITY PROTOCOL IN (A2h) or OUT (B5h) of a page. */
static struct command page_command(uint32_t unit, uint8_t code, uint32_t page, uint32_t len)
{
    struct command c;

    memset(&c, 0, sizeof c);
    c.unit = unit;
    c.len = 12;
    c.bytes[0] = code;
    c.bytes[1] = 0x07;
    put_number(c.bytes + 2, 2, page);
    put_number(c.bytes + 6, 4, len);
    return c;
}

/* Wraps a command for the unit: a capability's descriptor, and its integrity check value for the token. */
static void wrap(struct command *c, const uint8_t *key, uint8_t version, uint8_t permissions, uint32_t tag)
{
    uint8_t *descriptor = c->bytes + c->len;
    uint8_t capability_key[NN_KEY_LEN];

    descriptor[0] = (uint8_t)(0x10 | version);
    descriptor[1] = NN_METHOD_CAPKEY;
    put_number(descriptor + 2, 4, 1); /* HMAC-SHA1 */
    descriptor[32] = permissions;
    put_number(descriptor + 36, 4, tag);
    descriptor[40] = 0x01;
    descriptor[41] = NN_IDENTIFIER_LEN;
    memcpy(descriptor + 42, identifiers[c->unit], NN_IDENTIFIER_LEN);
    nn_hmac_sha1(key, NN_KEY_LEN, descriptor, 58, capability_key);
    nn_hmac_sha1(capability_key, NN_KEY_LEN, token, NN_TOKEN_LEAST, descriptor + 58);
    c->len += 78;
}

/* ---- what is printed */

static void print_bytes(const char *name, const uint8_t *bytes, size_t len)
{
    size_t i;

    printf("    %s:", name);
    for (i = 0; i < len; i++)
        printf(" %02x", bytes[i]);
    printf("\n");
}

static void print_response(const struct response *r)
{
    if (!r->has_status)
        printf("    no status yet: it waits in slot %u\n", (unsigned)r->slot);
    else if (r->status != NN_STATUS_CHECK_CONDITION)
        printf("    status: %02Xh\n", r->status);
    else if (r->reason == 0)
        printf("    status: %02Xh, by the medium\n", r->status);
    else if (r->reason == NN_REASON_UNSOUND)
        printf("    status: %02Xh, reason 1b\n", r->status);
    else
        printf("    status: %02Xh, reason %u\n", r->status, r->reason);
    if (r->has_status && r->status == NN_STATUS_CHECK_CONDITION)
        print_bytes("sense", r->sense, SENSE_LEN);
    if (r->data_len > 0)
        print_bytes("data", r->data, r->data_len);
}

/* Sends a command, and prints what comes back. */
static uint32_t send_command(const char *what, const struct command *c, uint64_t clock)
{
    struct response r = take_command(c, token, NN_TOKEN_LEAST, clock);

    printf("unit %u: %s\n", (unsigned)c->unit, what);
    print_response(&r);
    return r.slot;
}

static void send_data(const char *what, uint32_t slot, const uint8_t *data, size_t data_len, uint64_t clock)
{
    struct response r = take_data(slot, data, data_len, clock);

    printf("slot %u: %s\n", (unsigned)slot, what);
    print_response(&r);
}

/* ---- scenes */

static void build_units(void)
{
    uint64_t guarded = nn_build(units, sizeof units, 0, NN_METHOD_CAPKEY, TAG, identifiers[0], auth_key, gen_key,
                                NN_OWN_KEYS);
    uint64_t open_to_all = nn_build(units, sizeof units, 1, NN_METHOD_NOSEC, 0, identifiers[1], auth_key, gen_key,
                                    NN_OWN_KEYS);

    if (NN_ANSWER(guarded) != NN_A0 || NN_ANSWER(open_to_all) != NN_A0)
        exit(2);
    printf("unit 0 is guarded, unit 1 is not\n");
}

/* The same bare write passes where nothing is guarded, and is refused where capabilities rule. */
static void bare_writes(void)
{
    struct command there = block_command(1, 0x2a, 5), here = block_command(0, 0x2a, 5), back = block_command(1, 0x28, 5);
    uint32_t slot = send_command("WRITE(10), bare", &there, 1000);

    send_data("its data", slot, (const uint8_t *)"a public picture", BLOCK_LEN, 1001);
    send_command("READ(10), bare", &back, 1002);
    send_command("WRITE(10), bare", &here, 1003);
}

/* Set Key: the unit makes the working key from a seed under its generation master key, and the manager does the same. */
static void set_key(void)
{
    static const uint8_t head[8] = { 0x00, 0x14, 0x00, 0x18, WORKING_VERSION, 0, 0, 0 };
    uint8_t list[28];
    struct command c = page_command(0, 0xb5, 0x0014, sizeof list);
    uint32_t slot;

    memcpy(list, head, sizeof head);
    memcpy(list + sizeof head, "seed of version 3...", 20);
    wrap(&c, auth_key, 0, SEC_MGMT, TAG);
    slot = send_command("Set Key, signed under the authentication master key", &c, 2000);
    send_data("version 3 and a seed", slot, list, sizeof list, 2001);
    nn_hmac_sha1(gen_key, NN_KEY_LEN, list + sizeof head, 20, working_key);
}

static void guarded_write(void)
{
    struct command write = block_command(0, 0x2a, 5), read = block_command(0, 0x28, 5), page = page_command(0, 0xa2, 0x0011, 512);
    uint32_t slot;

    wrap(&write, working_key, WORKING_VERSION, DATA_WRITE, TAG);
    slot = send_command("WRITE(10) with a capability under key 3", &write, 3000);
    send_data("its data", slot, (const uint8_t *)"a guarded image.", BLOCK_LEN, 3001);
    wrap(&read, working_key, WORKING_VERSION, DATA_READ, TAG);
    send_command("READ(10) with a capability under key 3", &read, 3002);
    wrap(&page, working_key, WORKING_VERSION, ATTR_READ, TAG);
    send_command("SECURITY PROTOCOL IN, page 0011h: method, tag, valid versions", &page, 3003);
}

/* The tag is changed while a write waits for its data. It passed at its open, and is refused at its close; the medium keeps its block. */
static void revoked_write(void)
{
    static const uint8_t list[12] = { 0x00, 0x11, 0x00, 0x08, 0x00, NN_METHOD_CAPKEY, 0, 0, 0, NEW_TAG, 0, 0 };
    struct command write = block_command(0, 0x2a, 5), attributes = page_command(0, 0xb5, 0x0011, sizeof list);
    uint32_t slot, other;

    wrap(&write, working_key, WORKING_VERSION, DATA_WRITE, TAG);
    slot = send_command("the same WRITE(10) again", &write, 4000);
    wrap(&attributes, auth_key, 0, SEC_MGMT, TAG);
    other = send_command("Set Attributes, signed under the authentication master key", &attributes, 4001);
    send_data("tag 8 in the place of 7", other, list, sizeof list, 4002);
    send_data("the write's data", slot, (const uint8_t *)"an image refused", BLOCK_LEN, 4003);
    print_bytes("block 5 of unit 0", medium[0][5], BLOCK_LEN);
}

/* The initiator is lost while a write waits: the slot is given up. After a reset of the whole store every slot would be: nn_reset. */
static void lost_path(void)
{
    struct command c = block_command(1, 0x2a, 6);
    uint32_t slot = send_command("WRITE(10), bare, whose data never come", &c, 5000);

    if (NN_ANSWER(nn_abort(slots, sizeof slots, slot)) != NN_A0)
        exit(2);
    printf("slot %u: given up\n", (unsigned)slot);
}

int main(void)
{
    build_units();
    bare_writes();
    set_key();
    guarded_write();
    revoked_write();
    lost_path();
    return fflush(stdout) != 0 || ferror(stdout) ? EXIT_FAILURE : EXIT_SUCCESS;
}
