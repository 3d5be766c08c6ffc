#!/usr/bin/env python3
"""Prints examples/story.txt: a listing of calls that tells how a guarded unit is used, from its first refusal to a change of keys, how
two lines of one owner share a set of keys, and how a damaged record is found.

The capabilities are made here with Python's own hmac and hashlib, as the security manager of a store would make them (document 01,
"Descriptor" and "Pages"); the program `replay` answers the listing. Run `make demo` to see each line with its answer.
"""
import hashlib
import hmac

IDENTIFIER = b"image store no 1"
SECOND_IDENTIFIER = b"image store no 2"
KEEPER, KEEPER_IDENTIFIER = 2, b"image store no 3"
SHARER, SHARER_IDENTIFIER = 3, b"image store no 4"
TOKEN = bytes(range(0x10, 0x20))
AUTH_KEY = b"authentication key 1"
GEN_KEY = b"generation key no. 1"
SEED = b"seed of version 3..."
SECOND_SEED = b"another seed of it.."
SHARED_SEED = b"one seed for both..."
AGREED = bytes(x * 7 % 256 for x in range(256))
NOSEC, CAPKEY = 0, 1
WRITE_10 = bytes.fromhex("2a000000080000010000")
INQUIRY = bytes.fromhex("120000002400")
UNKNOWN = bytes.fromhex("7f000000000000000000")
SECURITY_OUT = 0xB5
SET_ATTRIBUTES, SEED_EXCHANGE, SET_KEY, CHANGE = 0x0011, 0x0012, 0x0014, 0x0015
DATA_WRITE, SEC_MGMT = 0x40, 0x08


def big(number, width):
    return number.to_bytes(width, "big")


def mac(key, message):
    return hmac.new(key, message, hashlib.sha1).digest()


def descriptor(version, permissions, tag, expiration, identifier):
    """the 58 bytes that a capability is made of"""
    head = big(0x10 | version, 1) + big(CAPKEY, 1) + big(1, 4) + big(expiration, 6)
    return head + bytes(20) + big(permissions, 1) + bytes(3) + big(tag, 4) + b"\x01\x10" + identifier


def wrapped(cdb, key, version, permissions, tag, expiration=0, identifier=IDENTIFIER):
    """the CDB with a descriptor behind it and the integrity check value for the token, under a key"""
    made = descriptor(version, permissions, tag, expiration, identifier)
    return cdb + made + mac(mac(key, made), TOKEN)


def out_command(page, data, key, tag, identifier=IDENTIFIER):
    """SECURITY PROTOCOL OUT of a page, wrapped under a master key"""
    cdb = big(SECURITY_OUT, 1) + b"\x07" + big(page, 2) + bytes(2) + big(len(data), 4) + bytes(2)
    return wrapped(cdb, key, 0, SEC_MGMT, tag, identifier=identifier)


def set_key_list(version, seed):
    return big(SET_KEY, 2) + big(0x18, 2) + big(version, 1) + bytes(3) + seed


def exchange_list(agreed):
    return big(SEED_EXCHANGE, 2) + big(0x104, 2) + b"\x00\x0e" + bytes(2) + agreed


CHANGE_LIST = big(CHANGE, 2) + big(0, 2)


def next_pair(gen_key, agreed, identifier=IDENTIFIER):
    """the pair of master keys that a seed exchange makes at the unit that keeps the keys: authentication, generation"""
    seed = agreed + identifier
    flipped = seed[:-1] + bytes([seed[-1] ^ 1])
    return mac(gen_key, flipped), mac(gen_key, seed)


def say(text):
    print()
    for line in text.split("\n"):
        print("#", line)


def build(unit, method, tag, identifier, *keeper):
    print("build", unit, method, tag, identifier.hex(), AUTH_KEY.hex(), GEN_KEY.hex(), *keeper)


def command(unit, clock, sent):
    print("open", unit, clock, sent.hex(), TOKEN.hex())


def finish(slot, clock, data):
    print("close", slot, clock, data.hex())


def guarded_unit():
    say("A guarded unit: unit 0 is built with method CAPKEY and policy tag 7. A0 is GOOD.")
    build(0, CAPKEY, 7, IDENTIFIER)
    say("A write that brings no capability is refused: reason 6.")
    command(0, 1000, WRITE_10)
    say("So is a command whose code nobody knows: reason 2.")
    command(0, 1000, UNKNOWN)


def first_key():
    data = set_key_list(3, SEED)
    say("Working key 3 is set. Set Key is signed under the authentication master key. A1: it waits in slot 0 for its data.")
    command(0, 2000, out_command(SET_KEY, data, AUTH_KEY, 7))
    say("Its data are the version and a seed, of which the unit makes the key.")
    finish(0, 2001, data)


def guarded_write(key):
    say("The same write again, now with a capability signed under key 3. It passes, and waits for its data.")
    command(0, 3000, wrapped(WRITE_10, key, 3, DATA_WRITE, 7, 10000))
    say("Its data come, it is judged once more, and A2 hands it to the medium.")
    finish(0, 3001, bytes(8))
    say("A capability that expired at 10000 is worth nothing at 10001: reason 10.")
    command(0, 10001, wrapped(WRITE_10, key, 3, DATA_WRITE, 7, 10000))


def changed_tag(key):
    data = big(SET_ATTRIBUTES, 2) + big(8, 2) + big(CAPKEY, 2) + big(8, 4) + bytes(2)
    say("A write under tag 7 is parked in slot 0.")
    command(0, 11000, wrapped(WRITE_10, key, 3, DATA_WRITE, 7))
    say("Before its data come, Set Attributes gives the unit tag 8: that calls in every capability under tag 7.")
    command(0, 11001, out_command(SET_ATTRIBUTES, data, AUTH_KEY, 7))
    finish(1, 11002, data)
    say("The write passed at its open, and is refused at its close: reason 12.")
    finish(0, 11003, bytes(8))


def full_slots():
    say("A second unit, without security: bare writes pass there. Sixteen of them take the sixteen slots, the seventeenth gets\n"
        "TASK SET FULL, A4.")
    build(1, NOSEC, 0, SECOND_IDENTIFIER)
    for number in range(17):
        command(1, 12000 + number, WRITE_10)
    say("The write in slot 3 is given up, and the next one gets slot 3. Then all are given up.")
    print("abort 3")
    command(1, 12017, WRITE_10)
    print("reset")


def new_keys(old):
    data = exchange_list(AGREED)
    say("The master keys of unit 0 are changed. First Seed Exchange, signed under the old authentication master key, with the value\n"
        "that both sides agreed on.")
    command(0, 13000, out_command(SEED_EXCHANGE, data, AUTH_KEY, 8))
    finish(0, 13001, data)
    auth_key, gen_key = next_pair(GEN_KEY, AGREED)
    say("The old working keys still hold.")
    command(0, 13002, wrapped(WRITE_10, old, 3, DATA_WRITE, 8))
    finish(0, 13003, bytes(8))
    say("Then Change, signed under the next authentication master key: whoever has it took part in the exchange.")
    command(0, 13004, out_command(CHANGE, CHANGE_LIST, auth_key, 8))
    finish(0, 13005, CHANGE_LIST)
    return auth_key, gen_key


def after_change(old, auth_key, gen_key):
    say("With that the old credentials have ended: there is no key 3 any more, reason 14.")
    command(0, 14000, wrapped(WRITE_10, old, 3, DATA_WRITE, 8))
    data = set_key_list(3, SECOND_SEED)
    say("A new key 3 is set under the new master keys.")
    command(0, 14001, out_command(SET_KEY, data, auth_key, 8))
    finish(0, 14002, data)
    say("The old credential still does not pass, since its check value is not that of the new key: reason 15. A new one does.")
    command(0, 14003, wrapped(WRITE_10, old, 3, DATA_WRITE, 8))
    command(0, 14004, wrapped(WRITE_10, mac(gen_key, SECOND_SEED), 3, DATA_WRITE, 8))
    finish(0, 14005, bytes(8))


def shared_set():
    say("The owner of two lines wants one set of keys for both. Unit 2 keeps the keys; unit 3 is built as a sharer of unit 2's: the keys\n"
        "that the line asks for are ignored. Method, tag and identifier are each unit's own.")
    build(KEEPER, CAPKEY, 5, KEEPER_IDENTIFIER)
    build(SHARER, CAPKEY, 6, SHARER_IDENTIFIER, "keeper", KEEPER)
    data = set_key_list(4, SHARED_SEED)
    key = mac(GEN_KEY, SHARED_SEED)
    say("Working key 4 is set once, at unit 2.")
    command(KEEPER, 15000, out_command(SET_KEY, data, AUTH_KEY, 5, KEEPER_IDENTIFIER))
    finish(0, 15001, data)
    say("A write at unit 3 passes under it, with unit 3's own tag and identifier.")
    command(SHARER, 15002, wrapped(WRITE_10, key, 4, DATA_WRITE, 6, identifier=SHARER_IDENTIFIER))
    finish(0, 15003, bytes(8))
    return key


def shared_change(key):
    data = exchange_list(AGREED)
    auth_key, _ = next_pair(GEN_KEY, AGREED, KEEPER_IDENTIFIER)
    say("Another write is parked at unit 3, in slot 0: there it waits for its data.")
    command(SHARER, 16000, wrapped(WRITE_10, key, 4, DATA_WRITE, 6, identifier=SHARER_IDENTIFIER))
    print("show slot 0")
    say("Before its data come, the master keys are changed at unit 2: Seed Exchange, then Change.")
    command(KEEPER, 16001, out_command(SEED_EXCHANGE, data, AUTH_KEY, 5, KEEPER_IDENTIFIER))
    finish(1, 16002, data)
    command(KEEPER, 16003, out_command(CHANGE, CHANGE_LIST, auth_key, 5, KEEPER_IDENTIFIER))
    finish(1, 16004, CHANGE_LIST)
    say("That ended key 4 for both lines: the write at unit 3 is refused at its close, reason 14.")
    finish(0, 16005, bytes(8))
    say("What the two records hold by now. Keys are never shown.")
    print("show unit 2")
    print("show unit 3")


def damage():
    say("A byte of unit 2's record is damaged: its policy access tag reads 7 and not 5. The check tells, and the unit refuses everything:\n"
        "reason 1b. So does unit 3, whose own record is in order: its keeper is lost.")
    print("poke units", KEEPER * 512 + 11, "07")
    command(KEEPER, 17000, INQUIRY)
    command(SHARER, 17001, INQUIRY)
    print("show unit 2")
    print("show unit 3")
    say("Unit 2 is built anew, with keys of its own, and both answer again; working keys are to be set anew.")
    build(KEEPER, CAPKEY, 5, KEEPER_IDENTIFIER)
    command(SHARER, 17002, INQUIRY)
    say("The digests of the unit table, the slot table and the reply as all this left them.")
    print("state")


def main():
    print("# How a guarded unit is used, how two share keys, and how damage is found. Made by examples/story.py; `make demo` shows each line\n"
          "# with its answer.")
    say("Each refusal is to carry its reason's words.")
    print("explain on")
    key = mac(GEN_KEY, SEED)
    guarded_unit()
    first_key()
    guarded_write(key)
    changed_tag(key)
    full_slots()
    after_change(key, *new_keys(key))
    shared_change(shared_set())
    damage()


main()
