"""The authorization lists that script_maker.py puts into its lines: those of new keys and those of begins."""
import random

from model.values import AES, CBC, CTR, DIGEST_BITS, ECB, GCM, HMAC, NO_PADDING, PKCS7, SIGN, WRAP_KEY, one
from keystore.lists import BOOL, BYTES, TAGS
from keystore.script_events import encoded_list

AES_LIST = [
    ["PURPOSE", 0],
    ["PURPOSE", 1],
    ["ALGORITHM", AES],
    ["BLOCK_MODE", ECB],
    ["BLOCK_MODE", CBC],
    ["BLOCK_MODE", CTR],
    ["BLOCK_MODE", GCM],
    ["PADDING", NO_PADDING],
    ["PADDING", PKCS7],
    ["MIN_MAC_LENGTH", 96],
    ["CALLER_NONCE", True],
    ["NO_AUTH_REQUIRED", True],
]
HMAC_LIST = [
    ["PURPOSE", 2],
    ["PURPOSE", 3],
    ["ALGORITHM", HMAC],
    ["DIGEST", 4],
    ["MIN_MAC_LENGTH", 64],
    ["NO_AUTH_REQUIRED", True],
]
FREE = ["NO_AUTH_REQUIRED", True]
WRAP_LIST = [["PURPOSE", WRAP_KEY], ["ALGORITHM", AES], FREE]
TWICE_LIST = [*HMAC_LIST, ["USAGE_COUNT_LIMIT", 2]]
WAITING_LIST = [pair for pair in HMAC_LIST if pair != FREE] + [["USER_SECURE_ID", 7]]

# The numbers that are tried for the tags at which the rules look.
NUMBERS = {
    "PURPOSE": [0, 1, 2, 3, 5],
    "ALGORITHM": [AES, HMAC, 1],
    "KEY_SIZE": [128, 192, 256, 64, 512, 160, 0, 127],
    "BLOCK_MODE": [ECB, CBC, CTR, GCM, 4, 0],
    "DIGEST": [3, 4, 5, 6, 0, 2, 7],
    "PADDING": [NO_PADDING, PKCS7, 2],
    "MIN_MAC_LENGTH": [96, 104, 112, 128, 64, 88, 256, 384, 65, 224],
    "MAC_LENGTH": [96, 104, 112, 120, 128, 64, 88, 256, 384, 512, 65, 224, 136, 0, 4],
}
OTHER_TAGS = [name for name in TAGS if name not in NUMBERS]

# Dates at, before and behind a reading.
DATES = [0, 999, 1000, 1001, 18446744073709551615]
# What restricts a key, with the values that are tried.
RESTRICTIONS = {
    "ACTIVE_DATETIME": DATES,
    "ORIGINATION_EXPIRE_DATETIME": DATES,
    "USAGE_EXPIRE_DATETIME": DATES,
    "MAX_USES_PER_BOOT": [0, 1, 1, 2, 2, 3],
    "USER_ID": [0, 0, 0, 1, 42949],
    "EARLY_BOOT_ONLY": [True],
    "UNLOCKED_DEVICE_REQUIRED": [True],
}
# Whose tokens there are, of which kinds, and how many seconds they are good for.
SECURE_IDS = [7, 7, 8, 0]
KINDS = [1, 1, 2, 3, 0, 2147483648]
TIMEOUTS = [0, 1, 10, 4294967295]
# Application ids and application data.
IDS = ["", "6162", "6163"]

# Few nonces and short inputs, so that what one operation gave often suits another one.
NONCES = {
    CBC: ["00" * 15 + "01", "ff" * 16],
    CTR: ["00" * 15 + "01", "ff" * 16],
    GCM: ["00" * 12, "0102030405060708090a0b0c"],
}


def with_value(params, name, value):
    """A list in which a tag has one value."""
    return [pair for pair in params if pair[0] != name] + [[name, value]]


class ListMaker:
    """Makes lists, from a seed."""

    def __init__(self, seed):
        self.random = random.Random(seed)

    def chance(self, share):
        return self.random.random() < share

    def one_bit_off(self, value):
        changed = bytearray(value)
        changed[self.random.randrange(len(changed))] ^= 1 << self.random.randrange(8)
        return bytes(changed)

    def parameter(self, name):
        """A tag with some value of its type."""
        tag_type = TAGS[name][0]
        if name in NUMBERS:
            return [name, self.random.choice(NUMBERS[name])]
        if tag_type == BOOL:
            return [name, True]
        if tag_type == BYTES:
            return [name, self.random.randbytes(self.random.choice([0, 1, 12, 16, 1025, 4096])).hex()]
        return [name, self.random.choice([0, 1, 7])]

    def ids(self):
        """Mostly no application id and no application data; else such that two lists often have the same."""
        return [[name, self.random.choice(IDS)] for name in ("APPLICATION_ID", "APPLICATION_DATA") if self.chance(0.05)]

    def ids_of(self, opened):
        """The ids that an opened key is for, mostly; else others."""
        if opened is None or self.chance(0.1):
            return self.ids()
        ids = {"APPLICATION_ID": opened.app_id, "APPLICATION_DATA": opened.app_data}
        return [[name, value.hex()] for name, value in ids.items() if value is not None]

    def edit(self, params):
        """Takes a parameter out, puts one in or changes one."""
        kind = self.random.random()
        if kind < 0.4 and params:
            params.pop(self.random.randrange(len(params)))
        elif kind < 0.8:
            place = self.random.randrange(len(params) + 1)
            params.insert(place, self.parameter(self.random.choice(list(NUMBERS))))
        elif kind < 0.9:
            params.append(self.parameter(self.random.choice(OTHER_TAGS)))
        elif params:
            place = self.random.randrange(len(params))
            params[place] = self.parameter(params[place][0])

    def authenticated(self, params):
        """A list with secure ids, mostly in place of the freedom from authentication."""
        if self.chance(0.97):
            params = [pair for pair in params if pair != FREE]
        params = params + [
            ["USER_SECURE_ID", number] for number in self.random.sample(SECURE_IDS, self.random.choice([1, 1, 2]))
        ]
        if self.chance(0.5):
            params.append(["USER_AUTH_TYPE", self.random.choice([1, 1, 2, 3, 0, 4294967295])])
        if self.chance(0.6):
            params.append(["AUTH_TIMEOUT", self.random.choice(TIMEOUTS)])
        return params

    def restricted(self, params):
        """A list with a restriction, or with some of them, or as it is."""
        if self.chance(0.35):
            params = self.authenticated(params)
        while self.chance(0.4):
            name = self.random.choice(list(RESTRICTIONS))
            params = params + [[name, self.random.choice(RESTRICTIONS[name])]]
        return params + self.ids()

    def new_list(self, is_aes):
        """The list of a key of AES or of HMAC, mostly one that can be made."""
        params = HMAC_LIST if not is_aes else WRAP_LIST if self.chance(0.1) else AES_LIST
        params = self.edited(self.restricted(params), 0.25)
        if self.chance(0.15):
            params = params + [["USAGE_COUNT_LIMIT", self.random.choice([0, 1, 1, 1, 2, 2, 3, 4294967295])]]
        if self.chance(0.1):
            params = with_value(params, "MIN_MAC_LENGTH", 112)
        return params if is_aes or self.chance(0.5) else with_value(params, "DIGEST", self.random.choice([3, 4, 5, 6]))

    def size(self, is_aes):
        """How many bytes a material has, mostly such as may be."""
        if self.chance(0.05):
            return self.random.choice([0, 7, 15, 17, 65])
        return self.random.choice([16, 24, 32] if is_aes else [8, 20, 64])

    def text_size(self, is_aes):
        """How many bytes a text has that is to be wrapped, mostly such as may be."""
        if self.chance(0.05):
            return self.random.choice([0, 8, 15, 17, 40, 72])
        return self.random.choice([16, 24, 32] if is_aes else [16, 24, 64])

    def edited(self, params, share):
        """A copy of a list, with an edit in that share of the calls, and another one in that share of these."""
        params = list(params)
        while self.chance(share):
            self.edit(params)
        return params

    def spelled(self, params):
        """The list as pairs; rarely as hex of its encoded bytes, mostly with a wrong bit, cut or with a byte more."""
        if not self.chance(0.04):
            return params
        encoded = encoded_list(params)
        kind = self.random.random()
        if kind < 0.5:
            encoded = self.one_bit_off(encoded)
        elif kind < 0.7:
            encoded = encoded[: self.random.randrange(len(encoded))]
        elif kind < 0.8:
            encoded += b"\0"
        return encoded.hex()

    def cipher_list(self):
        """What an encryption or a decryption asks for."""
        mode = self.random.choice([ECB, CBC, CTR, GCM])
        padding = NO_PADDING if mode in (CTR, GCM) else self.random.choice([NO_PADDING, PKCS7])
        params = [["PURPOSE", self.random.choice([0, 1])], ["BLOCK_MODE", mode], ["PADDING", padding]]
        if mode == GCM:
            params.append(["MAC_LENGTH", self.random.choice([96, 104, 112, 120, 128])])
        if mode != ECB:
            params.append(["NONCE", self.random.choice(NONCES[mode])])
        return params

    def mac_list(self, opened):
        """What a signing or a verification asks for, mostly so that it suits the key's digest."""
        purpose = self.random.choice([2, 3])
        params = [["PURPOSE", purpose]]
        digest = one(opened.params, "DIGEST") if opened is not None else None
        suits = digest in DIGEST_BITS and self.chance(0.8)
        if purpose == SIGN or self.chance(0.1):
            most = DIGEST_BITS[digest] if suits else 512
            lengths = [bits for bits in (64, 128, 224, 256, 384, 512) if bits <= most]
            params.append(["MAC_LENGTH", self.random.choice(lengths)])
        if not suits and self.chance(0.5):
            params.append(["DIGEST", self.random.choice([3, 4, 5, 6])])
        return params

    def asked_list(self, opened):
        """The list of a begin, mostly so that it suits the key's algorithm and its ids."""
        algorithm = one(opened.params, "ALGORITHM") if opened is not None else None
        if algorithm is None or self.chance(0.05):
            algorithm = self.random.choice([AES, HMAC])
        asked = self.cipher_list() if algorithm == AES else self.mac_list(opened)
        return asked + self.ids_of(opened)
