"""The rules of second_model.py that read lists, lengths and the device's state: K4 to K15 and K17, B6 to B23, S4 to
S8, A14, and what K21 to K23 read of a wrapping key."""
from __future__ import annotations

from typing import Any

from cryptography.hazmat.primitives.keywrap import InvalidUnwrap, aes_key_unwrap

from keystore.lists import ListFault, Params, read_list
from model.blobs import Sealed
from model.values import (
    AES,
    BLOB,
    CBC,
    CTR,
    DIGEST_BITS,
    ECB,
    ENCRYPT,
    GCM,
    HMAC,
    KEY_PURPOSES,
    MOST_BLOB_BYTES,
    MOST_ID_BYTES,
    MOST_KEPT_BYTES,
    MOST_LIST_BYTES,
    MOST_OPERATION_BYTES,
    NO_PADDING,
    NONCE_BYTES,
    PKCS7,
    PURPOSES,
    RAW,
    SIGN,
    TAGS_OF_NO_WRAPPING_KEY,
    TAGS_OF_STORED_KEYS,
    WRAP_KEY,
    WRAPPED_SIZES,
    BeginFacts,
    Denied,
    Operation,
    Plan,
    one,
)

# What a line spells, its fields by name.
Event = dict[str, Any]


def read_params(data: bytes, rule: str) -> Params:
    """The list of a call, by K4, K21, B6 or A11."""
    if len(data) > MOST_LIST_BYTES:
        raise Denied(-21, rule)
    try:
        params = read_list(data)
    except ListFault as fault:
        raise Denied(fault.code, rule)
    for name in ("APPLICATION_ID", "APPLICATION_DATA"):
        if any(len(value) > MOST_ID_BYTES for value in params.get(name, [])):
            raise Denied(-21, rule)
    return params


# Table K.


def is_size(algorithm: int, bits: int | None) -> bool:
    """Whether a key of the algorithm may have so many bits."""
    if algorithm == AES:
        return bits in (128, 192, 256)
    return bits is not None and 64 <= bits <= 512 and bits % 8 == 0


def check_size(algorithm: int, params: Params, material: bytes | None) -> None:
    """K7; the material is None for a key that is to be generated."""
    bits = one(params, "KEY_SIZE")
    if not is_size(algorithm, bits if material is None else 8 * len(material)):
        raise Denied(-6, "K7")
    if material is not None and bits is not None and bits != 8 * len(material):
        raise Denied(-44, "K7")


def check_uses(algorithm: int, params: Params) -> None:
    """K8 to K11."""
    if any(purpose not in KEY_PURPOSES[algorithm] for purpose in params.get("PURPOSE", [])):
        raise Denied(-2, "K8")
    if algorithm == AES:
        if any(mode not in (ECB, CBC, CTR, GCM) for mode in params.get("BLOCK_MODE", [])):
            raise Denied(-7, "K9")
        if any(padding not in (NO_PADDING, PKCS7) for padding in params.get("PADDING", [])):
            raise Denied(-10, "K10")
    elif one(params, "DIGEST") not in DIGEST_BITS:
        raise Denied(-12, "K11")


def check_least_mac(algorithm: int, params: Params) -> None:
    """K12."""
    if algorithm == HMAC:
        low, high = 64, DIGEST_BITS[one(params, "DIGEST")]
    elif GCM in params.get("BLOCK_MODE", []):
        low, high = 96, 128
    else:
        return
    least = one(params, "MIN_MAC_LENGTH")
    if least is None:
        raise Denied(-58, "K12")
    if least % 8 != 0 or not low <= least <= high:
        raise Denied(-59, "K12")


def check_restrictions(params: Params, is_blob: bool, is_early_over: bool) -> None:
    """K13 to K15 and K17."""
    if "NO_AUTH_REQUIRED" in params and "USER_SECURE_ID" in params:
        raise Denied(-38, "K13")
    if one(params, "USAGE_COUNT_LIMIT") == 0:
        raise Denied(-38, "K14")
    if is_blob and any(name in params for name in TAGS_OF_STORED_KEYS):
        raise Denied(-39, "K14")
    if "EARLY_BOOT_ONLY" in params and is_early_over:
        raise Denied(-73, "K15")
    purposes = params.get("PURPOSE", [])
    if WRAP_KEY in purposes and (len(purposes) > 1 or any(name in params for name in TAGS_OF_NO_WRAPPING_KEY)):
        raise Denied(-39, "K17")


def check_algorithm(params: Params) -> None:
    """K5."""
    if one(params, "ALGORITHM") not in (AES, HMAC):
        raise Denied(-4, "K5")


def check_key(params: Params, material: bytes | None) -> None:
    """K7 to K12; the material is None for a key that is to be generated."""
    algorithm = one(params, "ALGORITHM")
    check_size(algorithm, params, material)
    check_uses(algorithm, params)
    check_least_mac(algorithm, params)


def check_new(event: Event, params: Params, material: bytes | None, is_early_over: bool) -> None:
    """K5 to K15 and K17; the material is None for a key that is to be generated, and what is wrapped has no format."""
    check_algorithm(params)
    if event.get("format", RAW) != RAW:
        raise Denied(-17, "K6")
    check_key(params, material)
    check_restrictions(params, event["key"]["domain"] == BLOB, is_early_over)


# Table B.


def check_sealed_for(asked: Params, opened: Sealed, root: bytes, rule: str) -> None:
    """A13, and what B8 has of it: an opened blob is of this device, and of the application that asks."""
    ids = [one(asked, "APPLICATION_ID"), one(asked, "APPLICATION_DATA")]
    if opened.root != root or [opened.app_id, opened.app_data] != ids:
        raise Denied(-33, rule)


def check_opened(asked: Params, opened: Sealed, root: bytes, rule: str = "B8") -> None:
    """B8, for what stands in an opened blob, and what K21 has of it."""
    check_sealed_for(asked, opened, root, rule)
    try:
        check_algorithm(opened.params)
        check_key(opened.params, opened.material)
    except Denied:
        raise Denied(-33, rule)


def versions_in(kept: Params) -> tuple[int, int]:
    """The versions that a list names; it has 0 for one that it does not name."""
    return one(kept, "OS_VERSION") or 0, one(kept, "OS_PATCHLEVEL") or 0


def is_newer(kept: Params, versions: tuple[int, int]) -> bool:
    """Whether a list names a version that is greater than the device's."""
    return any(own > device for own, device in zip(versions_in(kept), versions))


def check_versions(kept: Params, versions: tuple[int, int], rule: str = "B23") -> None:
    """B23, and what K21 has of it."""
    if is_newer(kept, versions):
        raise Denied(-33, rule)
    if versions_in(kept) != versions:
        raise Denied(-62, rule)


def check_purpose(asked: Params, kept: Params) -> None:
    """B9."""
    purpose = one(asked, "PURPOSE")
    if purpose not in PURPOSES[one(kept, "ALGORITHM")]:
        raise Denied(-2, "B9")
    if purpose not in kept.get("PURPOSE", []):
        raise Denied(-3, "B9")


def check_dates(asked: Params, kept: Params, wall: int) -> None:
    """B10 and B11."""
    start = one(kept, "ACTIVE_DATETIME")
    if start is not None and wall < start:
        raise Denied(-24, "B10")
    is_origination = one(asked, "PURPOSE") in (ENCRYPT, SIGN)
    end = one(kept, "ORIGINATION_EXPIRE_DATETIME" if is_origination else "USAGE_EXPIRE_DATETIME")
    if end is not None and wall > end:
        raise Denied(-25, "B11")


def is_timed(kept: Params) -> bool:
    """Whether a key wants a token that is no older than its timeout."""
    return "USER_SECURE_ID" in kept and "AUTH_TIMEOUT" in kept


def is_authenticated_each(kept: Params) -> bool:
    """Whether each operation of a key wants a token of its own."""
    return "USER_SECURE_ID" in kept and "AUTH_TIMEOUT" not in kept


def check_device(facts: BeginFacts) -> None:
    """B12 to B16."""
    kept = facts.kept
    if "USER_ID" in kept and one(kept, "USER_ID") != facts.user:
        raise Denied(-15, "B12")
    if "EARLY_BOOT_ONLY" in kept and facts.is_early_over:
        raise Denied(-73, "B13")
    if "UNLOCKED_DEVICE_REQUIRED" in kept and not facts.is_unlocked:
        raise Denied(-72, "B14")
    if is_timed(kept) and not facts.is_timely:
        raise Denied(-26, "B15")
    if "MAX_USES_PER_BOOT" in kept and facts.begins >= one(kept, "MAX_USES_PER_BOOT"):
        raise Denied(-56, "B16")


def check_mode(asked: Params, kept: Params) -> None:
    """B17 and B18."""
    mode = one(asked, "BLOCK_MODE")
    if mode not in (ECB, CBC, CTR, GCM):
        raise Denied(-7, "B17")
    if mode not in kept.get("BLOCK_MODE", []):
        raise Denied(-8, "B17")
    padding = one(asked, "PADDING")
    if padding not in (NO_PADDING, PKCS7):
        raise Denied(-10, "B18")
    if padding not in kept.get("PADDING", []) or mode in (CTR, GCM) and padding != NO_PADDING:
        raise Denied(-11, "B18")


def check_digest(asked: Params, kept: Params) -> None:
    """B19."""
    if "DIGEST" not in asked:
        return
    if one(asked, "DIGEST") not in DIGEST_BITS:
        raise Denied(-12, "B19")
    if one(asked, "DIGEST") != one(kept, "DIGEST"):
        raise Denied(-13, "B19")


def check_mac_length(asked: Params, kept: Params) -> None:
    """B20."""
    if one(asked, "PURPOSE") == SIGN:
        low, high = 0, DIGEST_BITS[one(kept, "DIGEST")]
    else:
        low, high = 96, 128
    length = one(asked, "MAC_LENGTH")
    if length is None:
        raise Denied(-53, "B20")
    if length % 8 != 0 or not low <= length <= high:
        raise Denied(-9, "B20")
    if length < one(kept, "MIN_MAC_LENGTH"):
        raise Denied(-57, "B20")


def check_nonce(asked: Params, kept: Params) -> None:
    """B21."""
    is_encryption = one(asked, "PURPOSE") == ENCRYPT
    nonce = one(asked, "NONCE")
    if is_encryption and nonce is not None and "CALLER_NONCE" not in kept:
        raise Denied(-55, "B21")
    if not is_encryption and nonce is None:
        raise Denied(-51, "B21")
    if nonce is not None and len(nonce) != NONCE_BYTES[one(asked, "BLOCK_MODE")]:
        raise Denied(-52, "B21")


def check_begin(asked: Params, facts: BeginFacts) -> None:
    """B23 and B9 to B21, for the list of the operation."""
    kept = facts.kept
    check_versions(kept, facts.versions)
    check_purpose(asked, kept)
    check_dates(asked, kept, facts.wall)
    check_device(facts)
    is_aes = one(kept, "ALGORITHM") == AES
    mode = one(asked, "BLOCK_MODE") if is_aes else None
    if is_aes:
        check_mode(asked, kept)
    else:
        check_digest(asked, kept)
    if one(asked, "PURPOSE") == SIGN or mode == GCM:
        check_mac_length(asked, kept)
    if mode in NONCE_BYTES:
        check_nonce(asked, kept)


def plan_of(asked: Params, kept: Params) -> Plan:
    """The plan of an operation that breaks no rule."""
    is_aes = one(kept, "ALGORITHM") == AES
    return Plan(
        mode=one(asked, "BLOCK_MODE") if is_aes else None,
        is_forward=one(asked, "PURPOSE") in (ENCRYPT, SIGN),
        is_padded=is_aes and one(asked, "PADDING") == PKCS7,
        digest=one(kept, "DIGEST"),
        mac_bytes=(one(asked, "MAC_LENGTH") or 0) // 8,
        least_mac_bytes=(one(kept, "MIN_MAC_LENGTH") or 0) // 8,
        is_limited="USAGE_COUNT_LIMIT" in kept,
    )


# A key that comes wrapped under another one.


def opened_text(wrapping: Sealed, wrapped: bytes) -> bytes:
    """The text of a key that comes wrapped under an opened one, by K22 and K23."""
    if WRAP_KEY not in wrapping.params.get("PURPOSE", []):
        raise Denied(-3, "K22")
    if len(wrapped) not in WRAPPED_SIZES:
        raise Denied(-21, "K23")
    try:
        return aes_key_unwrap(wrapping.material, wrapped)
    except InvalidUnwrap:
        raise Denied(-30, "K23")


# Table A.


def check_upgrade(kept: Params, list_bytes: int, blob_bytes: int, versions: tuple[int, int]) -> None:
    """A14, for an opened list, and how long the new list and blob would be."""
    if is_newer(kept, versions):
        raise Denied(-38, "A14")
    if list_bytes > MOST_KEPT_BYTES or blob_bytes > MOST_BLOB_BYTES:
        raise Denied(-21, "A14")


# Table S.

# The rules whose break ends the operation.
ENDING = ("S4", "S6", "S7", "S8")


def check_length(plan: Plan, length: int) -> None:
    """S8, for the length of the whole text."""
    if plan.mode in (ECB, CBC):
        is_opening = plan.is_padded and not plan.is_forward
        if (is_opening or not plan.is_padded) and length % 16 != 0:
            raise Denied(-21, "S8")
        if is_opening and length < 16:
            raise Denied(-21, "S8")
    if plan.mode == GCM and not plan.is_forward and length < plan.mac_bytes:
        raise Denied(-21, "S8")


def check_step(operation: Operation, event: Event) -> None:
    """S4 to S8."""
    if operation.key is not None and not operation.key.is_live:
        raise Denied(-33, "S4")
    if operation.challenge is not None and not operation.is_shown:
        raise Denied(-26, "S5")
    if event["act"] == "updateAad" and (operation.plan.mode != GCM or operation.text):
        raise Denied(-40, "S6")
    if len(operation.additional) + len(operation.text) + len(event["input"]) > MOST_OPERATION_BYTES:
        raise Denied(-21, "S7")
    if event["act"] == "finish":
        check_length(operation.plan, len(operation.text) + len(event["input"]))
