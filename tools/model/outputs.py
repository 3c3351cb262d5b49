"""The outputs of second_model.py: what an operation makes of its whole text, and how much of it is out before the
end."""
from __future__ import annotations

import hmac

from cryptography.hazmat.primitives.ciphers import Cipher, algorithms, modes

from model.values import CBC, CTR, DIGEST_NAMES, ECB, GCM, Denied, Operation, Plan


def padded(text: bytes) -> bytes:
    count = 16 - len(text) % 16
    return text + bytes([count]) * count


def unpadded(text: bytes) -> bytes:
    count = text[-1]
    if not 1 <= count <= 16 or text[-count:] != bytes([count]) * count:
        raise Denied(-38)
    return text[:-count]


def nonce_of(operation: Operation) -> bytes:
    """The nonce, which an operation of a mode other than ECB has."""
    assert operation.nonce is not None
    return operation.nonce


def gcm_sealed(operation: Operation, text: bytes) -> tuple[bytes, bytes]:
    """The ciphertext of a text, and the whole tag."""
    worker = Cipher(algorithms.AES(operation.material), modes.GCM(nonce_of(operation))).encryptor()
    worker.authenticate_additional_data(operation.additional)
    return worker.update(text) + worker.finalize(), worker.tag


def raw_output(operation: Operation, text: bytes) -> bytes:
    """What the mode makes of a text, the whole blocks of it for ECB and CBC, before a padding or a tag is looked at."""
    plan = operation.plan
    if plan.mode is None:
        return b""
    if plan.mode == GCM:
        return gcm_sealed(operation, text)[0]
    if plan.mode == ECB:
        mode: modes.ECB | modes.CBC | modes.CTR = modes.ECB()
    elif plan.mode == CBC:
        mode = modes.CBC(nonce_of(operation))
    else:
        mode = modes.CTR(nonce_of(operation))
    if plan.mode != CTR:
        text = text[: len(text) // 16 * 16]
    cipher = Cipher(algorithms.AES(operation.material), mode)
    worker = cipher.encryptor() if plan.is_forward else cipher.decryptor()
    return worker.update(text) + worker.finalize()


def mac_output(operation: Operation, text: bytes, signature: bytes | None) -> bytes:
    """The mac of a signing, or nothing for a verification whose signature is a front of the mac and long enough."""
    plan = operation.plan
    assert plan.digest is not None
    mac = hmac.new(operation.material, text, DIGEST_NAMES[plan.digest]).digest()
    if plan.is_forward:
        return mac[: plan.mac_bytes]
    if signature is None or len(signature) < plan.least_mac_bytes or mac[: len(signature)] != signature:
        raise Denied(-30)
    return b""


def gcm_output(operation: Operation, text: bytes) -> bytes:
    """The ciphertext with its tag, or the text of a ciphertext whose tag is right."""
    size = operation.plan.mac_bytes
    if operation.plan.is_forward:
        sealed, tag = gcm_sealed(operation, text)
        return sealed + tag[:size]
    opened = raw_output(operation, text[:-size])
    if gcm_sealed(operation, opened)[1][:size] != text[-size:]:
        raise Denied(-30)
    return opened


def whole_output(operation: Operation, text: bytes, signature: bytes | None) -> bytes:
    """All output of an operation over its whole text."""
    plan = operation.plan
    if plan.mode is None:
        return mac_output(operation, text, signature)
    if plan.mode == GCM:
        return gcm_output(operation, text)
    if not plan.is_padded:
        return raw_output(operation, text)
    if plan.is_forward:
        return raw_output(operation, padded(text))
    return unpadded(raw_output(operation, text))


def front(plan: Plan, length: int) -> int:
    """How much of the output is out after so many bytes of text."""
    if plan.mode is None or plan.is_limited:
        return 0
    if plan.mode == CTR:
        return length
    if plan.mode == GCM:
        return length if plan.is_forward else max(0, length - plan.mac_bytes)
    if plan.is_padded and not plan.is_forward and length > 0:
        return (length - 1) // 16 * 16
    return length // 16 * 16
