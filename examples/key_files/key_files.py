"""Opens files of age, of Tarsnap's scrypt and of Ethereum with a password.

Each function returns the content of a file, or raises ValueError if the password is wrong, the file
is damaged, or the derivation of its key exceeds the limits.
"""

import base64
import hashlib
import hmac
import json
import re

from Cryptodome.Cipher import AES, ChaCha20_Poly1305
from Cryptodome.Hash import SHA256, keccak
from Cryptodome.Protocol.KDF import HKDF
from scrypt_c import DEFAULT_MAX_MEM, DEFAULT_MAX_WORK, scrypt

AGE_HEADER = re.compile(
    rb"(age-encryption\.org/v1\n-> scrypt ([A-Za-z0-9+/]{22}) ([1-9][0-9]?)\n"
    rb"([A-Za-z0-9+/]{43})\n---) ([A-Za-z0-9+/]{43})\n"
)
AGE_CHUNK = 65536 + 16  # with its tag


def derive(password, salt, n, r, p, dklen, maxmem=DEFAULT_MAX_MEM, max_work=DEFAULT_MAX_WORK):
    """The derived key. An untrusted file chooses its own cost, so this has limits."""
    costs = {"n": n, "r": r, "p": p, "maxmem": maxmem, "max_work": max_work}
    return scrypt(password.encode(), salt=salt, dklen=dklen, **costs)


def open_age(file, password, **limits):
    """A file of age with a passphrase (age-encryption.org/v1), binary or armored."""
    if file.startswith(b"-----BEGIN AGE ENCRYPTED FILE-----"):
        file = base64.b64decode(b"".join(file.strip().splitlines()[1:-1]), validate=True)
    header = AGE_HEADER.match(file)
    if not header:
        raise ValueError("not a file of age with a passphrase")
    signed, salt, log_n, body, mac = header.groups()
    salt, body, mac = (base64.b64decode(it + b"=" * (-len(it) % 4)) for it in (salt, body, mac))
    salt = b"age-encryption.org/v1/scrypt" + salt
    wrap_key = derive(password, salt, 1 << int(log_n), 8, 1, 32, **limits)
    file_key = decrypt_chunk(wrap_key, bytes(12), body, "wrong password")
    header_key = HKDF(file_key, 32, b"", SHA256, context=b"header")
    if not hmac.compare_digest(hmac.digest(header_key, signed, "sha256"), mac):
        raise ValueError("the header is damaged")
    nonce, payload = file[header.end() :][:16], file[header.end() + 16 :]
    key = HKDF(file_key, 32, nonce, SHA256, context=b"payload")
    chunks = [payload[at : at + AGE_CHUNK] for at in range(0, len(payload), AGE_CHUNK)] or [b""]
    if len(chunks) > 1 and len(chunks[-1]) == 16:
        raise ValueError("the last chunk is empty")
    nonces = [at.to_bytes(11, "big") + bytes([at == len(chunks) - 1]) for at in range(len(chunks))]
    return b"".join(map(lambda *it: decrypt_chunk(key, *it, "damaged"), nonces, chunks))


def decrypt_chunk(key, nonce, chunk, otherwise):
    try:
        cipher = ChaCha20_Poly1305.new(key=key, nonce=nonce)
        return cipher.decrypt_and_verify(chunk[:-16], chunk[-16:])
    except ValueError:
        raise ValueError(otherwise) from None


def open_scrypt(file, password, **limits):
    """A file of `scrypt enc`, whose source has its FORMAT."""
    checksum = hashlib.sha256(file[:48]).digest()[:16]
    if file[:7] != b"scrypt\0" or len(file) < 128 or file[48:64] != checksum:
        raise ValueError("not a file of scrypt enc")
    r, p = int.from_bytes(file[8:12], "big"), int.from_bytes(file[12:16], "big")
    key = derive(password, file[16:48], 1 << file[7], r, p, 64, **limits)
    for end, otherwise in ((64, "wrong password"), (len(file) - 32, "damaged")):
        mac = hmac.digest(key[32:], file[:end], "sha256")
        if not hmac.compare_digest(mac, file[end : end + 32]):
            raise ValueError(otherwise)
    return AES.new(key[:32], AES.MODE_CTR, nonce=bytes(8)).decrypt(file[96:-32])


def open_ethereum(file, password, **limits):
    """The private key in a file of Ethereum's Web3 secret storage, version 3."""
    try:
        stored = json.loads(file)
    except RecursionError:  # of a file of a hundred thousand brackets
        stored = None
    match stored:
        case {"version": 3, "crypto": {
            "kdf": "scrypt",
            "kdfparams": {"n": int(n), "r": int(r), "p": int(p), "salt": str(salt)},
            "cipher": "aes-128-ctr", "cipherparams": {"iv": str(iv)},
            "ciphertext": str(content), "mac": str(mac),
        }}:
            salt, iv, content, mac = map(bytes.fromhex, (salt, iv, content, mac))
        case _:
            raise ValueError("not a file of Ethereum with scrypt")
    key = derive(password, salt, n, r, p, 32, **limits)
    digest = keccak.new(digest_bits=256, data=key[16:] + content).digest()
    if not hmac.compare_digest(digest, mac):
        raise ValueError("wrong password")
    return AES.new(key[:16], AES.MODE_CTR, nonce=b"", initial_value=iv).decrypt(content)
