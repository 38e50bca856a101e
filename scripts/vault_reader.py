"""Reads vaults of Cryptomator, with either combination of ciphers, with Python's package cryptography, for scripts."""
import base64
import hmac
import json
import pathlib

from cryptography.hazmat.primitives.ciphers import Cipher, algorithms, modes
from cryptography.hazmat.primitives.ciphers.aead import AESGCM
from cryptography.hazmat.primitives.keywrap import aes_key_unwrap
from vault_writer import Cryptomator, scrypt


class Reader:
    """A vault as it stands on the disk, read by that package; whatever isn't right raises."""

    def __init__(self, root, passphrase):
        self.root = pathlib.Path(root)
        master = json.loads((self.root / "masterkey.cryptomator").read_bytes())
        salt = base64.b64decode(master["scryptSalt"])
        key = scrypt(passphrase, salt, master["scryptCostParam"], master["scryptBlockSize"])
        enc, mac = (aes_key_unwrap(key, base64.b64decode(master[name])) for name in ("primaryMasterKey", "hmacMasterKey"))
        signed, _, signature = (self.root / "vault.cryptomator").read_bytes().strip().rpartition(b".")
        assert self.bytes_of(signature.decode()) == hmac.digest(enc + mac, signed, "sha256"), "signature"
        told = json.loads(self.bytes_of(signed.split(b".")[1].decode()))
        self.vault = Cryptomator(enc, mac, told["shorteningThreshold"], told["cipherCombo"])

    @staticmethod
    def bytes_of(text):
        return base64.urlsafe_b64decode(text + "=" * (-len(text) % 4))

    def tree(self, dir_id=b"", above=""):
        found = {}
        for entry in sorted((self.root / self.vault.folder(dir_id)).iterdir()):
            if entry.name == "dirid.c9r":
                continue
            is_long = entry.suffix == ".c9s"
            text = (entry / "name.c9s").read_text() if is_long else entry.name
            name = self.vault.siv.decrypt(base64.urlsafe_b64decode(text.removesuffix(".c9r")), [dir_id]).decode()
            # it is stored where that name is stored
            assert self.vault.name(dir_id, name.encode())[0] == entry.name, "place"
            if (entry / "dir.c9r").is_file():
                found[above + name] = None
                found |= self.tree((entry / "dir.c9r").read_bytes(), f"{above}{name}/")
            else:
                found[above + name] = self.content((entry / "contents.c9r" if is_long else entry).read_bytes())
        return found

    def content(self, stored):
        nonce_size, tag_size = {"SIV_GCM": (12, 16), "SIV_CTRMAC": (16, 32)}[self.vault.combo]
        front = nonce_size + 40 + tag_size
        header = stored[:nonce_size]
        key = self.opened(self.vault.enc, stored[:front], b"", b"")[8:]
        content, step = b"", nonce_size + 32_768 + tag_size
        for number, start in enumerate(range(front, len(stored), step)):
            content += self.opened(key, stored[start : start + step], header, number.to_bytes(8, "big"))
        return content

    def opened(self, key, stored, header, number):
        if self.vault.combo == "SIV_GCM":
            return AESGCM(key).decrypt(stored[:12], stored[12:], number + header)
        text, tag = stored[:-32], stored[-32:]
        assert tag == hmac.digest(self.vault.mac, header + number + text, "sha256"), "tag"
        return Cipher(algorithms.AES(key), modes.CTR(text[:16])).decryptor().update(text[16:])
