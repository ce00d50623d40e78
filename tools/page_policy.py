"""What pages that tools write are made of: files of this folder, and digests by which a policy allows them."""
import base64
import hashlib
import os

FOLDER = os.path.dirname(os.path.abspath(__file__))


def digest(text: str) -> str:
    """What a policy has of a style or a script that it allows."""
    return "sha256-" + base64.b64encode(hashlib.sha256(text.encode()).digest()).decode()


def part(name: str) -> str:
    """The text of a file of this folder."""
    with open(os.path.join(FOLDER, name), encoding="utf-8") as file:
        return file.read()
