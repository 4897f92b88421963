"""The page as it is sent: its script put in from the files of page/, and a policy that lets its own script and style run and nothing else."""
import base64
import hashlib
import re

NAMED = re.compile(rb"/\* (page/[a-z]+\.js) \*/\n")


class Page:
    def __init__(self, path):
        self.text = NAMED.sub(lambda found: (path.parent / found[1].decode()).read_bytes(), path.read_bytes())
        self.policy = (
            f"default-src 'none'; script-src {self._hashes(b'script')}; style-src {self._hashes(b'style')}; "
            "connect-src 'self'; img-src data:; base-uri 'none'; form-action 'none'; frame-ancestors 'none'")

    def _hashes(self, kind):
        """The hash of each element of that kind, as the policy wants it."""
        inside = re.findall(rb"<%s[^>]*>(.*?)</%s>" % (kind, kind), self.text, re.S)
        hashes = [base64.b64encode(hashlib.sha256(text).digest()).decode() for text in inside]
        return " ".join(f"'sha256-{one}'" for one in hashes) or "'none'"
