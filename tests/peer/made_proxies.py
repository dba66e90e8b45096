"""Proxies that real Ice takes, and their texts as it reads them."""
import base64
import re
from dataclasses import replace

import generate
import proxies
import values


class Maker(generate.ProxyMaker):
    """Makes proxies that Ice takes: no zero byte, no backslash at the end of quotes, hosts, ports and timeouts that may be."""

    texts = ["a", "b", "c/d", "a b", "a:b", "c@d", "it's", 'e"f', "g\\h", "-t", "\n", "\t", "\a", "\x01", "\x7f", "é", "€", "😀", "hello"]

    def text(self, texts=None):
        return super().text(texts or self.texts)

    def some(self, chance, texts=None):
        return super().some(chance, texts or self.texts)

    def tcp(self):
        host = self.chance.choice([b"localhost", b"127.0.0.1", b"::1", b"depot.example.com"])
        timeout = self.chance.choice([60_000, 60_000, -1, 1, 2**31 - 1])
        return values.Tcp(host, self.chance.choice([1, 80, 10_000, 65_535]), timeout, self.chance.random() < 0.3)

    def opaque(self):
        data = self.chance.randbytes(self.chance.choice([1, 2, 3, 20]))
        return values.Opaque(self.chance.choice([99, 200, 1_000]), self.chance.choice([(1, 0), (1, 1)]), data)

    def proxy(self):
        encoding = self.chance.choice([(1, 0), (1, 1), (1, 1)])
        return replace(super().proxy(), protocol=(1, 0), encoding=encoding)


def text_for_ice(proxy):
    """Returns the printed form of a proxy, with the bytes of opaque endpoints as Ice spells them."""
    text = proxies.printed(proxy)
    return re.sub(rb" -x ([0-9a-f]+)", lambda it: b" -v " + base64.b64encode(bytes.fromhex(it[1].decode())), text).decode()
