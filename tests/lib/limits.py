"""The limits of the sources."""
import functools
import re

import rattle
from built import TOP


@functools.cache
def constants():
    """The public constants of the crates that are numbers."""
    without_texts = lambda source: rattle.TOKEN.sub(lambda token: '""' if token["text"] else token[0], source)
    sources = " ".join(without_texts(path.read_text()) for path in TOP.glob("crates/*/src/**/*.rt"))
    texts = dict(re.findall(r"\bpub const ([A-Z_]+): (?:u8|u16|u32|u64|usize) =\s+([^;]+);", sources))

    def value(text):
        return eval(re.sub(r"[A-Z_]{2,}", lambda name: str(value(texts[name[0]])), " ".join(re.sub(r"\bas \w+", "", text).split())))

    return {name: value(text) for name, text in texts.items()}
