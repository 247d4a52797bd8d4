"""Text as a reader can tell it apart: what is shown of it, and characters that only look like those of ASCII."""
import unicodedata

# Cyrillic and Greek letters, and a few others, each with the one of ASCII that it looks like.
SAME_LOOK = dict(zip("АВЕКМНОРСТУХаеорсухіјѕԁѵΑΒΕΖΗΙΚΜΝΟΡΤΥΧονı‐‑‒–—−", "ABEKMHOPCTYXaeopcyxijsdvABEZHIKMNOPTYXovi------"))


def shown(data, limit=100):
    """Bytes as one line of text that hides nothing."""
    text = data.decode("utf-8", "backslashreplace") if isinstance(data, bytes) else str(data)
    size = len(text)
    text = "".join(it if it.isprintable() else it.encode("unicode_escape").decode() for it in text[: limit + 1])
    return text if size <= limit else f"{text[:limit]}.. ({size} characters)"


def odd_bytes(data, limit=32):
    """The bytes in hexadecimal, where some are no printable ASCII; else nothing."""
    if all(0x20 <= it <= 0x7E for it in data):
        return ""
    return " ".join(f"{it:02x}" for it in data[:limit]) + (" .." if len(data) > limit else "")


def some(words, limit=12):
    """The first of these, and how many more there are."""
    return ", ".join(words[:limit]) + (f" and {len(words) - limit} more" if len(words) > limit else "")


def plain(letter):
    """The characters of ASCII that this one looks like, none for one that takes no room, and else itself."""
    kind = unicodedata.category(letter)
    if letter.isascii() or kind == "No":
        return letter
    if kind == "Cf":
        return ""
    alike = SAME_LOOK.get(letter) or unicodedata.normalize("NFKC", letter)
    return alike if alike.isascii() else letter


def plain_text(text):
    return "".join(map(plain, text))


def called(letter):
    """A character and its name."""
    name = unicodedata.name(letter, f"U+{ord(letter):04X}")
    return f"{letter} ({name})" if letter.isprintable() else name


def look_alikes(text):
    """In words, the characters of a text that only look like ASCII or are not seen; nothing where there are none."""
    found = [it for it in dict.fromkeys(text) if plain(it) != it]
    return some([f"{called(it)}, which {looks(plain(it))}" for it in found], 3)


def looks(alike):
    if not alike:
        return "is not seen"
    return "looks like " + ("a blank" if alike == " " else alike)
