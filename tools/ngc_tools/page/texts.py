"""The languages that a page may speak, as it asks for them."""
import json
import urllib.parse
from functools import cache

from ngc_tools.language import ENGLISH, languages, texts_of


class Texts:
    """The texts of all languages, as they are answered. Those of one are read as it is asked for, once."""

    def __init__(self) -> None:
        """Raises OSError."""
        self._names = languages()
        self._answers = cache(self._answer)

    def answer(self, path: str) -> bytes:
        """The first of the languages that a page wishes, as in `texts?language=de-DE,fr`; English where there is none.
        Raises OSError."""
        wishes = urllib.parse.parse_qs(path.partition("?")[2]).get("language", [""])[0].split(",")
        short = (wish.strip().partition("-")[0].lower() for wish in wishes)
        return self._answers(next((one for one in short if one in self._names), ENGLISH))

    def _answer(self, language: str) -> bytes:
        said = {} if language == ENGLISH else texts_of(language)
        return json.dumps({"language": language, "languages": self._names, "texts": said}).encode()
