"""What cannot be done, said so that a person can mend it."""

MOST_SENTENCES = 20


class Problem(Exception):
    """One sentence or more; nothing was written."""

    def __init__(self, *sentences):
        super().__init__(*sentences)
        self.sentences = sentences


def raise_all(sentences):
    """Raises the sentences, if there are any; of very many the first ones and a count."""
    more = len(sentences) - MOST_SENTENCES
    if more > 0:
        raise Problem(*sentences[:MOST_SENTENCES], f"and {more} more like these.")
    if sentences:
        raise Problem(*sentences)


def plain(text):
    """The text with a mark in place of each control character, so that a label cannot steer a terminal or break a line."""
    return "".join(c if c.isprintable() else "\N{REPLACEMENT CHARACTER}" for c in text)
