"""The text of a picture: what is written of words that are markup, and the kinds of elements."""
import re
import xml.etree.ElementTree as tree

from suite import days
from suite.case import Case, Group, rows_apart
from suite.printed import printed
from suite.programs import run
from suite.rows import read_rows

PROGRAMS = ("claimpicture",)


def picture(product: bytes) -> str:
    """The picture of a price of a product."""
    settings = days.parts(days.named("restarts"))[0].split(b"---\n")[0]
    spelled = printed(product).replace(" ", "\\x20").encode()
    given = settings + b"---\nplan pr1 " + spelled + b" 20000\n"
    return run("claimpicture", given=given).told()


def skeleton() -> str:
    """The kinds of elements of a picture, those behind the first three in the order of their names; and whether title and description
    name the root."""
    root = tree.fromstring(picture(b"X"))
    kinds = [it.tag.split("}")[1] for it in root]
    order = kinds[:3] + sorted(set(kinds[3:]))
    named = root.get("role") == "img" and root.get("aria-labelledby") == " ".join(it.get("id") for it in root[:2])
    return " ".join([*order, "named" if named else "not named"])


def tell(word: str, argument: bytes) -> str:
    if word == "skeleton":
        return skeleton()
    return next(it for it in re.findall(">([^<]*)</text>", picture(argument)) if " costs " in it)


def groups(path: str, name: str, kind: type[Case]) -> list[Group]:
    return rows_apart(name, read_rows(path), tell, kind)
