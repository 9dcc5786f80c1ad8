"""Parts of files that are made: between a line that names the part and a line that ends it.

The two lines are comments of the file's language, which hold `made by tools/texts: NAME` and
`made until here`. In a template a line `@NAME@` stands for the part.
"""

import re
from collections import Counter

REGION = re.compile(
    r"^(?P<begin>.*\bmade by tools/texts: (?P<name>\w+).*\n)(?P<body>(?:.*\n)*?)(?P<end>.*\bmade until here\b.*)$",
    re.M,
)
IN_TEMPLATE = re.compile(r"^(?P<begin>)@(?P<name>[\w-]+)@\n(?P<end>)", re.M)


def filled(text, made, form):
    """A text with each part of this form as it is made: made has the lines of each by its name.

    A ValueError names the parts that the text has not once, or has and nobody makes.
    """
    wrong = Counter(it["name"] for it in form.finditer(text))
    wrong.subtract(made.keys())
    names = [it for it, count in wrong.items() if count]
    if names:
        raise ValueError(f"it has these parts not once, or nobody makes them: {names}")

    def part(found):
        body = "".join(f"{it}\n" for it in made[found["name"]])
        return f"{found['begin']}{body}{found['end']}"

    return form.sub(part, text)
